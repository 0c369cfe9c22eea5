//! Folding: what is dropped and kept, every clause of soundness that this brings, lengths up to 2^63, takes between
//! offices that have dropped different parts, and what is read over a dropped part; then worlds that fold.

use super::boundaries::{A, B, C, D, WEIGHTS};
use super::Trials;
use crate::record::{entry, Kept, LENGTH, OFFICES};
use crate::samples::Sample;

mod limits;
mod reads;
mod soundness;
mod takes;
mod worlds;

/// Entries of three offices: edits of few lines, one of them to 0, and moves that have an effect and that have none.
const PATH: [u32; 8] = [A, B, entry(0, 65, 5), D, entry(2, 63, 0), C, entry(1, 66, 9999), entry(1, 5, 9)];

/// Writes the trials of folding; the worlds make this many calls.
pub(super) fn write(trials: &mut Trials, seed: u64, count: usize) {
    folds(trials);
    offices(trials);
    long_logs(trials);
    soundness::write(trials);
    limits::write(trials);
    takes::write(trials);
    reads::write(trials);
    worlds::write(trials, seed, count);
}

/// What was kept of two entries of office 0 and one of office 2 that nobody knows any more.
fn kept() -> Kept {
    let mut kept = Kept::nothing([40, 35, 25, 0, 0, 0, 0, 0]);
    (kept.dropped, kept.counts[0], kept.counts[2]) = (3, 2, 1);
    (kept.codes[5], kept.codes[7], kept.codes[63]) = (78, 1, 10_000);
    (kept.present[0], kept.present[1]) = (30, 45);
    kept
}

/// The same with so many entries dropped, most of them of office 1.
fn kept_of(dropped: u64) -> Kept {
    let mut kept = kept();
    kept.counts[1] += dropped - kept.dropped;
    kept.dropped = dropped;
    kept
}

/// The office, behind made-up entries or not, with the path as its log.
fn office(own: usize, kept: Option<Kept>, settled: &[u32]) -> Sample {
    let sample = Sample::new(own, &WEIGHTS, settled, &[(own, &[D]), (2, &[C, D])]);
    kept.map_or(sample.clone(), |kept| sample.behind(kept))
}

/// Folds, reads what is left, folds again.
fn fold(trials: &mut Trials, sample: &Sample) {
    trials.sample(sample);
    for line in ["D", "P", "A", "U", "D"] {
        trials.say(line);
    }
}

/// Lengths noted of two other offices, each from nothing to the own one, with nothing dropped, with some entries of the
/// path dropped, and behind others.
fn folds(trials: &mut Trials) {
    trials.begin();
    for (kept, gone) in [(None, 0), (None, 3), (None, 8), (Some(kept()), 0), (Some(kept()), 2)] {
        let whole = office(1, kept, &PATH).without(gone);
        let (first, last) = (kept.map_or(0, |kept| kept.dropped), whole.record.settled);
        let lengths = [0, 1, first, first + 1, first + 2, first + 5, last - 1, last];
        for zero in lengths.into_iter().filter(|&length| length <= last) {
            for two in [0, first + 2, last - 1, last] {
                fold(trials, &whole.clone().noting(&[(0, zero), (2, two)]));
            }
        }
    }
}

/// One office drops all that it has; of more, one is never heard of, and then each is.
fn offices(trials: &mut Trials) {
    trials.begin();
    for n in 1..=OFFICES {
        for own in [0, n - 1] {
            let sample = Sample::new(own, &vec![7; n], &[A, A, entry(0, 64, 1), D], &[(own, &[D])]);
            fold(trials, &sample);
            for silent in (0..n).filter(|&office| office != own) {
                let heard = (0..n).filter(|&office| office != own && office != silent);
                let noted: Vec<(usize, u64)> = heard.map(|office| (office, 3)).collect();
                fold(trials, &sample.clone().noting(&noted));
                fold(trials, &sample.clone().noting(&noted).noting(&[(silent, 2)]));
            }
        }
    }
    trials.sample(&Sample::new(0, &[1], &[], &[]));
    trials.say("D");
}

/// Full logs folded by one entry, by all but one, by all; then issues, elections and messages go on.
fn long_logs(trials: &mut Trials) {
    let settled: Vec<u32> = (0..1024).map(|at| entry(at as usize % 3, at % 64, at)).collect();
    for known in [1, 2, 512, 1023, 1024] {
        trials.begin();
        trials.sample(&Sample::new(0, &[99, 1, 0], &settled, &[]).noting(&[(1, known), (2, 1024)]));
        trials.output(6100);
        for line in ["I 5 120", "D", "P", "I 5 120", "I 6 0", "S", "E", "I 63 9999", "V 5", "V 6", "D", "E", "U"] {
            trials.say(line);
        }
    }
}
