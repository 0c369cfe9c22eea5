//! What is read over a dropped part: earlier places, version vectors, ties, forecasts, sheets, frames.

use super::*;
use crate::sheet::household;

pub(super) fn write(trials: &mut Trials) {
    earlier(trials);
    vectors(trials);
    ties(trials);
    forecasts(trials);
    sheets(trials);
}

/// Offices with and without dropped parts, whose logs end at the same entries.
fn offices() -> [Sample; 6] {
    let whole = |kept, gone| office(1, kept, &PATH).without(gone);
    let far = kept_of((1 << 40) + 3);
    [
        whole(None, 0),
        whole(None, 3),
        whole(None, 8),
        whole(Some(kept()), 0),
        whole(Some(kept()), 5),
        whole(Some(far), 2),
    ]
}

/// Lines as of every place from before the dropped part to past the last, and far away.
fn earlier(trials: &mut Trials) {
    let lines: [&[u8]; 9] = [&[], &[5], &[7], &[63], &[0], &[5, 6], &[63, 7, 5, 5], &[64], &[6; 65]];
    trials.begin();
    for sample in offices() {
        trials.sample(&sample);
        let (dropped, settled) = (sample.record.kept.dropped, sample.record.settled);
        let near = dropped.saturating_sub(2)..=settled + 1;
        for named in lines {
            trials.message(named);
            for p in near.clone().chain([0, 1, settled + (1 << 32), 1 << 63, u64::MAX]) {
                trials.say(&format!("Q {p}"));
            }
        }
    }
    let all: Vec<u8> = (0..64).collect();
    trials.message(&all);
    for sample in offices() {
        trials.sample(&sample);
        trials.say(&format!("Q {}", sample.record.settled));
        trials.say(&format!("Q {}", sample.record.kept.dropped));
        trials.say("A");
    }
}

/// The vectors of each office, read back, and others around them: counts past 32 bits among them.
fn vectors(trials: &mut Trials) {
    trials.begin();
    trials.output(8 * 3 * 4);
    for sample in offices() {
        trials.sample(&sample);
        trials.say("W");
        let vectors = trials.state().output.clone();
        for vector in vectors.chunks(24) {
            for (place, change) in [(7, 0), (7, 1), (15, 1), (23, 1), (11, 1), (8, 128), (10, 1)] {
                let mut other = vector.to_vec();
                other[place] ^= change;
                trials.message(&other);
                trials.say("C");
            }
        }
    }
}

/// Level entries of offices 0 and 1, decided by the kept counts, by those and the log's, or by value.
fn ties(trials: &mut Trials) {
    trials.begin();
    for (zero, one) in [(2, 1), (1, 2), (2, 2), (0, 3), (1 << 32, 1), (1, 1 << 32), ((1 << 61) + 1, 1 << 61)] {
        for settled in [&[][..], &[A], &[B], &[B, B], &[A, B, A]] {
            let mut kept = Kept::nothing([50, 50, 0, 0, 0, 0, 0, 0]);
            (kept.counts[0], kept.counts[1], kept.dropped) = (zero, one, zero + one);
            for (first, second) in [(A, B), (B, A), (A, D), (D, A)] {
                let ballots: [(usize, &[u32]); 2] = [(0, &[first, B, D]), (1, &[second, A])];
                trials.sample(&Sample::new(0, &[50, 50, 0], settled, &ballots).behind(kept));
                trials.say("B 50 50 0 0 0 0 0 0 50 50 0 0 0 0 0 0");
                trials.say("E");
                trials.say("E");
            }
        }
    }
}

/// Forecasts at the bound: kept counts decide, kept and present weights play no part; before and after a fold alike.
fn forecasts(trials: &mut Trials) {
    trials.begin();
    for (gone, known) in [(0, 0), (0, 2), (1, 2), (2, 2)] {
        let ballots: [(usize, &[u32]); 2] = [(0, &[A]), (1, &[B])];
        let sample = Sample::new(2, &WEIGHTS, &[D, B, entry(0, 65, 40)], &ballots).without(gone);
        trials.sample(&sample.noting(&[(0, known), (1, known)]));
        for _ in 0..2 {
            for (low, high) in [(50, 50), (51, 50), (49, 50)] {
                trials.say(&format!("B {low} 0 0 0 0 0 0 0 60 {high} 0 0 0 0 0 0"));
                trials.say(&format!("B 0 {low} 0 0 0 0 0 0 {high} 60 0 0 0 0 0 0"));
            }
            trials.say("B 2 1 0 0 0 0 0 0 1 1 0 0 0 0 0 0");
            trials.say("D");
        }
    }
}

/// Sheets and frames from kept codes, before and after a fold; one office alone drops all that it has.
fn sheets(trials: &mut Trials) {
    let households: Vec<u8> = (0..64).flat_map(|line| household(line, 1 << (line / 2))).collect();
    for sample in offices() {
        trials.begin();
        trials.message(&households);
        trials.sample(&sample.noting(&[(0, 6), (2, 4)]));
        for line in ["H", "V 5", "V 7", "V 63", "D", "H", "V 5", "V 7", "V 63", "A"] {
            trials.say(line);
        }
    }
    trials.begin();
    trials.message(&households);
    trials.sample(&Sample::new(0, &[9], &[A, D, entry(0, 64, 3), entry(0, 5, 0)], &[(0, &[entry(0, 8, 8)])]));
    for line in ["H", "D", "H", "A", "V 8", "V 5", "P", "E", "H", "D", "D"] {
        trials.say(line);
    }
}
