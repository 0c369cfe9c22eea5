//! Votes that move: their lines and codes, present weights, and what a settled move does.

use super::boundaries::{A, B, C, D, WEIGHTS};
use super::cases::{election, taking};
use super::Trials;
use crate::record::{entry, Record};
use crate::samples::Sample;

/// A move of weight from one office to another.
fn move_entry(from: usize, to: u32, code: u32) -> u32 {
    entry(from, 64 + to, code)
}

/// Writes the trials of moves.
pub(super) fn write(trials: &mut Trials) {
    (1..=8).for_each(|n| limits(trials, n));
    (1..=8).for_each(|n| other_offices(trials, n));
    present(trials);
    effects(trials);
    orders(trials);
    every_election(trials);
    takes(trials);
}

/// Lines and codes around their limits among n offices: issued, in a log, in a ballot and in a message.
fn limits(trials: &mut Trials, n: usize) {
    let weights = vec![2; n];
    let count = n as u32;
    let mut lines = vec![63, 64, 63 + count, 64 + count, 71, 72, 255];
    lines.sort_unstable();
    lines.dedup();
    let pairs = || lines.iter().flat_map(|&line| [0, 1, 9999, 10_000].map(|code| (line, code)));
    trials.begin();
    trials.sample(&Sample::new(n - 1, &weights, &[], &[]));
    for (line, code) in pairs() {
        trials.say(&format!("I {line} {code}"));
    }
    trials.say("V 63");
    trials.say("V 64");
    for (line, code) in pairs() {
        let word = entry(n - 1, line, code);
        for sample in [Sample::new(0, &weights, &[word], &[]), Sample::new(0, &weights, &[], &[(n - 1, &[word])])] {
            trials.sample(&sample);
            trials.say("U");
            trials.message(&sample.spelled());
            trials.sample(&Sample::new(n - 1, &weights, &[], &[]));
            trials.say("T");
        }
    }
}

/// Messages of n offices, at one of three: the lines are those of the message's own n.
fn other_offices(trials: &mut Trials, n: usize) {
    trials.begin();
    trials.sample(&Sample::new(1, &WEIGHTS, &[], &[]));
    let weights = vec![40; n];
    for line in [66, 63 + n as u32, 64 + n as u32] {
        let word = entry(0, line, 1);
        trials.message(&Sample::new(0, &weights, &[word], &[]).spelled());
        trials.say("T");
        trials.message(&Sample::new(0, &weights, &[], &[(0, &[D, word])]).spelled());
        trials.say("T");
    }
}

/// A change after which the present weights don't follow from the log, or still do.
type Change = fn(&mut Record);

const CHANGES: [Change; 15] = [
    |_| {},
    |r| r.present[0] += 1,
    |r| r.present[0] -= 1,
    |r| r.present[1] += 1,
    |r| r.present[1] -= 1,
    |r| r.present[2] += 1,
    |r| r.present[2] -= 1,
    |r| r.present[3] = 1,
    |r| r.present[7] = 1,
    |r| r.present = r.weights,
    |r| r.present.swap(0, 2),
    |r| r.present = [0; 8],
    |r| r.weights[0] += 1,
    |r| (r.weights[0], r.present[0]) = (r.weights[0] + 1, r.present[0] + 1),
    |r| r.settled = 1,
];

/// Present weights off by one, of the founding, of fewer entries; and those that moves of too much would leave.
fn present(trials: &mut Trials) {
    let settled = [move_entry(0, 1, 15), D, move_entry(1, 2, 36)];
    for change in CHANGES {
        trials.begin();
        trials.sent(&Sample::new(0, &WEIGHTS, &settled, &[(0, &[A])]));
        trials.output(100);
        let mut sample = Sample::new(1, &WEIGHTS, &settled, &[(1, &[D])]);
        change(&mut sample.record);
        trials.sample(&sample);
        trials.all_calls();
    }
    for (word, present) in [
        (move_entry(0, 1, 41), [65535, 76, 25]),
        (move_entry(0, 1, 41), [0, 75, 25]),
        (move_entry(0, 0, 15), [55, 35, 25]),
        (move_entry(0, 0, 15), [25, 35, 25]),
        (move_entry(2, 0, 25), [65, 35, 0]),
        (move_entry(2, 0, 25), [40, 35, 25]),
    ] {
        trials.begin();
        let mut sample = Sample::new(1, &WEIGHTS, &[word], &[]);
        sample.record.present[..3].copy_from_slice(&present);
        trials.sample(&sample);
        trials.say("U");
    }
}

/// One move that is settled by an election, and by a take: all that the issuer has, one more, up to 65535, one past it,
/// to oneself.
fn effects(trials: &mut Trials) {
    for (has, other) in [(40, 35), (1, 0), (9999, 0), (9998, 1), (65535, 55536), (65535, 55537), (10_000, 65534)] {
        for (to, code) in [(0, 1), (1, 1), (1, 2), (1, 39), (1, 40), (1, 41), (1, 9998), (1, 9999), (0, 9999)] {
            let (weights, word) = ([has, other], move_entry(0, to, code));
            election(trials, &weights, &[(0, &[word]), (1, &[word, B])]);
            trials.say("U");
            trials.sample(&Sample::new(1, &weights, &[], &[(1, &[word, B])]));
            trials.message(&Sample::new(0, &weights, &[word], &[(0, &[A])]).message());
            trials.say("T");
            trials.say("E");
        }
    }
}

/// The same tail at three offices.
fn all(tail: &[u32]) -> [(usize, &[u32]); 3] {
    [(0, tail), (1, tail), (2, tail)]
}

/// Moves after each other: each step of one call uses the weights that the step before it left.
fn orders(trials: &mut Trials) {
    // The second moves what the first brought; in the other order it is short.
    election(trials, &WEIGHTS, &all(&[move_entry(0, 1, 30), move_entry(1, 2, 65), A]));
    election(trials, &WEIGHTS, &all(&[move_entry(1, 2, 65), move_entry(0, 1, 30), A]));
    // There and back; twice, the second short.
    election(trials, &WEIGHTS, &all(&[move_entry(0, 1, 40), move_entry(1, 0, 40), move_entry(0, 1, 41)]));
    election(trials, &WEIGHTS, &all(&[move_entry(0, 1, 21), move_entry(0, 1, 20)]));
    // Office 0's entry wins only by the weight that office 2 has just handed on.
    election(trials, &WEIGHTS, &[(0, &[move_entry(2, 0, 25), A]), (2, &[move_entry(2, 0, 25)])]);
    election(trials, &WEIGHTS, &[(0, &[move_entry(2, 0, 25), A]), (1, &[B]), (2, &[move_entry(2, 0, 25)])]);
    // The entry behind a move loses by it: 65 before, 25 after.
    election(trials, &WEIGHTS, &[(0, &[move_entry(0, 1, 40), A]), (2, &[move_entry(0, 1, 40), A])]);
    // A move that costs its issuer the next tie, one to itself that doesn't, and one that costs a lead.
    for (to, code) in [(1, 1), (0, 1), (1, 50), (1, 51)] {
        let word = move_entry(0, to, code);
        election(trials, &[50, 50, 0], &[(0, &[word, B]), (1, &[word, C]), (2, &[word, C])]);
        election(trials, &[50, 50], &[(0, &[word, A]), (1, &[word, B])]);
        election(trials, &[51, 50, 0], &[(0, &[word, A]), (1, &[word, B]), (2, &[word, C])]);
    }
    // The moved weight is unheard: it counts for U where it is now.
    election(trials, &[50, 50, 0], &[(0, &[move_entry(1, 2, 1), A]), (1, &[move_entry(1, 2, 1), B])]);
    election(trials, &[51, 50, 0], &[(0, &[move_entry(1, 2, 1), A]), (1, &[move_entry(1, 2, 1), B])]);
}

/// Every election of three offices over five ballots with moves, from an empty log and behind a move.
fn every_election(trials: &mut Trials) {
    let (first, second) = (move_entry(2, 0, 25), move_entry(0, 1, 1));
    let tails: [&[u32]; 5] = [&[], &[first, A], &[first, second], &[second, B], &[A]];
    for (weights, settled) in [(WEIGHTS, &[][..]), ([1, 1, 25], &[second])] {
        trials.begin();
        for place in 0..125 {
            let ballots = [(0, tails[place / 25]), (1, tails[place / 5 % 5]), (2, tails[place % 5])];
            trials.sample(&Sample::new(0, &weights, settled, &ballots));
            trials.say("E");
        }
    }
}

/// Takes bring the present weights along; the weights of a message are those of the founding.
fn takes(trials: &mut Trials) {
    let path = [move_entry(0, 1, 30), D, move_entry(1, 2, 65), move_entry(0, 1, 11), A];
    for theirs in 0..=path.len() {
        for ours in 0..=path.len() {
            let tails = (&path[theirs..], &path[ours..]);
            let sender = Sample::new(0, &WEIGHTS, &path[..theirs], &[(0, tails.0), (2, tails.0)]);
            taking(trials, &sender, &Sample::new(1, &WEIGHTS, &path[..ours], &[(1, tails.1)]));
        }
    }
    trials.begin();
    let sender = Sample::new(0, &WEIGHTS, &path[..3], &[]);
    let present = Record { weights: sender.record.present, ..sender.record };
    for record in [sender.record, present] {
        trials.sample(&Sample::new(1, &WEIGHTS, &path[..3], &[(1, &[C])]));
        trials.message(&Sample { record, ..sender.clone() }.spelled());
        trials.say("T");
    }
}
