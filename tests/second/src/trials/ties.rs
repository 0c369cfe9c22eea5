//! Even votes: the office with fewer settled entries, then the lower value, by the log at each step.

use super::boundaries::{A, B, C, D, WEIGHTS};
use super::Trials;
use crate::record::entry;
use crate::samples::Sample;

/// Writes the trials of ties.
pub(super) fn write(trials: &mut Trials) {
    counts(trials);
    other_counts(trials);
    steps(trials);
    long_logs(trials);
}

/// Elects over this log, shows what is settled, and elects again.
fn tie(trials: &mut Trials, weights: &[u16], settled: &[u32], ballots: &[(usize, &[u32])]) {
    trials.begin();
    trials.sample(&Sample::new(0, weights, settled, ballots));
    for line in ["E", "P", "E"] {
        trials.say(line);
    }
}

/// Each of three offices has none to two entries in the log: ties of two, of three, and with an office unheard.
fn counts(trials: &mut Trials) {
    for place in 0..27 {
        let settled = [vec![D; place / 9], vec![B; place / 3 % 3], vec![C; place % 3]].concat();
        tie(trials, &[50, 50, 0], &settled, &[(0, &[A]), (1, &[B])]);
        tie(trials, &[50, 50, 0], &settled, &[(0, &[B]), (1, &[A])]);
        tie(trials, &[1, 1, 1], &settled, &[(0, &[A]), (1, &[B]), (2, &[C])]);
        tie(trials, &[60, 40, 20], &settled, &[(0, &[C]), (1, &[B])]);
    }
}

/// Entries of one office, moves, long tails, and lines that are edited more often than others.
fn other_counts(trials: &mut Trials) {
    let (own, other) = (entry(0, 5, 119), entry(0, 5, 121));
    for settled in [&[][..], &[A], &[B], &[entry(0, 64, 1)], &[entry(1, 65, 1)], &[entry(0, 66, 9999), B]] {
        tie(trials, &[50, 50, 0], settled, &[(0, &[own]), (1, &[other])]);
        tie(trials, &[50, 50, 0], settled, &[(0, &[other]), (1, &[own])]);
        tie(trials, &[50, 50, 0], settled, &[(0, &[A, D, D, D]), (1, &[B])]);
        tie(trials, &[50, 50, 0], settled, &[(0, &[A]), (1, &[B, B, C, B])]);
        tie(trials, &[50, 50, 0], settled, &[(0, &[entry(0, 3, 1)]), (1, &[entry(1, 2, 1)])]);
        tie(trials, &[50, 50, 0], settled, &[(0, &[entry(0, 65, 1)]), (1, &[entry(1, 64, 1)])]);
    }
    let often = [entry(2, 7, 1), entry(2, 7, 2), entry(0, 8, 1)];
    tie(trials, &[50, 50, 0], &often, &[(0, &[entry(0, 8, 2)]), (1, &[entry(1, 7, 3)])]);
    tie(trials, &[50, 50, 0], &often, &[(0, &[entry(0, 9, 2)]), (1, &[entry(1, 7, 3)])]);
    let eight: Vec<[u32; 1]> = (0..8).map(|office| [entry(7 - office, 1, 1)]).collect();
    let ballots: Vec<(usize, &[u32])> = eight.iter().enumerate().map(|(office, tail)| (office, &tail[..])).collect();
    for length in 0..9 {
        let settled: Vec<u32> = (0..length).map(|office| entry(office % 8, 2, 2)).collect();
        tie(trials, &[9; 8], &settled, &ballots);
    }
}

/// Ties behind an entry that the same call settles, and two ties in one call, the second decided by the first.
fn steps(trials: &mut Trials) {
    for first in [D, entry(1, 6, 7), entry(2, 6, 7), entry(0, 64, 1), entry(1, 65, 1)] {
        for settled in [&[][..], &[A], &[B]] {
            tie(trials, &[50, 50, 0], settled, &[(0, &[first, A]), (1, &[first, B])]);
            tie(trials, &[50, 50, 0], settled, &[(0, &[first, D, A]), (1, &[first, D, B])]);
        }
    }
    // 50 against 50; then, by the move, 50 against 25 with 25 unheard.
    for (from, to) in [(1, 64), (1, 66)] {
        let first = entry(from, to, 25);
        for (x, y) in [(B, C), (C, B), (A, B), (B, A)] {
            for settled in [&[][..], &[B], &[C]] {
                tie(trials, &[25, 50, 25], settled, &[(0, &[first, x]), (1, &[C]), (2, &[first, y])]);
            }
        }
    }
    tie(trials, &WEIGHTS, &[A], &[(0, &[A]), (1, &[B]), (2, &[C])]);
}

/// Counts around powers of two, and logs that are full but for one entry.
fn long_logs(trials: &mut Trials) {
    for (first, second) in [
        (0, 256),
        (256, 0),
        (255, 256),
        (256, 255),
        (256, 256),
        (257, 1),
        (1, 257),
        (511, 512),
        (512, 511),
        (1023, 0),
        (0, 1023),
        (1022, 1),
    ] {
        let settled = [vec![D; first], vec![B; second]].concat();
        tie(trials, &[50, 50, 0], &settled, &[(0, &[A]), (1, &[B])]);
    }
}
