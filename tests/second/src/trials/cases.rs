//! Document 01's cases A to L, and a further case for each mistake that they miss.

use super::boundaries::{A, B, C, D, WEIGHTS};
use super::Trials;
use crate::record::{entry, LOG};
use crate::samples::{in_turn, Sample};

/// Ballots: an office and its tail.
type Ballots<'a> = &'a [(usize, &'a [u32])];

/// Writes the trials of elections, and of takes from one sound record to another.
pub(super) fn write(trials: &mut Trials) {
    lettered_elections(trials);
    further_elections(trials);
    full_elections(trials);
    lettered_takes(trials);
    further_takes(trials);
    growing(trials);
    full_takes(trials);
}

/// Elects, shows what is settled, and elects again.
pub(super) fn election(trials: &mut Trials, weights: &[u16], ballots: Ballots) {
    trials.begin();
    trials.sample(&Sample::new(0, weights, &[], ballots));
    for line in ["E", "P", "V 5", "E"] {
        trials.say(line);
    }
}

/// Cases A to H.
fn lettered_elections(trials: &mut Trials) {
    election(trials, &WEIGHTS, &[(0, &[A])]);
    election(trials, &WEIGHTS, &[(0, &[A]), (2, &[A])]);
    election(trials, &WEIGHTS, &[(0, &[A]), (1, &[B])]);
    election(trials, &WEIGHTS, &[(0, &[A]), (1, &[B]), (2, &[C])]);
    election(trials, &[50, 50, 0], &[(0, &[A]), (1, &[B])]);
    election(trials, &[50, 50], &[(0, &[A])]);
    election(trials, &WEIGHTS, &[(0, &[A, D]), (2, &[A, D])]);
    election(trials, &[40, 30, 30], &[(0, &[A, D]), (1, &[A]), (2, &[C])]);
}

/// Ties before and after U is added, zero weights, all weights as large as can be, values in every order.
fn further_elections(trials: &mut Trials) {
    for (first, second) in [(A, B), (B, A), (A, D), (D, A), (B, C), (C, B)] {
        for weights in [[40, 40, 20], [60, 40, 20], [40, 60, 20], [61, 40, 20], [59, 40, 20], [40, 61, 20]] {
            election(trials, &weights, &[(0, &[first]), (1, &[second])]);
        }
    }
    election(trials, &[0, 1], &[(0, &[A])]);
    election(trials, &[0, 1], &[(0, &[A]), (1, &[B])]);
    election(trials, &[1, 0], &[(0, &[A, D]), (1, &[B])]);
    election(trials, &[1], &[(0, &[A, A, D, A])]);
    election(trials, &[65535; 8], &[(0, &[A]), (1, &[A]), (2, &[A]), (3, &[A]), (4, &[A])]);
    election(trials, &[65535; 8], &[(0, &[A]), (1, &[A]), (2, &[A]), (3, &[A])]);
    let halves: Ballots = &[(0, &[B]), (1, &[B]), (2, &[B]), (3, &[B]), (4, &[A]), (5, &[A]), (6, &[A]), (7, &[A])];
    election(trials, &[65535; 8], halves);
    let eight: Vec<[u32; 2]> = (0..8).map(|office| [entry(7 - office, 1, 1), entry(office, 2, 2)]).collect();
    let ballots: Vec<(usize, &[u32])> = eight.iter().enumerate().map(|(office, tail)| (office, &tail[..])).collect();
    election(trials, &[9; 8], &ballots);
    election(trials, &[1, 2, 3, 4, 5, 6, 7, 8], &ballots);
    // The lead changes once a reset office counts as unheard.
    election(trials, &[34, 33, 33], &[(0, &[A, B]), (1, &[A, C]), (2, &[A, B])]);
    election(trials, &[34, 33, 33], &[(0, &[A, B]), (1, &[A, C]), (2, &[A])]);
}

/// Elections that end at the end of the log.
fn full_elections(trials: &mut Trials) {
    for settled in [992, 1000, 1022, 1023, 1024] {
        let tail = in_turn(2, 5000, 32.min(LOG - settled));
        trials.begin();
        trials.sample(&Sample::new(0, &[2, 1], &vec![A; settled], &[(0, &tail), (1, &tail)]));
        for line in ["E", "P", "E", "I 0 0", "V 1"] {
            trials.say(line);
        }
    }
}

/// Takes a message of one record at another, twice.
pub(super) fn taking(trials: &mut Trials, sender: &Sample, receiver: &Sample) {
    trials.begin();
    trials.sent(sender);
    trials.output(0);
    trials.sample(receiver);
    for line in ["T", "V 5", "V 6", "T", "E", "T", "P"] {
        trials.say(line);
    }
}

/// Cases I to L.
fn lettered_takes(trials: &mut Trials) {
    let office = |own, settled: &[u32], ballots: Ballots| Sample::new(own, &WEIGHTS, settled, ballots);
    taking(trials, &office(2, &[A], &[]), &office(1, &[], &[(1, &[B])]));
    taking(trials, &office(0, &[], &[(0, &[A, D])]), &office(1, &[A], &[]));
    taking(trials, &office(0, &[B], &[]), &office(1, &[A], &[]));
}

/// The mistakes that A to L miss, and messages that are refused for their sender, weights or log.
fn further_takes(trials: &mut Trials) {
    let office = |own, settled: &[u32], ballots: Ballots| Sample::new(own, &WEIGHTS, settled, ballots);
    let mut from_0 = |settled: &[u32], theirs: Ballots, ours: Ballots| {
        taking(trials, &office(0, settled, theirs), &office(1, settled, ours));
    };
    // More entries of each office, and no beginning.
    from_0(&[], &[(0, &[D, A]), (2, &[D, A])], &[(1, &[A]), (2, &[A])]);
    from_0(&[], &[(0, &[D, A, B]), (2, &[B, A, D])], &[(1, &[A, D]), (2, &[A, B])]);
    // Merely longer; a differing own ballot; as long; a beginning.
    from_0(&[], &[(0, &[A, D]), (2, &[A, D, A])], &[(1, &[B]), (2, &[C])]);
    from_0(&[], &[(0, &[A])], &[(1, &[B])]);
    from_0(&[C], &[(0, &[A]), (2, &[A])], &[(0, &[A, D]), (1, &[A]), (2, &[A, D])]);
    // The message's ballot for the receiver.
    from_0(&[], &[(1, &[B, D])], &[(1, &[B])]);
    from_0(&[], &[(1, &[B, D])], &[]);
    // The own ballot follows the sender's, the sender's is noted too.
    from_0(&[A], &[(0, &[D, B]), (2, &[C])], &[(1, &[D])]);
    from_0(&[A], &[(2, &[C])], &[(0, &[D])]);
    taking(trials, &office(1, &[B], &[]), &office(1, &[A], &[]));
    taking(trials, &Sample::new(1, &[40, 35, 26], &[B], &[]), &office(1, &[A], &[]));
    taking(trials, &Sample::new(0, &[40, 35], &[A], &[]), &office(1, &[A], &[]));
    taking(trials, &Sample::new(0, &[40, 35, 25, 0], &[A], &[]), &office(1, &[A], &[]));
    taking(trials, &office(0, &[A, B], &[(0, &[A])]), &office(1, &[A, D], &[(1, &[A])]));
    taking(trials, &office(0, &[A, B, D], &[]), &office(1, &[A, D], &[(1, &[A])]));
    taking(trials, &office(0, &[B], &[]), &office(1, &[A, D], &[]));
}

/// Logs that grow by a take, and messages whose log is the shorter one.
fn growing(trials: &mut Trials) {
    let office = |own, settled: &[u32], ballots: Ballots| Sample::new(own, &WEIGHTS, settled, ballots);
    let ours: Ballots = &[(0, &[A, D]), (1, &[A, D, B]), (2, &[A, C])];
    for settled in [&[A][..], &[A, D], &[A, D, B], &[A, D, B, C], &[B]] {
        taking(trials, &office(0, settled, &[]), &office(1, &[], ours));
        taking(trials, &office(0, settled, &[(0, &[A]), (2, &[B])]), &office(1, &[], ours));
    }
    let theirs: Ballots = &[(0, &[A, D, B]), (1, &[A, D]), (2, &[A])];
    for settled in [&[A][..], &[A, D], &[A, D, B], &[A, D, B, C], &[B], &[A, B], &[A, D, C]] {
        taking(trials, &office(0, &[], theirs), &office(1, settled, &[]));
        taking(trials, &office(0, &[], theirs), &office(1, settled, &[(0, &[D]), (1, &[B]), (2, &[C])]));
    }
}

/// Paths that reach the end of the log, and tails of 31 and 32.
fn full_takes(trials: &mut Trials) {
    let weights = [40, 35, 25, 20];
    let path = in_turn(4, 5000, LOG);
    for (theirs, their_tail, ours, our_tail) in [
        (992, 32, 1023, 0),
        (992, 32, 1024, 0),
        (992, 32, 992, 31),
        (992, 31, 992, 32),
        (992, 32, 993, 31),
        (1023, 1, 992, 32),
        (1024, 0, 992, 32),
        (1023, 1, 991, 32),
        (1024, 0, 0, 32),
        (1024, 0, 1023, 1),
    ] {
        let tails = (&path[theirs..theirs + their_tail], &path[ours..ours + our_tail]);
        let sender = Sample::new(0, &weights, &path[..theirs], &[(0, tails.0), (2, tails.0)]);
        let receiver = Sample::new(1, &weights, &path[..ours], &[(1, tails.1), (2, tails.1)]);
        taking(trials, &sender, &receiver);
    }
    let (sender, receiver) = (Sample::new(0, &[2, 1], &[A; LOG], &[]), Sample::new(1, &[2, 1], &[A], &[(1, &[A; 16])]));
    taking(trials, &sender, &receiver);
}
