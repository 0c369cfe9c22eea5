//! Logs compared from their ends: how many places a take needed.

use super::boundaries::{A, B, D, WEIGHTS};
use super::Trials;
use crate::record::LOG;
use crate::samples::{in_turn, Sample};

/// Writes the trials of compared places.
pub(super) fn write(trials: &mut Trials) {
    lengths(trials);
    differences(trials);
    refusals(trials);
}

/// Takes the message of office 0 with this log at office 1 with that one, twice.
fn compared(trials: &mut Trials, theirs: &[u32], ours: &[u32]) {
    trials.message(&Sample::new(0, &WEIGHTS, theirs, &[(0, &[D])]).message());
    trials.sample(&Sample::new(1, &WEIGHTS, ours, &[(1, &[B])]));
    trials.say("T");
    trials.say("T");
}

/// Logs of which one is a beginning of the other.
fn lengths(trials: &mut Trials) {
    let path = in_turn(3, 0, LOG);
    trials.begin();
    for theirs in [0, 1, 2, 1022, 1023] {
        for ours in [0, 1, 2, 1022, 1023] {
            compared(trials, &path[..theirs], &path[..ours]);
        }
    }
    let full = Sample::new(0, &WEIGHTS, &path, &[]).message();
    for ours in [0, 1, 1023, 1024] {
        trials.message(&full);
        trials.sample(&Sample::new(2, &WEIGHTS, &path[..ours], &[]));
        trials.say("T");
    }
}

/// Logs that differ at one place, at two, or everywhere, of one length or one longer than the other.
fn differences(trials: &mut Trials) {
    trials.begin();
    for length in [1, 2, 3, 7, LOG] {
        let path = in_turn(3, 0, LOG);
        for at in [0, 1, length / 2, length.saturating_sub(2), length - 1] {
            let mut other = path.clone();
            if let Some(word) = other.get_mut(at) {
                *word ^= 1;
            }
            if length < LOG || at == 0 || at == length - 1 {
                compare_pair(trials, &path[..length], &other[..length], length);
            }
            other[0] = A;
            other[length / 2] = A;
            if length < LOG {
                compare_pair(trials, &path[..length], &other[..length], length);
            }
        }
        compare_pair(trials, &path[..length], &vec![B; length], length);
    }
}

/// Both ways, and with the last entries of one of them left out.
fn compare_pair(trials: &mut Trials, first: &[u32], second: &[u32], length: usize) {
    let long = |log: &[u32]| Sample::new(0, &WEIGHTS, log, &[]).message();
    for (theirs, ours) in
        [(first, second), (second, first), (&first[..length - 1], second), (first, &second[..length - 1])]
    {
        trials.message(&long(theirs));
        trials.sample(&Sample::new(1, &WEIGHTS, ours, &[]));
        trials.say("T");
    }
}

/// Logs that part, or do not, in messages that are refused for another cause.
fn refusals(trials: &mut Trials) {
    trials.begin();
    let ours = Sample::new(1, &WEIGHTS, &[A, D, B], &[]);
    for theirs in [&[][..], &[A], &[A, D, B], &[A, D, D], &[B], &[A, B, B, A]] {
        for (own, weights) in [(1, WEIGHTS), (0, [40, 35, 26]), (1, [40, 35, 26]), (2, WEIGHTS)] {
            let message = Sample::new(own, &weights, theirs, &[]).message();
            trials.message(&message);
            trials.sample(&ours);
            trials.say("T");
            trials.cut(message.len() - 1);
            trials.say("T");
        }
    }
}
