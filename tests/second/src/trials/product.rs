//! Every election of three offices over few ballots, and every take over few logs and ballots.

use super::boundaries::{A, B, C, D, WEIGHTS};
use super::Trials;
use crate::samples::Sample;

/// Every election of three offices whose ballots are among seven, with each of seven sets of weights.
pub(super) fn elections(trials: &mut Trials) {
    let tails: [&[u32]; 7] = [&[], &[A], &[B], &[C], &[A, D], &[A, B], &[D, A]];
    for weights in [[40, 35, 25], [50, 50, 0], [1, 1, 1], [2, 1, 1], [1, 1, 2], [65535, 65535, 65535], [0, 0, 1]] {
        for first in tails {
            for second in tails {
                for third in tails {
                    trials.sample(&Sample::new(0, &weights, &[], &[(0, first), (1, second), (2, third)]));
                    trials.say("E");
                }
            }
        }
    }
}

/// Every take by office 1 from office 0 over few logs and ballots.
pub(super) fn takes(trials: &mut Trials) {
    let logs: [&[u32]; 4] = [&[], &[A], &[A, D], &[B]];
    let tails: [&[u32]; 6] = [&[], &[A], &[A, D], &[D], &[A, D, C], &[B]];
    for log in logs {
        for sender in tails {
            for third in [&[][..], &[A, D], &[D], &[C]] {
                for receiver in [&[][..], &[A, D, B]] {
                    let ballots = [(0, sender), (1, receiver), (2, third)];
                    let message = Sample::new(0, &WEIGHTS, log, &ballots).message();
                    trials.message(&message);
                    receivers(trials);
                }
            }
        }
    }
}

/// Takes the message at every receiver over few logs and ballots.
fn receivers(trials: &mut Trials) {
    for log in [&[][..], &[A], &[A, D]] {
        for own in [&[][..], &[A], &[A, D], &[D], &[B]] {
            for third in [&[][..], &[A], &[A, D], &[C]] {
                trials.sample(&Sample::new(1, &WEIGHTS, log, &[(1, own), (2, third)]));
                trials.say("T");
            }
        }
    }
}
