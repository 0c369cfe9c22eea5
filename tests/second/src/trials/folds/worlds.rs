//! Worlds whose offices issue, send, take, elect and fold. Each call is given the office's record and log.

use super::*;
use crate::generate::weights;
use crate::message::length;
use crate::random::Random;

/// Calls of one world.
const CALLS: usize = 150;
/// Messages that are still to be taken, at most.
const SENT: usize = 12;

/// Worlds with this many calls together.
pub(super) fn write(trials: &mut Trials, seed: u64, count: usize) {
    let mut random = Random::new(seed);
    let mut left = count;
    while left > 0 {
        let calls = left.min(CALLS);
        world(trials, &mut random, calls);
        left -= calls;
    }
}

/// One world: few offices, few lines, messages late, twice or never.
fn world(trials: &mut Trials, random: &mut Random, calls: usize) {
    let n = random.within(1, 4);
    let weights: Vec<u16> = weights(random, n).iter().map(|&weight| weight as u16).collect();
    let mut offices: Vec<Sample> = (0..n).map(|own| Sample::new(own, &weights, &[], &[])).collect();
    let mut sent: Vec<Vec<u8>> = vec![];
    trials.begin();
    for _ in 0..calls {
        let own = random.below(n);
        trials.sample(&offices[own]);
        match random.below(10) {
            0..=2 => issue(trials, random, n),
            3 | 4 => send(trials, random, &mut sent),
            5 | 6 if !sent.is_empty() => {
                let message = sent[random.below(sent.len())].clone();
                trials.message(&message);
                trials.say("T");
            }
            7 => trials.say("D"),
            _ => trials.say("E"),
        }
        let state = trials.state();
        offices[own] = Sample { record: state.record, log: state.log.clone() };
    }
}

/// Issues an edit of one of few lines, now and then a move.
fn issue(trials: &mut Trials, random: &mut Random, n: usize) {
    let line = if random.percent(15) { 64 + random.below(n) } else { random.below(4) };
    trials.say(&format!("I {line} {}", 1 + random.below(9)));
}

/// Sends; the message stays to be taken, in place of an older one if there are many.
fn send(trials: &mut Trials, random: &mut Random, sent: &mut Vec<Vec<u8>>) {
    let length = length(&trials.state().record);
    trials.output(length);
    trials.say("S");
    let message = trials.state().output.clone();
    trials.output(0);
    if sent.len() < SENT {
        sent.push(message);
    } else {
        sent[random.below(SENT)] = message;
    }
}
