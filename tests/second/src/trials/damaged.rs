//! Messages cut at every length and changed in every byte, taken by a sound receiver.

use super::Trials;
use crate::random::Random;
use crate::samples::{Family, Sample};

/// Longest message that is damaged.
const LONGEST: usize = 174;

/// Damages this many messages.
pub(super) fn write(trials: &mut Trials, seed: u64, count: usize) {
    let mut random = Random::new(seed);
    for _ in 0..count {
        let (sender, receiver) = pair(&mut random);
        let bytes = sender.message();
        trials.begin();
        trials.sample(&receiver);
        trials.message(&bytes);
        trials.say("T");
        changed(trials, &mut random, &receiver, &bytes);
        cut(trials, &receiver);
        moved(trials, &mut random, &receiver, &bytes);
    }
}

/// A sender whose message is not too long to be damaged everywhere, and a receiver.
fn pair(random: &mut Random) -> (Sample, Sample) {
    loop {
        let family = Family::new(random);
        let (own, from) = (family.office(random), family.office(random));
        let sender = family.sample(random, from);
        if own != from && sender.message().len() <= LONGEST {
            return (sender, family.sample(random, own));
        }
    }
}

/// Takes the message as it is now at the receiver as it was.
fn take(trials: &mut Trials, receiver: &Sample) {
    trials.sample(receiver);
    trials.say("T");
}

/// Each byte changed to some others.
fn changed(trials: &mut Trials, random: &mut Random, receiver: &Sample, bytes: &[u8]) {
    for (at, &byte) in bytes.iter().enumerate() {
        let any = random.below(256) as u8;
        let mut others = vec![byte ^ 1, byte.wrapping_sub(1), byte ^ 0x80, 0, 1, 255, any];
        others.sort_unstable();
        others.dedup();
        for other in others.into_iter().filter(|&other| other != byte) {
            trials.overwrite(at, other);
            take(trials, receiver);
        }
        trials.overwrite(at, byte);
    }
}

/// Cut at every length.
fn cut(trials: &mut Trials, receiver: &Sample) {
    for length in (0..trials.state().message.len()).rev() {
        trials.cut(length);
        take(trials, receiver);
    }
}

/// A byte left out, put in or doubled, two bytes swapped, and pieces put elsewhere.
fn moved(trials: &mut Trials, random: &mut Random, receiver: &Sample, bytes: &[u8]) {
    for _ in 0..40 {
        let mut other = bytes.to_vec();
        let (at, second) = (random.below(other.len()), random.below(other.len()));
        match random.below(5) {
            0 => drop(other.remove(at)),
            1 => other.insert(at, random.below(256) as u8),
            2 => other.insert(at, bytes[at]),
            3 => other.swap(at, second),
            _ => {
                let piece = &mut other[at.min(second)..];
                piece.rotate_left(random.pick(&[1, 2, 4, 6]).min(piece.len()));
            }
        }
        trials.message(&other);
        take(trials, receiver);
    }
}
