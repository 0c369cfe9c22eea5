//! Random records, sound and not, with messages that are related to them, and calls on these.

use super::Trials;
use crate::generate::weights;
use crate::random::Random;
use crate::record::{Ballot, LENGTH, OFFICES, TAIL};
use crate::samples::{break_one, crowded, Family, Sample};
use crate::trial::BYTE_ROOM;

/// Tries this many random records.
pub(super) fn write(trials: &mut Trials, seed: u64, count: usize) {
    let mut random = Random::new(seed);
    for _ in 0..count {
        block(trials, &mut random);
    }
}

/// One record, one message, and some calls.
fn block(trials: &mut Trials, random: &mut Random) {
    let family = Family::new(random);
    let own = family.office(random);
    let mut sample = family.sample(random, own);
    let message = message(random, &family, own);
    let room = (sample.message().len() + random.below(7)).saturating_sub(3).min(BYTE_ROOM);
    for _ in 0..broken(random) {
        break_one(random, &mut sample);
    }
    trials.begin();
    trials.sample(&sample);
    trials.message(&message);
    trials.output(room);
    if random.percent(40) {
        trials.say("T");
    }
    for _ in 0..random.within(2, 8) {
        call(trials, random);
    }
}

/// How many clauses of soundness are broken.
fn broken(random: &mut Random) -> usize {
    match random.below(20) {
        0..=14 => 0,
        15..=18 => 1,
        _ => random.within(2, 4),
    }
}

/// A message from an office of the family, seldom the receiver's, or one with other weights, or one that no record sends.
fn message(random: &mut Random, family: &Family, receiver: usize) -> Vec<u8> {
    let other = family.other(random);
    let family = if random.percent(5) { &other } else { family };
    let mut from = family.office(random);
    if from == receiver && random.percent(85) {
        from = family.office(random);
    }
    let mut sender = family.sample(random, from);
    match random.below(20) {
        0..=15 => sender.message(),
        16 | 17 => {
            forge(random, &mut sender);
            sender.spelled()
        }
        _ => damaged(random, sender.message()),
    }
}

/// Makes the record one whose message is of the layout, its numbers not all within the limits.
fn forge(random: &mut Random, sender: &mut Sample) {
    let Sample { record, log } = sender;
    let wrong = random.pick(&[(record.n as u32) << 24, 64 << 16, (64 + record.n as u32) << 16 | 1, 10_000, u32::MAX]);
    let (held, ballot) = (record.held(), &mut record.ballots[random.below(record.n)]);
    match random.below(8) {
        4 if record.n > 1 => *ballot = Ballot::of(&crowded(random, record.n)),
        5 => record.kept.dropped = record.settled.wrapping_add(random.pick(&[0, 1])),
        6 => record.settled = record.settled.wrapping_add(LENGTH),
        7 => {
            record.settled = LENGTH - random.below(TAIL) as u64;
            record.kept.dropped = record.settled - held as u64;
        }
        0 => record.own = random.pick(&[record.n, 8, 255]),
        1 if held > 0 => log[random.below(held)] = wrong,
        2 if ballot.len > 0 => ballot.cells[random.below(ballot.len)] = wrong,
        _ if ballot.len < TAIL => ballot.len += 1,
        _ => record.settled += random.within(1, 3) as u64,
    }
}

/// The message with a byte changed, or cut, or with a byte more or less.
fn damaged(random: &mut Random, mut bytes: Vec<u8>) -> Vec<u8> {
    let at = random.below(bytes.len());
    match random.below(5) {
        0 => bytes.truncate(at),
        1 => bytes[at] = random.below(256) as u8,
        2 => bytes[at] ^= 1 << random.below(8),
        3 => bytes.push(random.below(256) as u8),
        _ => drop(bytes.remove(at)),
    }
    bytes
}

/// One call.
fn call(trials: &mut Trials, random: &mut Random) {
    let line = random.pick(&[0, 1, 5, 62, 63, 63, 64, 65, 66, 71, 72, 256, u32::MAX]);
    let code = random.pick(&[0, 1, 120, 9999, 9999, 10_000, 65_536, u32::MAX]);
    match random.below(11) {
        0 | 1 => trials.say("T"),
        2 => trials.say("E"),
        10 => trials.say("D"),
        3 => trials.say("S"),
        4 => trials.say(&format!("V {line}")),
        5 => trials.say("P"),
        6 => trials.say("U"),
        7 => trials.say("A"),
        8 if random.percent(30) => found(trials, random),
        _ => trials.say(&format!("I {line} {code}")),
    }
}

/// Founds, mostly within the limits.
fn found(trials: &mut Trials, random: &mut Random) {
    let n = random.pick(&[0, 1, 2, 3, 3, 5, 8, 9]);
    let own = random.below(n + 1);
    let given = random.pick(&[n, n, n, n, 8]);
    let given = weights(random, given);
    let weights: String = (0..OFFICES).map(|k| format!(" {}", given.get(k).unwrap_or(&0))).collect();
    trials.say(&format!("F {n} {own}{weights}"));
}
