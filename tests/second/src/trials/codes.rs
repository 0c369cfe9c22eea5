//! The settled codes that a record holds: which follow from the log, and what keeps them true.

use super::boundaries::{A, B, C, D, WEIGHTS};
use super::cases::taking;
use super::Trials;
use crate::record::{entry, Record};
use crate::samples::Sample;

/// Entries of several lines, some of them twice, an edit back to 0, a move to oneself and one to another office.
const PATH: [u32; 9] =
    [A, entry(0, 63, 9999), B, D, entry(1, 0, 1), entry(0, 64, 9), entry(1, 66, 7), entry(0, 63, 0), entry(2, 7, 70)];

/// Writes the trials of stored codes.
pub(super) fn write(trials: &mut Trials) {
    every_line(trials);
    others(trials);
    elections(trials);
    takes(trials);
}

/// A sound record over the path, with an own tail that is not settled.
fn whole() -> Sample {
    Sample::new(1, &WEIGHTS, &PATH, &[(1, &[entry(1, 5, 4), entry(1, 62, 3)])])
}

/// Each stored code off by one, and each line edited.
fn every_line(trials: &mut Trials) {
    trials.begin();
    for line in 0..64 {
        let mut sample = whole();
        sample.record.codes[line] ^= 1;
        trials.sample(&sample);
        trials.say("U");
        trials.sample(&Sample::new(1, &WEIGHTS, &[A, D, entry(2, line as u32, 1000 + line as u32)], &[]));
        trials.say("A");
    }
}

/// A change after which the codes are others, or still those of the log.
type Change = fn(&mut Record);

const CHANGES: [Change; 18] = [
    |_| {},
    |r| r.codes[5] = 121,
    |r| r.codes[5] = 5,
    |r| r.codes[62] = 4,
    |r| r.codes[63] = 10_000,
    |r| r.codes[63] = 0,
    |r| r.codes[62] = 1,
    |r| r.codes[5] -= 1,
    |r| r.codes = r.codes.map(|code| code.saturating_sub(1)),
    |r| r.codes[0] = 10,
    |r| r.codes[0] = 8,
    |r| r.codes.swap(5, 6),
    |r| r.codes[7] += 1 << 16,
    |r| r.codes[7] += 70 << 24,
    |r| r.codes[8] = u32::MAX,
    |r| r.codes = [0; 64],
    |r| r.codes = [1; 64],
    |r| r.settled = 8,
];

/// Codes of an entry before the last, of the tail, of a move, at another line, too large, code 0 and no edit yet for each
/// other, codes as they are; and logs without the last entry.
fn others(trials: &mut Trials) {
    for change in CHANGES {
        trials.begin();
        trials.sent(&Sample::new(0, &WEIGHTS, &PATH, &[(0, &[C])]));
        trials.output(150);
        let mut sample = whole();
        change(&mut sample.record);
        trials.sample(&sample);
        trials.all_calls();
    }
}

/// Elections that settle the whole path, or what is left of it.
fn elections(trials: &mut Trials) {
    for settled in 0..=PATH.len() {
        trials.begin();
        let tail = &PATH[settled..];
        trials.sample(&Sample::new(1, &WEIGHTS, &PATH[..settled], &[(0, tail), (1, tail), (2, tail)]));
        for line in ["A", "E", "A", "V 5", "V 63", "U"] {
            trials.say(line);
        }
    }
}

/// Takes that settle the rest of the path, or nothing.
fn takes(trials: &mut Trials) {
    for (theirs, ours) in [(9, 0), (9, 1), (9, 4), (9, 8), (9, 9), (5, 2), (5, 9), (0, 9), (0, 0), (1, 0)] {
        let sender = Sample::new(0, &WEIGHTS, &PATH[..theirs], &[(0, &PATH[theirs..])]);
        taking(trials, &sender, &Sample::new(1, &WEIGHTS, &PATH[..ours], &[]));
        trials.say("A");
    }
}
