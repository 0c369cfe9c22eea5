//! Lengths around 2^63, and the limit of 1024 on what is not dropped.

use super::*;
use crate::samples::in_turn;

/// The entry at a place of the order, offices in turn.
fn at_place(place: u64) -> u32 {
    entry((place % 3) as usize, (place % 64) as u32, (place % 9973) as u32)
}

pub(super) fn write(trials: &mut Trials) {
    records(trials);
    undropped(trials);
    issues(trials);
    elections(trials);
    messages(trials);
    grown(trials);
}

/// An office of three with so many entries settled, so many of them undropped, and a tail of so many entries.
fn long(own: usize, settled: u64, held: u64, tail: u64) -> Sample {
    let dropped = settled - held;
    let tail: Vec<u32> = (0..tail).map(|at| at_place(settled.wrapping_add(at))).collect();
    let settled: Vec<u32> = (dropped..settled).map(at_place).collect();
    Sample::new(own, &WEIGHTS, &settled, &[(own, &tail)]).behind(kept_of(dropped))
}

/// Settled lengths and tails around 2^63, sound and not.
fn records(trials: &mut Trials) {
    for short in [0, 1, 2, 29, 30, 31] {
        for (held, tail) in [(0, 0), (0, 1), (1, 1), (3, 2), (2, 30), (5, 29)] {
            trials.begin();
            trials.output(400);
            trials.sample(&long(1, LENGTH - short, held, tail).noting(&[(0, LENGTH - short), (2, LENGTH - short - 1)]));
            for line in ["U", "P", "S", "I 5 120", "V 5", "E", "W", "D", "D"] {
                trials.say(line);
            }
        }
    }
    for settled in [LENGTH + 1, LENGTH + 3, LENGTH + (1 << 62), u64::MAX - 5, u64::MAX] {
        for held in [0, 1, 5] {
            trials.begin();
            trials.sample(&long(1, settled, held, 0));
            trials.all_calls();
        }
    }
}

/// 1024 entries and fewer that are not dropped, behind few and behind many dropped ones, with tails.
fn undropped(trials: &mut Trials) {
    for dropped in [3, 1000, 1 << 32, LENGTH - 1100] {
        for (held, tail) in [(1024, 0), (1023, 1), (1023, 0), (1024, 1), (1023, 2), (994, 30), (995, 30), (1025, 0)] {
            let path = in_turn(3, 100, held + tail);
            let mut sample = Sample::new(1, &WEIGHTS, &path[..held], &[(1, &path[held..])]).behind(kept_of(dropped));
            sample.log.resize(1100, 7);
            trials.begin();
            trials.sample(&sample);
            for line in ["U", "I 5 120", "I 5 10000", "E", "P"] {
                trials.say(line);
            }
        }
    }
}

/// Issues up to 2^63: a full length is said before a full part, after an improper entry.
fn issues(trials: &mut Trials) {
    for n in [1, 3, 8] {
        let part = 32 / n;
        for short in [0, 1, part - 1, part, part + 1] {
            let mut kept = Kept::nothing(std::array::from_fn(|office| if office < n { 7 } else { 0 }));
            (kept.dropped, kept.counts[0]) = (LENGTH - short as u64, LENGTH - short as u64);
            trials.begin();
            trials.sample(&Sample::new(0, &vec![7; n], &[], &[]).behind(kept));
            for at in 0..=part {
                trials.say(&format!("I 5 {at}"));
            }
            for line in ["I 64 0", "I 5 10000", "I 6 7", "U", "E", "I 6 7", "U", "D"] {
                trials.say(line);
            }
        }
    }
}

/// Elections that end at 2^63.
fn elections(trials: &mut Trials) {
    for (short, tail) in [(1, 1), (2, 2), (30, 30), (5, 3)] {
        let path = in_turn(3, 100, tail);
        let sample = Sample::new(0, &WEIGHTS, &[], &[(0, &path), (1, &path), (2, &path)]);
        trials.begin();
        trials.output(300);
        trials.sample(&sample.behind(kept_of(LENGTH - short)));
        for line in ["E", "P", "I 5 120", "S", "W", "E"] {
            trials.say(line);
        }
    }
}

/// Overwrites the settled length and the dropped count of the message, of three offices.
fn lengths(trials: &mut Trials, settled: u64, dropped: u64) {
    let bytes = [settled.to_be_bytes(), dropped.to_be_bytes()].concat();
    for (at, byte) in (10..).zip(bytes) {
        if trials.state().message[at] != byte {
            trials.overwrite(at, byte);
        }
    }
}

/// Messages whose lengths are at a limit or one past it: more dropped than settled, more undropped entries than follow,
/// fewer, more than 1024, a length or a length with a tail above 2^63.
fn messages(trials: &mut Trials) {
    let top = LENGTH;
    for (held, tail) in [(0, 0), (2, 0), (2, 3), (0, 30)] {
        trials.begin();
        let receiver = long(1, top - 40, 3, 2);
        trials.sent(&long(0, top - 40, held, tail));
        trials.output(0);
        for (settled, dropped) in [
            (top, top - held),
            (top + 1, top + 1 - held),
            (top - tail, top - tail - held),
            (top + 1 - tail, top + 1 - tail - held),
            (u64::MAX, u64::MAX - held),
            (held, 0),
            (held, 1),
            (held + 1, 0),
            (held, held + 1),
            (0, held),
            (held.wrapping_sub(1), 0),
            (top - 40, top - 40),
            (1024, 0),
            (1025, 0),
            (top - 40 + held, top - 40),
            (top - 39 + held, top - 39),
            (top - 43, top - 43 - held),
            (top - 44, top - 44 - held),
            (1 << 32 | held, 1 << 32),
        ] {
            lengths(trials, settled, dropped);
            trials.sample(&receiver);
            trials.say("T");
        }
    }
}

/// Takes that grow the log up to 2^63, and tails that reach it.
fn grown(trials: &mut Trials) {
    for (theirs, ours) in [(0, 3), (1, 3), (0, 0), (5, 1), (30, 31)] {
        for (held, tail) in [(3, 0), (3, 2), (4, 4)] {
            trials.begin();
            trials.message(&long(0, LENGTH - theirs, held, tail).message());
            trials.sample(&long(1, LENGTH - ours, 2, 0));
            for line in ["T", "P", "I 5 120", "E", "T", "D"] {
                trials.say(line);
            }
        }
    }
}
