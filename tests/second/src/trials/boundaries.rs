//! Boundaries of founding, issuing, the frames, soundness and sending.

use super::Trials;
use crate::record::{entry, Ballot, Record, LOG};
use crate::samples::{in_turn, Sample};

/// Document 01's weights unless said.
pub(super) const WEIGHTS: [u16; 3] = [40, 35, 25];
/// Document 01's entries.
pub(super) const A: u32 = 5 << 16 | 120;
pub(super) const B: u32 = 1 << 24 | 5 << 16 | 130;
pub(super) const C: u32 = 2 << 24 | 5 << 16 | 140;
pub(super) const D: u32 = 6 << 16 | 7;

/// Writes the trials of every call that takes no message.
pub(super) fn write(trials: &mut Trials) {
    founding_sizes(trials);
    foundings(trials);
    entries(trials);
    tails(trials);
    frames(trials);
    unsound_records(trials);
    unsound_logs(trials);
    outputs(trials);
    longest(trials);
}

/// Entries that are all different, as many as said.
pub(super) fn run_of_entries(from: u32, length: usize) -> Vec<u32> {
    (0..length as u32).map(|at| entry(0, at % 64, from + at)).collect()
}

/// One office with a settled log and an own tail of these lengths.
fn lengths(settled: usize, tail: usize) -> Sample {
    let mut sample = Sample::new(0, &[1], &vec![A; settled], &[(0, &run_of_entries(3000, tail))]);
    sample.record.ballots[0].len = tail;
    sample
}

/// Logs of every size that matters, with and without another cause.
fn founding_sizes(trials: &mut Trials) {
    for length in [0, 1, 1023, 1024, 1025, 1100] {
        trials.begin();
        trials.say(&format!("l {length} 4294967295"));
        for line in ["F 3 2 40 35 25 0 0 0 0 0", "U", "P", "I 5 120", "F 0 0 0 0 0 0 0 0 0 0", "U"] {
            trials.say(line);
        }
    }
}

/// n, own office and weights around their limits.
fn foundings(trials: &mut Trials) {
    trials.begin();
    trials.say("l 1024 7");
    for n in ["0", "1", "2", "7", "8", "9", "255", "256", "257", "65537", "4294967297", "18446744073709551615"] {
        for own in ["0", "1", "6", "7", "8", "256", "4294967296", "18446744073709551615"] {
            trials.say(&format!("F {n} {own} 1 0 0 0 0 0 0 0"));
        }
    }
    for weights in [
        "0 0 0 0 0 0 0 0",
        "1 0 0 0 0 0 0 0",
        "0 1 0 0 0 0 0 0",
        "0 0 1 0 0 0 0 0",
        "0 0 0 1 0 0 0 0",
        "0 0 0 0 0 0 0 1",
        "65535 65535 65535 0 0 0 0 0",
        "65535 65535 65535 65535 0 0 0 0",
        "65535 65535 65535 65535 65535 65535 65535 65535",
        "256 0 0 0 0 0 0 0",
    ] {
        for n in [1, 3, 8] {
            trials.say(&format!("F {n} 0 {weights}"));
            trials.say("U");
        }
    }
    trials.say("F 8 7 0 0 0 0 0 0 0 1");
    trials.all_calls();
}

/// Lines and codes around their limits, at a record that takes them.
fn entries(trials: &mut Trials) {
    for line in ["0", "63", "64", "65", "255", "256", "65536", "4294967295"] {
        trials.begin();
        trials.sample(&Sample::new(2, &WEIGHTS, &[A], &[]));
        for code in ["0", "1", "9999", "10000", "10001", "65535", "65536", "16777216", "4294967295"] {
            trials.say(&format!("I {line} {code}"));
        }
        trials.say(&format!("V {line}"));
    }
}

/// Settled lengths and own tails around 32 and 1024, sound and not.
fn tails(trials: &mut Trials) {
    for settled in [0, 1, 991, 992, 993, 1000, 1022, 1023, 1024, 1025] {
        for tail in [0, 1, 2, 23, 24, 30, 31, 32, 33] {
            if settled + tail < LOG - 2 && !(30..=33).contains(&tail) {
                continue;
            }
            trials.begin();
            trials.sample(&lengths(settled, tail));
            for line in
                ["U", "I 65 9999", "I 63 10000", "I 64 0", "I 63 9999", "V 63", "I 0 0", "I 65 0", "E", "P", "I 1 1"]
            {
                trials.say(line);
            }
        }
    }
    trials.begin();
    let full = in_turn(3, 100, 30);
    trials.sample(&Sample::new(1, &WEIGHTS, &[], &[(0, &full), (2, &full)]));
    trials.all_calls();
}

/// Frames over entries of several offices, in the log, the own tail and another's tail.
fn frames(trials: &mut Trials) {
    let tail = [entry(1, 6, 1), entry(2, 6, 2), entry(1, 63, 9999), entry(1, 0, 0)];
    let settled = [A, entry(0, 0, 77), B, entry(2, 62, 5), C];
    for own in [0, 1, 2] {
        trials.begin();
        trials.sample(&Sample::new(own, &WEIGHTS, &settled, &[(1, &tail), (2, &[D])]));
        for line in [0, 5, 6, 7, 62, 63, 64, 255, 256, 261, 65541, u32::MAX] {
            trials.say(&format!("V {line}"));
        }
        trials.say("P");
    }
}

/// A change that breaks one clause of soundness.
type Break = fn(&mut Record);

const BREAKS: [Break; 37] = [
    |r| r.n = 0,
    |r| r.n = 1,
    |r| r.n = 2,
    |r| r.n = 9,
    |r| r.n = 259,
    |r| r.n = usize::MAX,
    |r| r.own = 3,
    |r| r.own = 257,
    |r| r.own = usize::MAX,
    |r| (r.weights[3], r.kept.present[3], r.present[3]) = (1, 1, 1),
    |r| (r.weights[7], r.kept.present[7], r.present[7]) = (65535, 65535, 65535),
    |r| (r.weights, r.kept.present, r.present) = ([0; 8], [0; 8], [0; 8]),
    |r| r.codes[5] = 121,
    |r| r.codes[5] = 130,
    |r| r.codes[5] = 132,
    |r| r.codes[5] = 0,
    |r| r.codes[0] = 1,
    |r| r.codes[63] = u32::MAX,
    |r| r.settled = 3,
    |r| r.settled = 1025,
    |r| r.settled = 1 << 32,
    |r| r.settled = u64::MAX,
    |r| r.ballots[0].len = 0,
    |r| r.ballots[1].len = 33,
    |r| r.ballots[1].len = 1 << 32,
    |r| r.ballots[1].len = usize::MAX,
    |r| r.ballots[2].cells[31] = 1,
    |r| r.ballots[1].cells[2] = A,
    |r| r.ballots[3] = Ballot::of(&[A]),
    |r| r.ballots[3].len = 1,
    |r| r.ballots[7].cells[0] = 1,
    |r| r.ballots[7].len = usize::MAX,
    |r| r.ballots[1].cells[0] = entry(3, 0, 0),
    |r| r.ballots[1].cells[1] = entry(0, 64, 0),
    |r| r.ballots[1].cells[1] = entry(0, 67, 1),
    |r| r.ballots[2].cells[0] = entry(0, 0, 10_000),
    |r| r.ballots[1].cells[1] = u32::MAX,
];

/// A sound record with its log, to be broken; the message that is taken would be done.
fn whole(trials: &mut Trials) -> Sample {
    trials.begin();
    trials.sent(&Sample::new(0, &WEIGHTS, &[A, B], &[(0, &[D])]));
    trials.output(100);
    Sample::new(1, &WEIGHTS, &[A, B], &[(0, &[A]), (1, &[B, D]), (2, &[D])])
}

/// Every clause on the record broken singly; every call refuses.
fn unsound_records(trials: &mut Trials) {
    for change in BREAKS {
        let mut sample = whole(trials);
        change(&mut sample.record);
        trials.sample(&sample);
        trials.all_calls();
    }
    let sample = whole(trials);
    trials.sample(&sample);
    trials.all_calls();
}

/// A word that is no entry, settled or past the settled ones, and logs around their least length.
fn unsound_logs(trials: &mut Trials) {
    for word in [entry(3, 0, 0), entry(0, 64, 0), entry(0, 67, 1), entry(0, 0, 10_000), u32::MAX] {
        for at in [0, 1, 2] {
            let mut sample = whole(trials);
            sample.log[at] = word;
            sample.derive();
            trials.sample(&sample);
            trials.all_calls();
        }
    }
    for length in [0, 1, 2, 1023, 1024, 1100] {
        let mut sample = whole(trials);
        sample.log.resize(length, 0);
        trials.sample(&sample);
        trials.all_calls();
    }
}

/// Outputs around the message's length.
fn outputs(trials: &mut Trials) {
    let records = [
        Sample::new(1, &WEIGHTS, &[A, B], &[(0, &[A]), (1, &[B, D])]),
        Sample::new(0, &[1], &[], &[]),
        Sample::new(7, &[65535; 8], &[], &[(7, &[A])]),
    ];
    for sample in records {
        trials.begin();
        trials.sample(&sample);
        let length = sample.message().len();
        for room in [0, 1, length - 2, length - 1, length, length + 1, length + 40] {
            trials.output(room);
            trials.say("S");
        }
    }
}

/// The longest messages there are: sent into outputs around their length, and taken.
fn longest(trials: &mut Trials) {
    let settled = run_of_entries(0, LOG);
    let tail = in_turn(8, 5000, 32);
    let ballots: Vec<(usize, &[u32])> = (0..8).map(|office| (office, &tail[..])).collect();
    for sample in [
        Sample::new(3, &[65535; 8], &settled[..992], &ballots),
        Sample::new(3, &[65535; 8], &settled, &[]),
        Sample::new(3, &[65535; 8], &settled[..1023], &[(3, &tail[..1]), (4, &tail[1..2])]),
    ] {
        trials.begin();
        trials.sample(&sample);
        let length = sample.message().len();
        trials.output(length - 1);
        trials.say("S");
        trials.output(length + 1);
        trials.say("S");
        trials.say(&format!("g {length}"));
        trials.output(3);
        for known in [0, 991, sample.record.held()] {
            trials.sample(&Sample::new(0, &[65535; 8], &settled[..known], &[]));
            trials.all_calls();
        }
    }
}
