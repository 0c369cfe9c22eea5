//! Every clause of the message's layout broken singly, and lengths around their limits.

use super::boundaries::{A, B, C, D, WEIGHTS};
use super::Trials;
use crate::samples::{issued_by, Sample};

/// Bytes of a proper message that make it improper, or proper but refused: place and value.
/// The message is that of `proper`; marks, sender, n, weights, settled length, dropped count, entries, ballots, end.
const CHANGES: [(usize, u8); 57] = [
    (0, 0x52),
    (1, 0x47),
    (2, 0),
    (2, 1),
    (2, 3),
    (2, 255),
    (3, 0),
    (3, 2),
    (3, 4),
    (3, 8),
    (3, 9),
    (3, 255),
    (4, 1),
    (5, 41),
    (9, 0),
    (10, 1),
    (10, 128),
    (14, 1),
    (15, 1),
    (16, 1),
    (16, 4),
    (17, 0),
    (17, 1),
    (17, 3),
    (18, 1),
    (18, 128),
    (22, 1),
    (24, 1),
    (25, 1),
    (25, 2),
    (25, 3),
    (26, 0x4D),
    (27, 0x48),
    (28, 2),
    (28, 3),
    (29, 63),
    (29, 64),
    (29, 66),
    (29, 67),
    (30, 39),
    (30, 40),
    (38, 0x43),
    (39, 0x42),
    (40, 1),
    (40, 2),
    (40, 3),
    (41, 0),
    (41, 2),
    (42, 3),
    (43, 64),
    (43, 67),
    (44, 40),
    (48, 0),
    (49, 1),
    (49, 33),
    (58, 0x44),
    (59, 0x4F),
];

/// Writes the trials of messages that no record sends.
pub(super) fn write(trials: &mut Trials) {
    changes(trials);
    ends(trials);
    ballots(trials);
    lengths(trials);
    weights(trials);
}

/// The message of office 2 with log a, d and the ballots 0:b 2:cd, and its receiver.
fn proper(trials: &mut Trials) -> Sample {
    trials.begin();
    trials.sent(&Sample::new(2, &WEIGHTS, &[A, D], &[(0, &[B]), (2, &[C, D])]));
    trials.output(0);
    Sample::new(1, &WEIGHTS, &[], &[(1, &[A, D, C]), (2, &[A])])
}

/// One byte changed.
fn changes(trials: &mut Trials) {
    let receiver = proper(trials);
    let bytes = trials.state().message.clone();
    for (at, value) in CHANGES {
        trials.sample(&receiver);
        trials.overwrite(at, value);
        trials.say("T");
        trials.overwrite(at, bytes[at]);
    }
    trials.say("T");
}

/// Bytes missing at the end or put after it.
fn ends(trials: &mut Trials) {
    for more in [&[0][..], &[0x45], &[0x45, 0x4E], &[0x42, 0x41, 2, 1, 0, 6, 0, 7, 0x45, 0x4E]] {
        let receiver = proper(trials);
        trials.sample(&receiver);
        let bytes = [&trials.state().message[..], more].concat();
        trials.message(&bytes);
        trials.say("T");
    }
    let receiver = proper(trials);
    trials.sample(&receiver);
    for length in (0..trials.state().message.len()).rev() {
        trials.cut(length);
        trials.say("T");
    }
}

/// A message of office 0 of n, two or more, with weights 40, 35 and 25, the rest zero: a settled log of d only and these
/// ballots, whose entries are d with the offices in turn; taken by office 1 with an empty log.
fn spelled(trials: &mut Trials, n: usize, settled: usize, ballots: &[(u8, u8, usize)]) {
    let mut weights = WEIGHTS.to_vec();
    weights.resize(n, 0);
    trials.begin();
    trials.sample(&Sample::new(1, &weights, &[], &[(1, &[B])]));
    let head = [0x53, 0x48, 0, n as u8].into_iter().chain(weights.iter().flat_map(|weight| weight.to_be_bytes()));
    trials.message(&head.chain((settled as u64).to_be_bytes()).chain([0; 8]).collect::<Vec<_>>());
    trials.say(&format!("m {settled} 76 71 0 6 0 7"));
    for &(office, length, entries) in ballots {
        trials.say(&format!("m 1 66 65 {office} {length}"));
        let values = (0..entries).flat_map(|at| issued_by(at % n, D).to_be_bytes());
        trials.append(1, &values.collect::<Vec<_>>());
    }
    trials.say("m 1 69 78");
    for line in ["T", "P", "V 6", "T"] {
        trials.say(line);
    }
}

/// Ballots out of order, twice, empty, of an office that isn't there, shorter or longer than said.
fn ballots(trials: &mut Trials) {
    let cases: [&[(u8, u8, usize)]; 22] = [
        &[],
        &[(0, 1, 1)],
        &[(0, 1, 1), (1, 1, 1), (2, 1, 1)],
        &[(0, 1, 1), (2, 1, 1)],
        &[(2, 1, 1), (0, 1, 1)],
        &[(1, 1, 1), (0, 1, 1)],
        &[(0, 1, 1), (0, 1, 1)],
        &[(2, 1, 1), (2, 1, 1)],
        &[(0, 0, 0)],
        &[(0, 1, 1), (1, 0, 0)],
        &[(3, 1, 1)],
        &[(255, 1, 1)],
        &[(0, 1, 1), (1, 1, 1), (2, 1, 1), (3, 1, 1)],
        &[(0, 29, 29)],
        &[(0, 30, 30)],
        &[(0, 31, 31)],
        &[(0, 32, 32)],
        &[(0, 33, 33)],
        &[(0, 255, 255)],
        &[(0, 2, 1)],
        &[(0, 1, 2)],
        &[(0, 30, 31)],
    ];
    for case in cases {
        spelled(trials, 3, 0, case);
    }
    for n in [4, 8] {
        for length in [31, 32, 33] {
            spelled(trials, n, 0, &[(1, length, usize::from(length))]);
        }
        spelled(trials, n, 0, &[(0, 32, 33)]);
    }
}

/// Settled lengths and tails around 1024.
fn lengths(trials: &mut Trials) {
    for settled in [991, 992, 993, 1022, 1023, 1024, 1025] {
        spelled(trials, 4, settled, &[]);
        for tail in [1, 2, 31, 32] {
            spelled(trials, 4, settled, &[(2, tail, usize::from(tail))]);
        }
    }
    spelled(trials, 3, 1023, &[(0, 1, 1), (2, 2, 2)]);
    spelled(trials, 3, 1023, &[(0, 1, 1), (1, 1, 1), (2, 1, 1)]);
}

/// Messages whose weights are other ones: their sum 0, fewer or more offices; each also from the receiver itself.
fn weights(trials: &mut Trials) {
    trials.begin();
    trials.sample(&Sample::new(1, &WEIGHTS, &[A], &[(1, &[B])]));
    for sender in [0, 1, 2] {
        let edit = [0x4C, 0x47, 1, 5, 0, 130];
        let cases: [(&[u8], &[u8]); 6] = [
            (&[3, 0, 0, 0, 0, 0, 0], &[]),
            (&[2, 0, 40, 0, 35], &[]),
            (&[4, 0, 40, 0, 35, 0, 25, 0, 0], &[]),
            (&[3, 0, 40, 0, 35, 0, 25], &edit),
            (&[3, 0, 40, 0, 35, 0, 26], &edit),
            (&[3, 0, 40, 0, 35, 0, 26], &[0x4C, 0x47, 3, 5, 0, 130]),
        ];
        for (weights, entries) in cases {
            let lengths = [(entries.len() as u64 / 6).to_be_bytes(), [0; 8]].concat();
            trials.message(&[&[0x53, 0x48, sender], weights, &lengths, entries, &[0x45, 0x4E]].concat());
            trials.say("T");
        }
    }
}
