//! Messages that take refuses, each clause of the layout broken singly.

mod common;

use common::*;
use second::record::*;
use second::samples::in_turn;

/// The number that office 1 of the paper's three, with an empty log, gives for the message.
fn given(bytes: &[u8]) -> u32 {
    let before = record(1, &WEIGHTS, &[], &[(1, &[B])]);
    let mut kept = log(&[]);
    let (number, after) = take(before, &mut kept, bytes);
    if number != DONE {
        assert_eq!((after, kept), (before, log(&[])));
    }
    number
}

/// A proper message of office 2 with log a, d and the ballots 0:b 2:cd.
fn proper() -> Vec<u8> {
    message(&record(2, &WEIGHTS, &[A, D], &[(0, &[B]), (2, &[C, D])]), &log(&[A, D]))
}

/// The message with one byte changed.
fn with(at: usize, byte: u8) -> Vec<u8> {
    let mut bytes = proper();
    bytes[at] = byte;
    bytes
}

/// A message that ends after what is given, of office 0 with the paper's weights.
fn spelled(settled: u64, body: &[u8]) -> Vec<u8> {
    let mut bytes = vec![0x53, 0x48, 0, 3, 0, 40, 0, 35, 0, 25];
    bytes.extend(settled.to_be_bytes());
    bytes.extend([0; 8]);
    bytes.extend(body);
    bytes.extend([0x45, 0x4E]);
    bytes
}

/// A ballot as it stands in a message, with this many entries, the offices in turn.
fn spelled_ballot(office: u8, length: u8, times: usize) -> Vec<u8> {
    let mut bytes = vec![0x42, 0x41, office, length];
    bytes.extend(in_turn(3, 0, times).iter().flat_map(|value| value.to_be_bytes()));
    bytes
}

/// Bytes that make the proper message improper: marks, sender, n, settled length, dropped count, entries, ballots, end.
const IMPROPER: [(usize, u8); 34] = [
    (0, 0x52),
    (1, 0x47),
    (2, 3),
    (2, 255),
    (3, 0),
    (3, 9),
    (10, 1),
    (10, 128),
    (15, 1),
    (16, 4),
    (17, 1),
    (17, 3),
    (18, 1),
    (18, 128),
    (25, 1),
    (25, 3),
    (26, 0x4D),
    (27, 0x48),
    (28, 3),
    (29, 67),
    (30, 40),
    (38, 0x43),
    (39, 0x42),
    (40, 3),
    (41, 0),
    (41, 2),
    (42, 3),
    (43, 67),
    (44, 40),
    (46, 0x45),
    (48, 0),
    (49, 33),
    (58, 0x44),
    (59, 0x4F),
];

#[test]
fn every_other_spelling_is_refused() {
    assert_eq!(given(&proper()), DONE);
    assert_eq!(given(&[]), NO_MESSAGE);
    for length in 0..proper().len() {
        assert_eq!(given(&proper()[..length]), NO_MESSAGE, "cut to {length}");
    }
    let mut longer = proper();
    longer.push(0);
    assert_eq!(given(&longer), NO_MESSAGE);
    for (at, byte) in IMPROPER {
        assert_eq!(given(&with(at, byte)), NO_MESSAGE, "byte {at} made {byte}");
    }
}

#[test]
fn other_weights_own_message_and_their_order() {
    assert_eq!(given(&with(5, 41)), OTHER_WEIGHTS);
    assert_eq!(given(&with(4, 1)), OTHER_WEIGHTS);
    assert_eq!(given(&with(2, 1)), OWN_MESSAGE);
    let empty = |front: &[u8]| [front, &[0; 16], &[0x45, 0x4E]].concat();
    assert_eq!(given(&empty(&[0x53, 0x48, 1, 3, 0, 0, 0, 0, 0, 0])), OTHER_WEIGHTS);
    assert_eq!(given(&empty(&[0x53, 0x48, 1, 2, 0, 40, 0, 35])), OTHER_WEIGHTS);
    assert_eq!(given(&empty(&[0x53, 0x48, 0, 4, 0, 40, 0, 35, 0, 25, 0, 0])), OTHER_WEIGHTS);
    let own = message(&record(1, &WEIGHTS, &[B], &[]), &log(&[B]));
    let parted = record(1, &WEIGHTS, &[A], &[]);
    assert_eq!(take(parted, &mut log(&[A]), &own), (OWN_MESSAGE, parted));
}

#[test]
fn ballots_rise_strictly_and_are_not_empty() {
    let (zero, two) = (spelled_ballot(0, 1, 1), spelled_ballot(2, 1, 1));
    assert_eq!(given(&spelled(0, &[])), DONE);
    assert_eq!(given(&spelled(0, &zero)), DONE);
    assert_eq!(given(&spelled(0, &[zero.clone(), two.clone()].concat())), DONE);
    assert_eq!(given(&spelled(0, &[two.clone(), zero.clone()].concat())), NO_MESSAGE);
    assert_eq!(given(&spelled(0, &[zero.clone(), zero.clone()].concat())), NO_MESSAGE);
    assert_eq!(given(&spelled(0, &spelled_ballot(0, 0, 0))), NO_MESSAGE);
    assert_eq!(given(&spelled(0, &spelled_ballot(3, 1, 1))), NO_MESSAGE);
    assert_eq!(given(&spelled(0, &spelled_ballot(0, 30, 30))), DONE);
    assert_eq!(given(&spelled(0, &spelled_ballot(0, 31, 31))), NO_MESSAGE);
    assert_eq!(given(&spelled(0, &spelled_ballot(0, 33, 33))), NO_MESSAGE);
    assert_eq!(given(&spelled(0, &[0x4C, 0x47, 0, 6, 0, 7])), NO_MESSAGE);
    assert_eq!(given(&spelled(0, &[0x45, 0x4E])), NO_MESSAGE);
}

#[test]
fn lengths_in_a_message() {
    let part = [0x4C, 0x47, 0, 6, 0, 7];
    for (settled, tail, number) in [
        (1024, 0, DONE),
        (1025, 0, NO_MESSAGE),
        (1023, 1, DONE),
        (1023, 2, NO_MESSAGE),
        (1024, 1, NO_MESSAGE),
        (994, 30, DONE),
        (995, 30, NO_MESSAGE),
    ] {
        let mut body = part.repeat(settled);
        if tail > 0 {
            body.extend(spelled_ballot(2, tail as u8, tail));
        }
        assert_eq!(given(&spelled(settled as u64, &body)), number, "{settled} {tail}");
    }
}
