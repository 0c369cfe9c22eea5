//! What the tests share: short ways to say records, logs and messages.
#![allow(dead_code)]

pub mod lists;

use second::message::read;
use second::record::{entry, Ballot, Record};
use second::samples::Sample;

/// Document 01's entries a, b, c, d.
pub const A: u32 = 5 << 16 | 120;
pub const B: u32 = 1 << 24 | 5 << 16 | 130;
pub const C: u32 = 2 << 24 | 5 << 16 | 140;
pub const D: u32 = 6 << 16 | 7;

/// Document 01's weights unless said.
pub const WEIGHTS: [u16; 3] = [40, 35, 25];

/// A ballot with this tail.
pub fn ballot(tail: &[u32]) -> Ballot {
    Ballot::of(tail)
}

/// A record with these ballots over this settled log; its present weights and codes follow.
pub fn record(own: usize, weights: &[u16], settled: &[u32], ballots: &[(usize, &[u32])]) -> Record {
    Sample::new(own, weights, settled, ballots).record
}

/// A log of 1024 words that begins with these, the rest made up.
pub fn log(settled: &[u32]) -> Vec<u32> {
    Sample::new(0, &[], settled, &[]).log
}

/// This many entries of office 0, all different.
pub fn long_log(length: usize) -> Vec<u32> {
    (0..length as u32).map(|at| entry(0, at % 64, at)).collect()
}

/// A tail of this many entries of office 0, all different from those of `long_log`.
pub fn long_tail(length: usize) -> Vec<u32> {
    (0..length as u32).map(|at| entry(0, at % 64, 5000 + at)).collect()
}

/// The message of a sound record.
pub fn message(record: &Record, log: &[u32]) -> Vec<u8> {
    let sent = Sample { record: *record, log: log.to_vec() }.message();
    assert!(!sent.is_empty());
    sent
}

/// Takes the message: the number and the record after it, but with the lengths noted before it. What a done take notes is
/// the sender's settled length.
pub fn take(record: Record, log: &mut [u32], bytes: &[u8]) -> (u32, Record) {
    let (number, _, after) = second::take::take(record, log, bytes);
    let mut noted = record.noted;
    if number == 0 {
        let sent = read(bytes).expect("a message that is accepted");
        noted[sent.sender] = noted[sent.sender].max(sent.settled());
    }
    assert_eq!(after.noted, noted);
    (number, Record { noted: record.noted, ..after })
}
