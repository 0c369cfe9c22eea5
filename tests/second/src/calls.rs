//! Founding, issuing and reading. Every call takes any record, log and number.

use crate::record::*;

/// The fresh record of an office: an empty log and no ballots.
pub fn found(n: usize, own: usize, weights: [u16; OFFICES], log: &[u32]) -> (u32, Record) {
    if log.len() < LOG {
        return (UNSOUND, Record::ZERO);
    }
    if !within_limits(n, own, &weights) {
        return (LIMITS, Record::ZERO);
    }
    (DONE, Record { n, own, weights, kept: Kept::nothing(weights), present: weights, ..Record::ZERO })
}

/// The record with the entry appended to the office's own ballot. An office that is below its part always finds room in
/// its tail: the others have at most theirs.
pub fn issue(mut record: Record, log: &[u32], line: u32, code: u32) -> (u32, Record) {
    if !sound(&record, log) {
        return (UNSOUND, record);
    }
    if !proper(line, code, record.n) {
        return (NO_ENTRY, record);
    }
    let (held, ballot) = (record.held(), &mut record.ballots[record.own]);
    if held + ballot.len == LOG || record.settled + ballot.len as u64 == LENGTH {
        return (LOG_FULL, record);
    }
    if ballot.tail().iter().filter(|&&word| office_of(word) == record.own).count() == part(record.n) {
        return (PART_FULL, record);
    }
    ballot.cells[ballot.len] = entry(record.own, line, code);
    ballot.len += 1;
    (DONE, record)
}

/// The settled part of the log: the entries that are not dropped.
pub fn settled<'a>(record: &Record, log: &'a [u32]) -> (u32, &'a [u32]) {
    if !sound(record, log) {
        return (UNSOUND, &[]);
    }
    (DONE, &log[..record.held()])
}

/// The stored code of the last settled entry for each line, dropped ones included.
pub fn settled_codes(record: &Record, log: &[u32]) -> (u32, Codes) {
    if !sound(record, log) {
        return (UNSOUND, Record::ZERO.codes);
    }
    (DONE, record.codes)
}

/// The code of the last settled entry for the line, dropped ones included; nothing for no edit yet.
pub fn settled_frame(record: &Record, log: &[u32], line: u32) -> (u32, Option<u32>) {
    if !sound(record, log) {
        return (UNSOUND, None);
    }
    if line >= LINES {
        return (NO_ENTRY, None);
    }
    (DONE, coded(record.codes[line as usize]))
}

/// The code of the last entry for the line in the own path; nothing for no edit yet.
pub fn tentative_frame(record: &Record, log: &[u32], line: u32) -> (u32, Option<u32>) {
    let (number, settled) = settled_frame(record, log, line);
    if number != DONE {
        return (number, None);
    }
    (DONE, last_code(record.ballots[record.own].tail(), line).or(settled))
}

/// The code of the last of the entries for the line, if there is one.
fn last_code(entries: &[u32], line: u32) -> Option<u32> {
    entries.iter().rev().find(|&&word| line_of(word) == line).map(|&word| code_of(word))
}
