//! The engine's calls with the second implementation's types, which have the same layout.

use std::mem::{offset_of, size_of, transmute};

use joukerpan_sys as engine;
use joukerpan_sys::Weights;
use second::archive::PATHS;
use second::outcome::Outcome;
use second::record::{coded, Codes, Record, OFFICES};
use second::sheet::Row;
use second::standing::Standing;

const _: () = {
    assert!(size_of::<Record>() == size_of::<engine::Record>());
    assert!(offset_of!(Record, weights) == offset_of!(engine::Record, weights));
    assert!(offset_of!(Record, kept.dropped) == offset_of!(engine::Record, kept.dropped));
    assert!(offset_of!(Record, kept.present) == offset_of!(engine::Record, kept.summary.present));
    assert!(offset_of!(Record, kept.codes) == offset_of!(engine::Record, kept.summary.codes));
    assert!(offset_of!(Record, kept.counts) == offset_of!(engine::Record, kept.counts));
    assert!(offset_of!(Record, noted) == offset_of!(engine::Record, noted));
    assert!(offset_of!(Record, present) == offset_of!(engine::Record, summary.present));
    assert!(offset_of!(Record, codes) == offset_of!(engine::Record, summary.codes));
    assert!(offset_of!(Record, settled) == offset_of!(engine::Record, settled));
    assert!(offset_of!(Record, ballots) == offset_of!(engine::Record, ballots));
};

/// The record as the engine declares it.
pub fn to_engine(record: &Record) -> engine::Record {
    // SAFETY: both are `repr(C)` with the same fields at the same places, and hold nothing but numbers.
    unsafe { transmute::<Record, engine::Record>(*record) }
}

/// The record as the second implementation declares it.
pub fn from_engine(record: engine::Record) -> Record {
    // SAFETY: as in `to_engine`.
    unsafe { transmute::<engine::Record, Record>(record) }
}

// SAFETY of every call below: a slice names its elements for as long as the call lasts, and one that
// the engine writes is lent to that call alone.

pub fn found(n: usize, own: usize, weights: [u16; OFFICES], log: &[u32]) -> (u32, Record) {
    let answer = unsafe { engine::joukerpan_found(n, own, Weights { of: weights }, log.as_ptr(), log.len()) };
    (answer.number, from_engine(answer.record))
}

pub fn sound(record: &Record, log: &[u32]) -> bool {
    unsafe { engine::joukerpan_sound(to_engine(record), log.as_ptr(), log.len()) }
}

pub fn issue(record: &Record, log: &[u32], line: u32, code: u32) -> (u32, Record) {
    let answer = unsafe { engine::joukerpan_issue(to_engine(record), log.as_ptr(), log.len(), line, code) };
    (answer.number, from_engine(answer.record))
}

pub fn settled(record: &Record, log: &[u32]) -> (u32, usize) {
    let answer = unsafe { engine::joukerpan_settled(to_engine(record), log.as_ptr(), log.len()) };
    (answer.number, answer.length)
}

pub fn all_lines(record: &Record, log: &[u32]) -> (u32, Codes) {
    let answer = unsafe { engine::joukerpan_all_lines(to_engine(record), log.as_ptr(), log.len()) };
    (answer.number, answer.codes)
}

pub fn settled_frame(record: &Record, log: &[u32], line: u32) -> (u32, Option<u32>) {
    let answer = unsafe { engine::joukerpan_settled_frame(to_engine(record), log.as_ptr(), log.len(), line) };
    (answer.number, answer.coded.then_some(answer.code))
}

pub fn tentative_frame(record: &Record, log: &[u32], line: u32) -> (u32, Option<u32>) {
    let answer = unsafe { engine::joukerpan_tentative_frame(to_engine(record), log.as_ptr(), log.len(), line) };
    (answer.number, answer.coded.then_some(answer.code))
}

pub fn elect(record: &Record, log: &mut [u32]) -> (u32, usize, Record) {
    let answer = unsafe { engine::joukerpan_elect(to_engine(record), log.as_mut_ptr(), log.len()) };
    (answer.number, answer.count, from_engine(answer.record))
}

pub fn fold(record: &Record, log: &mut [u32]) -> (u32, u64, Record) {
    let answer = unsafe { engine::joukerpan_fold(to_engine(record), log.as_mut_ptr(), log.len()) };
    (answer.number, answer.count, from_engine(answer.record))
}

pub fn send(record: &Record, log: &[u32], output: &mut [u8]) -> (u32, usize) {
    let record = to_engine(record);
    let answer = unsafe { engine::joukerpan_send(record, log.as_ptr(), log.len(), output.as_mut_ptr(), output.len()) };
    (answer.number, answer.length)
}

pub fn take(record: &Record, log: &mut [u32], message: &[u8]) -> (u32, usize, Record) {
    let record = to_engine(record);
    let answer =
        unsafe { engine::joukerpan_take(record, log.as_mut_ptr(), log.len(), message.as_ptr(), message.len()) };
    (answer.number, answer.places, from_engine(answer.record))
}

/// The sheet with its rows, those past its count included.
pub fn sheet(record: &Record, log: &[u32], households: &[u8]) -> (u32, usize, Vec<Row>) {
    let record = to_engine(record);
    let answer =
        unsafe { engine::joukerpan_sheet(record, log.as_ptr(), log.len(), households.as_ptr(), households.len()) };
    let rows = answer.rows.iter().map(|row| Row { class: coded(row.class), total: row.total });
    (answer.number, answer.count, rows.collect())
}

pub fn frame_at(record: &Record, log: &[u32], p: u64, lines: &[u32]) -> (u32, usize, Codes) {
    let record = to_engine(record);
    let answer = unsafe { engine::joukerpan_frame_at(record, log.as_ptr(), log.len(), p, lines.as_ptr(), lines.len()) };
    (answer.number, answer.words, answer.edits)
}

pub fn write_vectors(record: &Record, log: &[u32], output: &mut [u8]) -> (u32, usize) {
    let (record, out) = (to_engine(record), output.as_mut_ptr());
    let answer = unsafe { engine::joukerpan_write_vectors(record, log.as_ptr(), log.len(), out, output.len()) };
    (answer.number, answer.length)
}

/// The number, and the standings as the engine numbers them.
pub fn compare_vector(record: &Record, log: &[u32], vector: &[u8]) -> (u32, [u32; PATHS]) {
    let record = to_engine(record);
    let answer =
        unsafe { engine::joukerpan_compare_vector(record, log.as_ptr(), log.len(), vector.as_ptr(), vector.len()) };
    (answer.number, answer.answers)
}

/// The number, whether an entry is named, and the entry.
pub fn forecast(record: &Record, log: &[u32], lowest: [u16; OFFICES], highest: [u16; OFFICES]) -> (u32, bool, u32) {
    let (lowest, highest) = (Weights { of: lowest }, Weights { of: highest });
    let answer = unsafe { engine::joukerpan_forecast(to_engine(record), log.as_ptr(), log.len(), lowest, highest) };
    (answer.number, answer.named, answer.entry)
}

pub fn outcome(before: &Record, after: &Record, log: &[u32], rest: &mut [u32]) -> (u32, Outcome) {
    let (before, after, out) = (to_engine(before), to_engine(after), rest.as_mut_ptr());
    let answer = unsafe { engine::joukerpan_outcome(before, after, log.as_ptr(), log.len(), out, rest.len()) };
    (answer.number, Outcome { settled: answer.settled, pending: answer.pending, lost: answer.lost })
}

pub fn standing(record: &Record, log: &[u32]) -> (u32, Standing) {
    let answer = unsafe { engine::joukerpan_standing(to_engine(record), log.as_ptr(), log.len()) };
    let engine::Tallied { number, rows, unheard, entries, tallies, silent } = answer;
    (number, Standing { rows, unheard, entries, tallies, silent })
}
