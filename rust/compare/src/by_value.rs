//! The second implementation's calls as C functions that take the record by value, as the engine's do: what the
//! passing alone costs.

use std::slice::{from_raw_parts, from_raw_parts_mut};

use joukerpan_sys::{Tallied, Told, Weights};
use second::archive::PATHS;
use second::calls as plain;
use second::outcome::Outcome;
use second::record::{stored, Codes, Record};
use second::standing::Standing;

/// An answer that holds a record; the record comes first, as in the engine's.
#[repr(C)]
pub struct Answer {
    record: Record,
    number: u32,
    count: usize,
}

impl Answer {
    fn of((number, record): (u32, Record)) -> Answer {
        Answer { record, number, count: 0 }
    }
}

/// A number and 64 codes, as the engine answers all lines.
#[repr(C)]
pub struct Lines {
    number: u32,
    codes: Codes,
}

/// A number, the words read and 64 codes, as the engine answers an earlier frame.
#[repr(C)]
pub struct Earlier {
    number: u32,
    words: usize,
    codes: Codes,
}

/// A number and nine standings, as the engine answers a comparison with a vector.
#[repr(C)]
pub struct Standings {
    number: u32,
    standings: [u32; PATHS],
}

// SAFETY of every function below: its pointers name as many elements as the number after them says, for as long as
// the call lasts, and those that are written are lent to that call alone.

#[inline(never)]
pub unsafe extern "C" fn found(n: usize, own: usize, weights: Weights, log: *const u32, words: usize) -> Answer {
    Answer::of(plain::found(n, own, weights.of, from_raw_parts(log, words)))
}

#[inline(never)]
pub unsafe extern "C" fn sound(record: Record, log: *const u32, words: usize) -> bool {
    second::record::sound(&record, from_raw_parts(log, words))
}

#[inline(never)]
pub unsafe extern "C" fn settled(record: Record, log: *const u32, words: usize) -> usize {
    plain::settled(&record, from_raw_parts(log, words)).1.len()
}

#[inline(never)]
pub unsafe extern "C" fn all_lines(record: Record, log: *const u32, words: usize) -> Lines {
    let (number, codes) = plain::settled_codes(&record, from_raw_parts(log, words));
    Lines { number, codes }
}

#[inline(never)]
pub unsafe extern "C" fn settled_frame(record: Record, log: *const u32, words: usize, line: u32) -> u32 {
    stored(plain::settled_frame(&record, from_raw_parts(log, words), line).1)
}

#[inline(never)]
pub unsafe extern "C" fn tentative_frame(record: Record, log: *const u32, words: usize, line: u32) -> u32 {
    stored(plain::tentative_frame(&record, from_raw_parts(log, words), line).1)
}

#[inline(never)]
pub unsafe extern "C" fn issue(record: Record, log: *const u32, words: usize, line: u32, code: u32) -> Answer {
    Answer::of(plain::issue(record, from_raw_parts(log, words), line, code))
}

#[inline(never)]
pub unsafe extern "C" fn send(record: Record, log: *const u32, words: usize, out: *mut u8, bytes: usize) -> usize {
    second::message::send(&record, from_raw_parts(log, words), from_raw_parts_mut(out, bytes)).1
}

#[inline(never)]
pub unsafe extern "C" fn elect(record: Record, log: *mut u32, words: usize) -> Answer {
    let (number, count, record) = second::elect::elect(record, from_raw_parts_mut(log, words));
    Answer { record, number, count }
}

#[inline(never)]
pub unsafe extern "C" fn take(record: Record, log: *mut u32, words: usize, message: *const u8, bytes: usize) -> Answer {
    let log = from_raw_parts_mut(log, words);
    let (number, count, record) = second::take::take(record, log, from_raw_parts(message, bytes));
    Answer { record, number, count }
}

#[inline(never)]
pub unsafe extern "C" fn fold(record: Record, log: *mut u32, words: usize) -> Answer {
    let (number, count, record) = second::fold::fold(record, from_raw_parts_mut(log, words));
    Answer { record, number, count: count as usize }
}

#[inline(never)]
pub unsafe extern "C" fn frame_at(
    record: Record,
    log: *const u32,
    words: usize,
    p: u64,
    lines: *const u32,
    count: usize,
) -> Earlier {
    let lines = from_raw_parts(lines, count);
    let (number, words, codes) = second::earlier::earlier(&record, from_raw_parts(log, words), p, lines);
    Earlier { number, words, codes }
}

#[inline(never)]
pub unsafe extern "C" fn write_vectors(
    record: Record,
    log: *const u32,
    words: usize,
    out: *mut u8,
    bytes: usize,
) -> usize {
    second::archive::write_vectors(&record, from_raw_parts(log, words), from_raw_parts_mut(out, bytes)).1
}

#[inline(never)]
pub unsafe extern "C" fn compare_vector(
    record: Record,
    log: *const u32,
    words: usize,
    vector: *const u8,
    bytes: usize,
) -> Standings {
    let vector = from_raw_parts(vector, bytes);
    let (number, standings) = second::archive::compare_vector(&record, from_raw_parts(log, words), vector);
    Standings { number, standings: standings.map(|standing| standing as u32) }
}

#[inline(never)]
pub unsafe extern "C" fn forecast(
    record: Record,
    log: *const u32,
    words: usize,
    lowest: Weights,
    highest: Weights,
) -> u64 {
    let (_, named) = second::forecast::forecast(&record, from_raw_parts(log, words), lowest.of, highest.of);
    named.map_or(0, |entry| u64::from(entry) + 1)
}

#[inline(never)]
pub unsafe extern "C" fn outcome(
    before: Record,
    after: Record,
    log: *const u32,
    words: usize,
    rest: *mut u32,
    count: usize,
) -> Told {
    let (log, rest) = (from_raw_parts(log, words), from_raw_parts_mut(rest, count));
    let (number, Outcome { settled, pending, lost }) = second::outcome::outcome(&before, &after, log, rest);
    Told { number, settled, pending, lost }
}

#[inline(never)]
pub unsafe extern "C" fn standing(record: Record, log: *const u32, words: usize) -> Tallied {
    let (number, stands) = second::standing::standing(&record, from_raw_parts(log, words));
    let Standing { rows, unheard, entries, tallies, silent } = stands;
    Tallied { number, rows, unheard, entries, tallies, silent }
}
