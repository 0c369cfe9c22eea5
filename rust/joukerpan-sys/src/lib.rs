//! The proved engine's functions as C sees them: `include/joukerpan.h` in Rust.
//!
//! The crate `joukerpan` wraps them; use that one. A slice crosses as a pointer and a count of
//! elements. The functions read and write what these name and nothing else, keep no pointer, take
//! no memory and do not unwind. Nothing checks these declarations against the engine, so the
//! layout is asserted here, and `rust/compare` compares the answers.

#![no_std]
#![warn(missing_docs)]

/// Most offices, and places of a record.
pub const OFFICES: usize = 8;
/// Most entries of a ballot's tail.
pub const TAIL: usize = 32;
/// Lines of the frame: 0 to 63. An entry with line 64 + j moves weight to office j.
pub const LINES: u32 = 64;
/// Codes of a line: 0 to 9999. Weight that a move moves: 1 to 9999.
pub const CODES: u32 = 10_000;
/// Most settled entries that are not dropped, and fewest words of a log.
pub const LOG: usize = 1024;
/// Most settled entries and entries of a tail behind them, dropped ones included.
pub const LENGTH: u64 = 1 << 63;
/// Most bytes of a message.
pub const MESSAGE_MAX: usize = 7046;
/// Bytes of a household record: 0x48 0x52, line (1), grossing weight (4, most significant first).
pub const HOUSEHOLD: usize = 7;
/// Most household records of a sheet.
pub const HOUSEHOLDS: usize = 1_000_000;
/// Bytes of a count in a version vector, most significant first. A vector has a count for each office.
pub const COUNT: usize = 8;
/// Most bytes of an office's version vectors.
pub const VECTORS_MAX: usize = COUNT * OFFICES * (OFFICES + 1);

/// A ballot: a tail of entries. Length 0 means none, or unknown. Unused cells are zero.
#[repr(C)]
#[derive(Clone, Copy, Debug, PartialEq, Eq)]
pub struct Ballot {
    /// Entries of the tail.
    pub len: usize,
    /// The tail, then zeros.
    pub cells: [u32; TAIL],
}

/// What settled entries have done. A record with any other summary than what is kept of its dropped entries and the
/// undropped ones give is unsound.
#[repr(C)]
#[derive(Clone, Copy, Debug, PartialEq, Eq)]
pub struct Summary {
    /// Weight of each office after their moves; of the record, by which elections count.
    pub present: [u16; OFFICES],
    /// Of each line 0 for no edit yet, else one more than the code of the last of them for it.
    pub codes: [u32; LINES as usize],
}

/// What is kept of the settled entries that were dropped. With none dropped its weights are the founding weights, and
/// all else is zero.
#[repr(C)]
#[derive(Clone, Copy, Debug, PartialEq, Eq)]
pub struct Kept {
    /// How many they are.
    pub dropped: u64,
    /// What they have done.
    pub summary: Summary,
    /// How many of them each office issued; they add up to the dropped count.
    pub counts: [u64; OFFICES],
}

/// What one office knows, apart from its log.
#[repr(C)]
#[derive(Clone, Copy, Debug, PartialEq, Eq)]
pub struct Record {
    /// Offices there are.
    pub n: usize,
    /// This office, below n.
    pub own: usize,
    /// Weight of each office at the founding, as messages carry it; zero from place n on.
    pub weights: [u16; OFFICES],
    /// What is kept of the dropped entries.
    pub kept: Kept,
    /// Longest settled length heard of each other office; 0 at the own place and from place n on.
    pub noted: [u64; OFFICES],
    /// What all settled entries have done, dropped ones included.
    pub summary: Summary,
    /// Settled length, dropped entries included. The words at the front of the log are the others.
    pub settled: u64,
    /// Last known ballot of each office; none from place n on.
    pub ballots: [Ballot; OFFICES],
}

/// Eight weights, by value.
#[repr(C)]
#[derive(Clone, Copy, Debug, PartialEq, Eq)]
pub struct Weights {
    /// The weight of each office.
    pub of: [u16; OFFICES],
}

/// Found's answer: the record is all zero where it is refused.
#[repr(C)]
#[derive(Clone, Copy, Debug, PartialEq, Eq)]
pub struct Founded {
    /// The fresh record.
    pub record: Record,
    /// 0, or the refusal's number.
    pub number: u32,
}

/// Issue's answer.
#[repr(C)]
#[derive(Clone, Copy, Debug, PartialEq, Eq)]
pub struct Issued {
    /// The next record; the one handed in where the call is refused.
    pub record: Record,
    /// 0, or the refusal's number.
    pub number: u32,
}

/// Settled's answer.
#[repr(C)]
#[derive(Clone, Copy, Debug, PartialEq, Eq)]
pub struct Part {
    /// 0, or the refusal's number.
    pub number: u32,
    /// Settled words at the front of the log, those not dropped; 0 where the call is refused.
    pub length: usize,
}

/// A frame's answer.
#[repr(C)]
#[derive(Clone, Copy, Debug, PartialEq, Eq)]
pub struct Framed {
    /// 0, or the refusal's number.
    pub number: u32,
    /// Whether the line has an edit; false for no edit yet, and where the call is refused.
    pub coded: bool,
    /// Its code, of which 0 is one like another; 0 where it has no edit.
    pub code: u32,
}

/// The answer of all lines.
#[repr(C)]
#[derive(Clone, Copy, Debug, PartialEq, Eq)]
pub struct Lines {
    /// 0, or the refusal's number.
    pub number: u32,
    /// Of each line 0 for no edit yet, else its code + 1; each 0 where the call is refused.
    pub codes: [u32; LINES as usize],
}

/// The answer of the earlier frame.
#[repr(C)]
#[derive(Clone, Copy, Debug, PartialEq, Eq)]
pub struct Earlier {
    /// 0, or the refusal's number.
    pub number: u32,
    /// Words of the log that were read; 0 where the call is refused.
    pub words: usize,
    /// Of each line named 0 for no edit yet, else its code + 1; 0 past them, and where the call is refused.
    pub edits: [u32; LINES as usize],
}

/// Elect's answer.
#[repr(C)]
#[derive(Clone, Copy, Debug, PartialEq, Eq)]
pub struct Elected {
    /// The next record; the one handed in where the call is refused.
    pub record: Record,
    /// 0, or the refusal's number.
    pub number: u32,
    /// Entries settled; 0 where the call is refused.
    pub count: usize,
}

/// Fold's answer.
#[repr(C)]
#[derive(Clone, Copy, Debug, PartialEq, Eq)]
pub struct Folded {
    /// The next record; the one handed in where the call is refused.
    pub record: Record,
    /// 0, or the refusal's number.
    pub number: u32,
    /// Entries dropped; 0 where the call is refused.
    pub count: u64,
}

/// Send's answer.
#[repr(C)]
#[derive(Clone, Copy, Debug, PartialEq, Eq)]
pub struct Sent {
    /// 0, or the refusal's number.
    pub number: u32,
    /// Bytes written; 0 where the call is refused.
    pub length: usize,
}

/// Take's answer.
#[repr(C)]
#[derive(Clone, Copy, Debug, PartialEq, Eq)]
pub struct Taken {
    /// The next record; the one handed in where the call is refused.
    pub record: Record,
    /// 0, or the refusal's number.
    pub number: u32,
    /// Places of the two settled logs that were compared, from the last that both still have back to the first:
    /// up to and including the first difference met, all of them if none differs; 0 on any refusal but 10.
    pub places: usize,
}

/// A row of a household sheet.
#[repr(C)]
#[derive(Clone, Copy, Debug, PartialEq, Eq)]
pub struct Row {
    /// The class: 0 for no edit yet, the uncoded households, else the settled code + 1.
    pub class: u32,
    /// The weights of the households under it; below 2^52.
    pub total: u64,
}

/// The household sheet's answer.
#[repr(C)]
#[derive(Clone, Copy, Debug, PartialEq, Eq)]
pub struct Sheet {
    /// 0, or the refusal's number.
    pub number: u32,
    /// Rows there are; 0 where the call is refused.
    pub count: usize,
    /// The rows, uncoded first, then classes rising, then zeros.
    pub rows: [Row; LINES as usize],
}

/// The forecast's answer.
#[repr(C)]
#[derive(Clone, Copy, Debug, PartialEq, Eq)]
pub struct Foreseen {
    /// 0, or the refusal's number.
    pub number: u32,
    /// Whether an entry wins under every choice; false where the call is refused.
    pub named: bool,
    /// That entry; 0 where none is named.
    pub entry: u32,
}

/// The answer of writing version vectors.
#[repr(C)]
#[derive(Clone, Copy, Debug, PartialEq, Eq)]
pub struct Written {
    /// 0, or the refusal's number.
    pub number: u32,
    /// Bytes written; 0 where the call is refused.
    pub length: usize,
}

/// The answer of comparing with a version vector.
#[repr(C)]
#[derive(Clone, Copy, Debug, PartialEq, Eq)]
pub struct Compared {
    /// 0, or the refusal's number.
    pub number: u32,
    /// Of the settled log, then of each office's path: 0 before, 1 equal, 2 after, 3 beside. Beside past the
    /// last, and where the call is refused.
    pub answers: [u32; OFFICES + 1],
}

/// What became of the own entries that were pending.
#[repr(C)]
#[derive(Clone, Copy, Debug, PartialEq, Eq)]
pub struct Told {
    /// 0, or the refusal's number.
    pub number: u32,
    /// Those that are settled; 0 where the call is refused, as the two below.
    pub settled: usize,
    /// Those that are pending still.
    pub pending: usize,
    /// Those that are lost.
    pub lost: usize,
}

/// How the next place stands.
#[repr(C)]
#[derive(Clone, Copy, Debug, PartialEq, Eq)]
pub struct Tallied {
    /// 0, or the refusal's number.
    pub number: u32,
    /// Supported entries there are; 0 where the call is refused.
    pub rows: usize,
    /// U: the present weight of the offices with no ballot.
    pub unheard: u32,
    /// The supported entries, each once, in the order of the lowest office that supports it, then zeros.
    pub entries: [u32; OFFICES],
    /// T of each of them, then zeros.
    pub tallies: [u32; OFFICES],
    /// Of each office 1 if it has no ballot, else 0.
    pub silent: [u32; OFFICES],
}

// Each function asks what C asks: a pointer is aligned, not null, and names as many elements as the
// count after it says; memory that a call writes is named by no other argument of it.
extern "C" {
    /// A fresh record: an empty log and no ballots.
    pub fn joukerpan_found(n: usize, own: usize, weights: Weights, log: *const u32, log_len: usize) -> Founded;

    /// Whether the record with its log is sound.
    pub fn joukerpan_sound(record: Record, log: *const u32, log_len: usize) -> bool;

    /// The record with the entry, an edit or a move of weight, appended to its own ballot.
    pub fn joukerpan_issue(record: Record, log: *const u32, log_len: usize, line: u32, code: u32) -> Issued;

    /// How many words at the front of the log are settled: the entries that are not dropped.
    pub fn joukerpan_settled(record: Record, log: *const u32, log_len: usize) -> Part;

    /// The code of the last entry for each line in the settled log, or no edit yet.
    pub fn joukerpan_all_lines(record: Record, log: *const u32, log_len: usize) -> Lines;

    /// The code of the last entry for the line in the settled log, or no edit yet.
    pub fn joukerpan_settled_frame(record: Record, log: *const u32, log_len: usize, line: u32) -> Framed;

    /// The code of the last entry for the line in the own path, or no edit yet.
    pub fn joukerpan_tentative_frame(record: Record, log: *const u32, log_len: usize, line: u32) -> Framed;

    /// The code of the last entry for each line named in the first p settled entries, dropped ones included, or no
    /// edit yet.
    pub fn joukerpan_frame_at(
        record: Record,
        log: *const u32,
        log_len: usize,
        p: u64,
        lines: *const u32,
        lines_len: usize,
    ) -> Earlier;

    /// The record after election steps until no entry wins.
    pub fn joukerpan_elect(record: Record, log: *mut u32, log_len: usize) -> Elected;

    /// The record without the first settled entries that every office is known to have.
    pub fn joukerpan_fold(record: Record, log: *mut u32, log_len: usize) -> Folded;

    /// Writes the office's message.
    pub fn joukerpan_send(record: Record, log: *const u32, log_len: usize, output: *mut u8, output_len: usize) -> Sent;

    /// The record after another office's message.
    pub fn joukerpan_take(
        record: Record,
        log: *mut u32,
        log_len: usize,
        message: *const u8,
        message_len: usize,
    ) -> Taken;

    /// What became of the own entries that were pending before a call. Writes those that are not settled.
    pub fn joukerpan_outcome(
        before: Record,
        after: Record,
        log: *const u32,
        log_len: usize,
        rest: *mut u32,
        rest_len: usize,
    ) -> Told;

    /// How the next place stands: supported entries with their weights, and whose vote is missing.
    pub fn joukerpan_standing(record: Record, log: *const u32, log_len: usize) -> Tallied;

    /// The household sheet, by the settled codes.
    pub fn joukerpan_sheet(
        record: Record,
        log: *const u32,
        log_len: usize,
        households: *const u8,
        households_len: usize,
    ) -> Sheet;

    /// The entry that would win the first election step whichever weights within the bounds are chosen.
    pub fn joukerpan_forecast(
        record: Record,
        log: *const u32,
        log_len: usize,
        lowest: Weights,
        highest: Weights,
    ) -> Foreseen;

    /// Writes the version vectors of the settled log and of each office's path.
    pub fn joukerpan_write_vectors(
        record: Record,
        log: *const u32,
        log_len: usize,
        output: *mut u8,
        output_len: usize,
    ) -> Written;

    /// How the settled log and each office's path stand to a version vector.
    pub fn joukerpan_compare_vector(
        record: Record,
        log: *const u32,
        log_len: usize,
        vector: *const u8,
        vector_len: usize,
    ) -> Compared;
}

/// The layout that the engine was compiled for.
const _: () = {
    use core::mem::{align_of, offset_of, size_of};
    assert!(size_of::<usize>() == 8);
    assert!(size_of::<Ballot>() == 136 && offset_of!(Ballot, cells) == 8);
    assert!(size_of::<Summary>() == 272 && offset_of!(Summary, codes) == 16 && align_of::<Summary>() == 4);
    assert!(size_of::<Kept>() == 344 && offset_of!(Kept, summary) == 8 && offset_of!(Kept, counts) == 280);
    assert!(size_of::<Record>() == 1808 && align_of::<Record>() == 8);
    assert!(offset_of!(Record, own) == 8 && offset_of!(Record, weights) == 16 && offset_of!(Record, kept) == 32);
    assert!(offset_of!(Record, noted) == 376 && offset_of!(Record, summary) == 440);
    assert!(offset_of!(Record, settled) == 712 && offset_of!(Record, ballots) == 720);
    assert!(size_of::<Weights>() == 16 && align_of::<Weights>() == 2);
    assert!(size_of::<Founded>() == 1816 && offset_of!(Founded, number) == 1808);
    assert!(size_of::<Issued>() == 1816 && offset_of!(Issued, number) == 1808);
    assert!(size_of::<Part>() == 16 && offset_of!(Part, length) == 8);
    assert!(size_of::<Framed>() == 12 && offset_of!(Framed, coded) == 4 && offset_of!(Framed, code) == 8);
    assert!(size_of::<Lines>() == 260 && offset_of!(Lines, codes) == 4 && align_of::<Lines>() == 4);
    assert!(size_of::<Earlier>() == 272 && offset_of!(Earlier, words) == 8 && offset_of!(Earlier, edits) == 16);
    assert!(size_of::<Elected>() == 1824 && offset_of!(Elected, number) == 1808 && offset_of!(Elected, count) == 1816);
    assert!(size_of::<Folded>() == 1824 && offset_of!(Folded, number) == 1808 && offset_of!(Folded, count) == 1816);
    assert!(size_of::<Sent>() == 16 && offset_of!(Sent, length) == 8);
    assert!(size_of::<Taken>() == 1824 && offset_of!(Taken, number) == 1808 && offset_of!(Taken, places) == 1816);
    assert!(size_of::<Row>() == 16 && offset_of!(Row, total) == 8);
    assert!(size_of::<Sheet>() == 1040 && offset_of!(Sheet, count) == 8 && offset_of!(Sheet, rows) == 16);
    assert!(size_of::<Foreseen>() == 12 && offset_of!(Foreseen, named) == 4 && offset_of!(Foreseen, entry) == 8);
    assert!(size_of::<Written>() == 16 && offset_of!(Written, length) == 8);
    assert!(size_of::<Compared>() == 40 && offset_of!(Compared, answers) == 4);
    assert!(size_of::<Told>() == 32 && offset_of!(Told, settled) == 8);
    assert!(offset_of!(Told, pending) == 16 && offset_of!(Told, lost) == 24);
    assert!(size_of::<Tallied>() == 120 && offset_of!(Tallied, rows) == 8 && offset_of!(Tallied, unheard) == 16);
    assert!(offset_of!(Tallied, entries) == 20 && offset_of!(Tallied, tallies) == 52);
    assert!(offset_of!(Tallied, silent) == 84);
};
