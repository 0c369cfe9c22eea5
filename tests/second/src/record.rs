//! Entries, ballots and records, and when a record with its log is sound.

/// Most offices that a record has.
pub const OFFICES: usize = 8;
/// Most entries in a ballot's tail.
pub const TAIL: usize = 32;
/// Lines of the frame: 0 to 63. An entry with line 64 + j moves weight to office j.
pub const LINES: u32 = 64;
/// Codes of a line: 0 to 9999. Weight of a move: 1 to 9999.
pub const CODES: u32 = 10_000;
/// Most settled entries that are not dropped, with a tail, and fewest words of a lent log.
pub const LOG: usize = 1024;
/// Most settled entries, dropped ones included, with a tail.
pub const LENGTH: u64 = 1 << 63;

/// Words that are looked through together.
const PIECE: usize = 64;

/// The call was done.
pub const DONE: u32 = 0;
/// The record is unsound, or the log is below 1024 words.
pub const UNSOUND: u32 = 1;
/// Founding: n, own office or weights outside the limits.
pub const LIMITS: u32 = 2;
/// Line or code outside the limits.
pub const NO_ENTRY: u32 = 3;
/// The entries that are not dropped make 1024 with the own tail, or the settled ones 2^63.
pub const LOG_FULL: u32 = 5;
/// The output is shorter than what is to be written.
pub const OUTPUT_SHORT: u32 = 6;
/// The message is not of the layout, or holds a number outside the limits.
pub const NO_MESSAGE: u32 = 7;
/// The message's n or weights differ from the record's.
pub const OTHER_WEIGHTS: u32 = 8;
/// The sender is the receiver's own office.
pub const OWN_MESSAGE: u32 = 9;
/// The settled logs differ in the part that both still have.
pub const LOGS_PART: u32 = 10;
/// The own office has its part in its own tail.
pub const PART_FULL: u32 = 11;
/// The households are not of the layout, have a line above 63, or are too many.
pub const NO_HOUSEHOLDS: u32 = 12;
/// The place is past the settled length or inside the dropped part, or more than 64 lines are named.
pub const NO_PLACE: u32 = 13;
/// The vector has not exactly n counts.
pub const NO_VECTOR: u32 = 14;
/// A lowest weight is above its highest.
pub const NO_BOUNDS: u32 = 15;
/// The message's log begins past the receiver's length.
pub const BEGINS_PAST: u32 = 16;
/// The message's log ends inside the receiver's dropped part.
pub const ENDS_INSIDE: u32 = 17;

/// A tail of entries; length 0 means none, or unknown. Unused cells are zero.
#[repr(C)]
#[derive(Clone, Copy, Debug, PartialEq, Eq)]
pub struct Ballot {
    /// Entries in the tail.
    pub len: usize,
    /// The tail, then zeros.
    pub cells: [u32; TAIL],
}

/// A stored code for each line of the frame: 0 for no edit yet, one more than the code otherwise.
pub type Codes = [u32; LINES as usize];

/// What is kept of the settled entries that are no longer in the log.
#[repr(C)]
#[derive(Clone, Copy, Debug, PartialEq, Eq)]
pub struct Kept {
    /// How many they are.
    pub dropped: u64,
    /// Weight of each office after their moves.
    pub present: [u16; OFFICES],
    /// Stored code of the last of them for each line.
    pub codes: Codes,
    /// How many of them each office issued.
    pub counts: [u64; OFFICES],
}

/// What one office knows, apart from its log.
#[repr(C)]
#[derive(Clone, Copy, Debug, PartialEq, Eq)]
pub struct Record {
    /// Offices there are.
    pub n: usize,
    /// This office.
    pub own: usize,
    /// Weight of each office at the founding, zero from place n on.
    pub weights: [u16; OFFICES],
    /// What is kept of the dropped entries.
    pub kept: Kept,
    /// Longest settled length in accepted messages of each other office.
    pub noted: [u64; OFFICES],
    /// Weight of each office after the moves of all settled entries.
    pub present: [u16; OFFICES],
    /// Stored code of the last settled entry for each line.
    pub codes: Codes,
    /// Settled entries, dropped ones included.
    pub settled: u64,
    /// Last known ballot of each office, none from place n on.
    pub ballots: [Ballot; OFFICES],
}

impl Ballot {
    /// The ballot of an office that is not known to have voted.
    pub const NONE: Ballot = Ballot { len: 0, cells: [0; TAIL] };

    /// The ballot with this tail, or with as much of it as there are cells.
    pub fn of(tail: &[u32]) -> Ballot {
        let mut ballot = Ballot { len: tail.len().min(TAIL), ..Ballot::NONE };
        ballot.cells.iter_mut().zip(tail).for_each(|(cell, &value)| *cell = value);
        ballot
    }

    /// The tail: the first `len` cells, or all of them where `len` is past the end.
    pub fn tail(&self) -> &[u32] {
        &self.cells[..self.len.min(TAIL)]
    }

    /// Drops the first `count` entries, at most the tail's length.
    pub(crate) fn shorten(&mut self, count: usize) {
        self.cells.copy_within(count..self.len, 0);
        self.cells[self.len - count..self.len].fill(0);
        self.len -= count;
    }
}

impl Kept {
    /// What is kept while nothing is dropped, of offices founded with these weights.
    pub const fn nothing(weights: [u16; OFFICES]) -> Kept {
        Kept { dropped: 0, present: weights, codes: [0; LINES as usize], counts: [0; OFFICES] }
    }
}

impl Record {
    /// The record that a refused founding answers.
    pub const ZERO: Record = Record {
        n: 0,
        own: 0,
        weights: [0; OFFICES],
        kept: Kept::nothing([0; OFFICES]),
        noted: [0; OFFICES],
        present: [0; OFFICES],
        codes: [0; LINES as usize],
        settled: 0,
        ballots: [Ballot::NONE; OFFICES],
    };

    /// Settled words at the front of the log: the entries that are not dropped.
    pub fn held(&self) -> usize {
        self.settled.saturating_sub(self.kept.dropped) as usize
    }
}

/// The value of an entry whose numbers are within the limits.
pub const fn entry(office: usize, line: u32, code: u32) -> u32 {
    (office as u32) << 24 | line << 16 | code
}

/// The office that issued an entry.
pub fn office_of(word: u32) -> usize {
    (word >> 24) as usize
}

/// The line of an entry.
pub fn line_of(word: u32) -> u32 {
    word >> 16 & 0xff
}

/// The code of an entry.
pub fn code_of(word: u32) -> u32 {
    word & 0xffff
}

/// Whether an entry among n offices, 8 at most, may have this line and code: those of an edit, or of a move.
pub fn proper(line: u32, code: u32, n: usize) -> bool {
    (line < LINES + n.min(OFFICES) as u32) & (code < CODES) & ((line < LINES) | (code > 0))
}

/// Whether the word is the value of an entry among n offices, 8 at most.
pub fn is_entry(word: u32, n: usize) -> bool {
    (word >> 24 < n.min(OFFICES) as u32) & proper(line_of(word), code_of(word), n)
}

/// Whether the entry moves weight.
pub fn is_move(word: u32) -> bool {
    line_of(word) >= LINES
}

/// Moves the weight of an entry that is settled, if it is a move to another office, the issuer has that much and the
/// other stays at or below 65535.
pub(crate) fn move_weight(weights: &mut [u16; OFFICES], word: u32) {
    let (from, code) = (office_of(word), code_of(word) as u16);
    let Some(to) = line_of(word).checked_sub(LINES).map(|office| office as usize).filter(|&to| to != from) else {
        return;
    };
    if let (Some(less), Some(more)) = (weights[from].checked_sub(code), weights[to].checked_add(code)) {
        (weights[from], weights[to]) = (less, more);
    }
}

/// The weights once these entries are settled. Looks for moves piece by piece, so that it runs on vectors.
pub(crate) fn weights_after(mut weights: [u16; OFFICES], entries: &[u32]) -> [u16; OFFICES] {
    for piece in entries.chunks(PIECE) {
        // A line is 64 or more if a bit from the seventh on is set in it, and so with all lines together.
        if is_move(piece.iter().fold(0, |bits, &word| bits | word)) {
            piece.iter().for_each(|&word| move_weight(&mut weights, word));
        }
    }
    weights
}

/// How a code is stored, or that there is no edit yet.
pub fn stored(code: Option<u32>) -> u32 {
    code.map_or(0, |code| code + 1)
}

/// The code that is stored as this number; nothing for no edit yet.
pub fn coded(number: u32) -> Option<u32> {
    number.checked_sub(1)
}

/// Stores the code of an entry that is settled; a move has none.
pub(crate) fn set_code(codes: &mut Codes, word: u32) {
    if let Some(code) = codes.get_mut(line_of(word) as usize) {
        *code = stored(Some(code_of(word)));
    }
}

/// The stored codes once these entries are settled. Every line that a word can name has a place, so that none is tested.
pub(crate) fn codes_after(codes: &Codes, entries: &[u32]) -> Codes {
    let mut places = [0; 256];
    places[..codes.len()].copy_from_slice(codes);
    for &word in entries {
        places[line_of(word) as usize] = stored(Some(code_of(word)));
    }
    std::array::from_fn(|line| places[line])
}

/// Most entries in a tail that come from one of n offices, 1 to 8.
pub fn part(n: usize) -> usize {
    TAIL / n
}

/// Whether none of n offices has more than its part of these entries, at most 32 of them. Each office's count is a byte
/// of one number.
pub fn fair(entries: impl Iterator<Item = u32>, n: usize) -> bool {
    let counts = entries.fold(0_u64, |counts, word| counts + (1 << (8 * office_of(word))));
    counts.to_le_bytes().iter().fold(true, |good, &count| good & (usize::from(count) <= part(n)))
}

/// Whether all words are entries among n offices. Reads them all, so that it runs on vectors.
fn all_entries(words: &[u32], n: usize) -> bool {
    words.iter().fold(true, |good, &word| good & is_entry(word, n))
}

/// Whether n, the own office and the weights are within the limits.
pub(crate) fn within_limits(n: usize, own: usize, weights: &[u16; OFFICES]) -> bool {
    (1..=OFFICES).contains(&n)
        && own < n
        && weights[n..].iter().all(|&weight| weight == 0)
        && weights[..n].iter().any(|&weight| weight != 0)
}

/// Most entries of a tail behind so many settled entries, of which so many are dropped; nothing if these themselves are
/// outside the limits.
pub(crate) fn tail_limit(settled: u64, dropped: u64) -> Option<usize> {
    let held = settled.checked_sub(dropped)?;
    let room = (LOG as u64).checked_sub(held)?.min(LENGTH.checked_sub(settled)?);
    Some(room.min(TAIL as u64) as usize)
}

/// The sum of the weights.
fn total(weights: &[u16; OFFICES]) -> u32 {
    weights.iter().map(|&weight| u32::from(weight)).sum()
}

/// Whether what is kept of the dropped entries is within the limits. Which entries they were nobody knows any more, so
/// nothing else can be asked of it, unless there are none.
fn sound_kept(kept: &Kept, n: usize, weights: &[u16; OFFICES]) -> bool {
    let sum = kept.counts.iter().try_fold(0_u64, |sum, &count| sum.checked_add(count));
    kept.counts[n..].iter().all(|&count| count == 0)
        && sum == Some(kept.dropped)
        && kept.present[n..].iter().all(|&weight| weight == 0)
        && total(&kept.present) == total(weights)
        && kept.codes.iter().fold(true, |good, &number| good & (number <= CODES))
        && (kept.dropped > 0 || *kept == Kept::nothing(*weights))
}

/// Whether no noted length passes the record's own, and only the other offices have one.
fn sound_noted(record: &Record) -> bool {
    let other = |office: usize| office != record.own && office < record.n;
    record.noted.iter().enumerate().all(|(office, &noted)| noted <= if other(office) { record.settled } else { 0 })
}

/// Whether the ballot is a tail of at most `limit` entries, none of n offices with more than its part, with zeros after it.
fn sound_ballot(ballot: &Ballot, n: usize, limit: usize) -> bool {
    ballot.len <= limit
        && all_entries(&ballot.cells[..ballot.len], n)
        && fair(ballot.cells[..ballot.len].iter().copied(), n)
        && ballot.cells[ballot.len..].iter().fold(0, |bits, &cell| bits | cell) == 0
}

/// Whether the ballots of a record of n offices, 1 to 8, are tails of at most `limit` entries, and none from place n on.
pub(crate) fn sound_ballots(record: &Record, limit: usize) -> bool {
    let (known, past) = record.ballots.split_at(record.n);
    known.iter().all(|ballot| sound_ballot(ballot, record.n, limit))
        && past.iter().all(|ballot| sound_ballot(ballot, record.n, 0))
}

/// Whether the record with its log is sound.
pub fn sound(record: &Record, log: &[u32]) -> bool {
    let Record { n, own, weights, kept, .. } = record;
    if log.len() < LOG || !within_limits(*n, *own, weights) || !sound_kept(kept, *n, weights) || !sound_noted(record) {
        return false;
    }
    let Some(limit) = tail_limit(record.settled, kept.dropped) else {
        return false;
    };
    let entries = &log[..record.held()];
    all_entries(entries, *n)
        && record.present == weights_after(kept.present, entries)
        && record.codes == codes_after(&kept.codes, entries)
        && sound_ballots(record, limit)
}
