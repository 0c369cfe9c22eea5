//! The message: writing one from a record, and reading one from bytes.

use crate::record::*;

const HEAD: [u8; 2] = [0x53, 0x48];
const SETTLED: [u8; 2] = [0x4C, 0x47];
const BALLOT: [u8; 2] = [0x42, 0x41];
const END: [u8; 2] = [0x45, 0x4E];

/// Bytes of one settled entry: mark and value.
const SETTLED_SIZE: usize = 6;

/// Bytes of the longest message.
pub const LONGEST: usize = 7046;

/// A message of the layout whose numbers are all within the limits.
pub struct Message<'a> {
    /// The office that sent it.
    pub sender: usize,
    /// Offices there are.
    pub n: usize,
    /// Weight of each office at the founding, zero from place n on.
    pub weights: [u16; OFFICES],
    /// Settled entries that its sender had dropped.
    pub dropped: u64,
    /// The other settled entries as they stand in the message, marks included.
    entries: &'a [u8],
    /// Each office's tail as it stands in the message; empty where there is none.
    tails: [&'a [u8]; OFFICES],
}

impl<'a> Message<'a> {
    /// The settled length, dropped entries included.
    pub fn settled(&self) -> u64 {
        self.dropped + (self.entries.len() / SETTLED_SIZE) as u64
    }

    /// The settled entries from one place to before another, places that the message still has; the first place is 0,
    /// dropped or not.
    pub fn entries(&self, from: u64, to: u64) -> impl DoubleEndedIterator<Item = u32> + 'a {
        let [from, to] = [from, to].map(|place| SETTLED_SIZE * (place - self.dropped) as usize);
        self.entries[from..to].chunks_exact(SETTLED_SIZE).map(|part| word(&part[2..]))
    }

    /// An office's tail; empty where the message has no ballot of it.
    pub fn tail(&self, office: usize) -> impl ExactSizeIterator<Item = u32> + 'a {
        words(self.tails[office])
    }
}

/// The 32-bit number in the first four bytes, most significant first.
fn word(bytes: &[u8]) -> u32 {
    u32::from_be_bytes([bytes[0], bytes[1], bytes[2], bytes[3]])
}

/// The 32-bit numbers that follow each other in the bytes.
fn words(bytes: &[u8]) -> impl ExactSizeIterator<Item = u32> + '_ {
    bytes.chunks_exact(4).map(word)
}

/// The message in the bytes, if they are one.
pub fn read(bytes: &[u8]) -> Option<Message<'_>> {
    let (mut message, rest) = read_head(bytes)?;
    let mut rest = rest;
    let mut next = 0;
    loop {
        let (mark, after) = rest.split_first_chunk::<2>()?;
        match *mark {
            END => return after.is_empty().then_some(message),
            BALLOT => rest = read_ballot(&mut message, &mut next, after)?,
            _ => return None,
        }
    }
}

/// The message with its head and settled entries read, and the bytes after them.
fn read_head(bytes: &[u8]) -> Option<(Message<'_>, &[u8])> {
    let (&[a, b, sender, n], rest) = bytes.split_first_chunk::<4>()?;
    let (sender, n) = (usize::from(sender), usize::from(n));
    if [a, b] != HEAD || !(1..=OFFICES).contains(&n) || sender >= n {
        return None;
    }
    let (given, rest) = rest.split_at_checked(2 * n)?;
    let mut weights = [0; OFFICES];
    for (weight, pair) in weights.iter_mut().zip(given.chunks_exact(2)) {
        *weight = u16::from_be_bytes([pair[0], pair[1]]);
    }
    let (&settled, rest) = rest.split_first_chunk()?;
    let (&dropped, rest) = rest.split_first_chunk()?;
    let (settled, dropped) = (u64::from_be_bytes(settled), u64::from_be_bytes(dropped));
    tail_limit(settled, dropped)?;
    let (entries, rest) = rest.split_at_checked(SETTLED_SIZE * (settled - dropped) as usize)?;
    let proper = |part: &[u8]| part[..2] == SETTLED && is_entry(word(&part[2..]), n);
    if !entries.chunks_exact(SETTLED_SIZE).all(proper) {
        return None;
    }
    Some((Message { sender, n, weights, dropped, entries, tails: [&[]; OFFICES] }, rest))
}

/// Reads one ballot of an office at or after `next`, and answers the bytes after it.
fn read_ballot<'a>(message: &mut Message<'a>, next: &mut usize, bytes: &'a [u8]) -> Option<&'a [u8]> {
    let (&[office, length], rest) = bytes.split_first_chunk::<2>()?;
    let (office, length) = (usize::from(office), usize::from(length));
    let limit = tail_limit(message.settled(), message.dropped)?;
    if office < *next || office >= message.n || !(1..=limit).contains(&length) {
        return None;
    }
    let (tail, rest) = rest.split_at_checked(4 * length)?;
    if !words(tail).all(|value| is_entry(value, message.n)) || !fair(words(tail), message.n) {
        return None;
    }
    message.tails[office] = tail;
    *next = office + 1;
    Some(rest)
}

/// Bytes of the message of a sound record, or of any whose lengths have room.
pub(crate) fn length(record: &Record) -> usize {
    let ballots = record.ballots[..record.n].iter().filter(|ballot| ballot.len > 0);
    let ballots: usize = ballots.map(|ballot| 4 + 4 * ballot.len).sum();
    4 + 2 * record.n + 16 + SETTLED_SIZE * record.held() + ballots + 2
}

/// Writes the office's message and answers its length; later bytes of the output keep their contents.
pub fn send(record: &Record, log: &[u32], output: &mut [u8]) -> (u32, usize) {
    if !sound(record, log) {
        return (UNSOUND, 0);
    }
    let length = length(record);
    let Some(output) = output.get_mut(..length) else {
        return (OUTPUT_SHORT, 0);
    };
    write(record, &log[..record.held()], output);
    (DONE, length)
}

/// Writes the message of such a record, whose settled entries but the dropped ones are these, into an output of exactly
/// its length.
pub(crate) fn write(record: &Record, settled: &[u32], output: &mut [u8]) {
    let rest = put(output, &HEAD);
    let mut rest = put(rest, &[record.own as u8, record.n as u8]);
    for weight in &record.weights[..record.n] {
        rest = put(rest, &weight.to_be_bytes());
    }
    let rest = put(rest, &record.settled.to_be_bytes());
    let rest = put(rest, &record.kept.dropped.to_be_bytes());
    let (entries, mut rest) = rest.split_at_mut(SETTLED_SIZE * settled.len());
    for (part, value) in entries.chunks_exact_mut(SETTLED_SIZE).zip(settled) {
        part[..2].copy_from_slice(&SETTLED);
        part[2..].copy_from_slice(&value.to_be_bytes());
    }
    for (office, ballot) in record.ballots[..record.n].iter().enumerate() {
        if ballot.len > 0 {
            rest = put(rest, &BALLOT);
            rest = put(rest, &[office as u8, ballot.len as u8]);
            rest = put_words(rest, ballot.tail());
        }
    }
    put(rest, &END);
}

/// Writes the bytes to the front and answers the output after them.
fn put<'a>(output: &'a mut [u8], bytes: &[u8]) -> &'a mut [u8] {
    let (front, rest) = output.split_at_mut(bytes.len());
    front.copy_from_slice(bytes);
    rest
}

/// Writes the words to the front and answers the output after them.
fn put_words<'a>(output: &'a mut [u8], words: &[u32]) -> &'a mut [u8] {
    let (front, rest) = output.split_at_mut(4 * words.len());
    for (part, value) in front.chunks_exact_mut(4).zip(words) {
        part.copy_from_slice(&value.to_be_bytes());
    }
    rest
}
