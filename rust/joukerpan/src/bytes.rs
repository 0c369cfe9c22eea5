//! An office as bytes, for a service to store.
//!
//! Numbers have four bytes, the most significant first; lengths and counts, which have 64 bits, are two numbers, the
//! higher one first. Every version begins with the mark and its own number and ends with the check sum of all bytes
//! before it; what stands between is the version's.
//! A record that widens gets a new name in `VERSIONS` and its fields in `to_bytes` and `from_bytes`. What a
//! record may hold is no part of a version: bytes of this one whose record is not sound, or is no longer, are
//! refused as such.

use joukerpan_sys::{Ballot, Kept, Record, Summary, LINES, LOG, OFFICES, TAIL};

use crate::{Office, Unreadable};

/// What a stored office begins with.
const MARK: [u8; 4] = *b"JKPN";

/// The versions by name, version 1 first. The last one is written and read, the others are refused.
pub(crate) const VERSIONS: [&str; 5] =
    ["fixed weights", "present weights", "settled codes", "uncoded lines", "dropped entries"];

/// The version that is written and read.
pub(crate) const VERSION: u32 = VERSIONS.len() as u32;

/// The check sum of some bytes: CRC-32, as Ethernet and zip have it.
fn check_sum(bytes: &[u8]) -> u32 {
    let bit = |sum: u32, _| (sum >> 1) ^ (0xEDB8_8320 & (sum & 1).wrapping_neg());
    !bytes.iter().fold(!0, |sum, &byte| (0..8).fold(sum ^ u32::from(byte), bit))
}

/// Bytes of a version around its numbers.
fn sealed(version: u32, numbers: &[u32]) -> Vec<u8> {
    let mut bytes = MARK.to_vec();
    bytes.extend(version.to_be_bytes());
    bytes.extend(numbers.iter().flat_map(|number| number.to_be_bytes()));
    bytes.extend(check_sum(&bytes).to_be_bytes());
    bytes
}

/// The numbers that whole bytes of this version hold.
fn opened(bytes: &[u8]) -> Result<Numbers<'_>, Unreadable> {
    let inside = bytes.strip_prefix(&MARK).ok_or(Unreadable::NoOffice)?;
    let (inside, sum) = inside.split_last_chunk().ok_or(Unreadable::Damaged)?;
    if check_sum(&bytes[..bytes.len() - sum.len()]) != u32::from_be_bytes(*sum) {
        return Err(Unreadable::Damaged);
    }
    let mut numbers = Numbers(inside);
    match numbers.next()? {
        [VERSION] => Ok(numbers),
        [other] => Err(Unreadable::OtherVersion(other)),
    }
}

/// Numbers that are still to be read.
struct Numbers<'a>(&'a [u8]);

impl Numbers<'_> {
    /// The next N numbers; the bytes are damaged where there are fewer.
    fn next<const N: usize>(&mut self) -> Result<[u32; N], Unreadable> {
        let (front, rest) = self.0.split_at_checked(4 * N).ok_or(Unreadable::Damaged)?;
        self.0 = rest;
        let mut four = front.chunks_exact(4);
        Ok([(); N].map(|()| u32::from_be_bytes(four.next().expect("4 × N bytes").try_into().expect("four"))))
    }

    /// The next eight as weights.
    fn weights(&mut self) -> Result<[u16; OFFICES], Unreadable> {
        let mut weights = [0; OFFICES];
        for (weight, number) in weights.iter_mut().zip(self.next::<OFFICES>()?) {
            *weight = u16::try_from(number).map_err(|_| Unreadable::Unsound)?;
        }
        Ok(weights)
    }

    /// The next N lengths or counts.
    fn long<const N: usize>(&mut self) -> Result<[u64; N], Unreadable> {
        let mut long = [0; N];
        for number in &mut long {
            let [high, low] = self.next()?.map(u64::from);
            *number = high << 32 | low;
        }
        Ok(long)
    }

    /// What entries have done.
    fn summary(&mut self) -> Result<Summary, Unreadable> {
        Ok(Summary { present: self.weights()?, codes: self.next()? })
    }

    /// The rest as the settled words of a log, so many of them.
    fn log(mut self, held: Option<u64>) -> Result<Box<[u32; LOG]>, Unreadable> {
        let held = held.filter(|&held| held <= LOG as u64).ok_or(Unreadable::Unsound)?;
        let mut log = Box::new([0; LOG]);
        for word in &mut log[..held as usize] {
            [*word] = self.next()?;
        }
        self.0.is_empty().then_some(log).ok_or(Unreadable::Damaged)
    }
}

/// The numbers of lengths or counts.
fn halves(long: &[u64]) -> impl Iterator<Item = u32> + '_ {
    long.iter().flat_map(|&number| [(number >> 32) as u32, number as u32])
}

/// The numbers of what entries have done.
fn of_summary(summary: &Summary) -> [u32; OFFICES + LINES as usize] {
    let mut numbers = [0; OFFICES + LINES as usize];
    numbers[..OFFICES].copy_from_slice(&summary.present.map(u32::from));
    numbers[OFFICES..].copy_from_slice(&summary.codes);
    numbers
}

impl Office {
    /// The office as bytes, to be stored before anything of it is sent or shown: with a version and a
    /// check sum, 1,828 bytes and 4 for each settled entry that is not dropped.
    ///
    /// ```
    /// use joukerpan::Office;
    ///
    /// let mut office = Office::found(1, &[50, 50])?;
    /// office.issue(5, 130)?;
    /// assert_eq!(Office::from_bytes(&office.to_bytes())?, office);
    /// # Ok::<(), Box<dyn std::error::Error>>(())
    /// ```
    pub fn to_bytes(&self) -> Vec<u8> {
        let Record { n, own, weights, kept, noted, summary, settled, ballots } = self.record();
        let mut numbers = vec![*n as u32, *own as u32];
        numbers.extend(halves(&[*settled, kept.dropped]));
        numbers.extend(weights.map(u32::from));
        numbers.extend(of_summary(summary));
        numbers.extend(of_summary(&kept.summary));
        numbers.extend(halves(&kept.counts));
        numbers.extend(halves(noted));
        for ballot in ballots {
            numbers.push(ballot.len as u32);
            numbers.extend(ballot.cells);
        }
        numbers.extend(self.settled());
        sealed(VERSION, &numbers)
    }

    /// The office that [`Office::to_bytes`] wrote. It must be the newest of its number that was ever sent
    /// or shown; the bytes cannot tell.
    ///
    /// # Errors
    ///
    /// [`Unreadable`] for any other bytes. The check sum is against accidents: who can compute it can
    /// write any sound office.
    ///
    /// ```
    /// use joukerpan::{Office, Unreadable};
    ///
    /// let mut bytes = Office::found(1, &[50, 50])?.to_bytes();
    /// bytes[20] ^= 1;
    /// assert_eq!(Office::from_bytes(&bytes), Err(Unreadable::Damaged));
    /// assert_eq!(Office::from_bytes(b"a letter"), Err(Unreadable::NoOffice));
    /// # Ok::<(), joukerpan::Refused>(())
    /// ```
    pub fn from_bytes(bytes: &[u8]) -> Result<Office, Unreadable> {
        let mut numbers = opened(bytes)?;
        let [n, own] = numbers.next()?.map(|number| number as usize);
        let [settled, dropped] = numbers.long()?;
        let weights = numbers.weights()?;
        let summary = numbers.summary()?;
        let kept = Kept { dropped, summary: numbers.summary()?, counts: numbers.long()? };
        let noted = numbers.long()?;
        let mut ballots = [Ballot { len: 0, cells: [0; TAIL] }; OFFICES];
        for ballot in &mut ballots {
            let [len] = numbers.next()?;
            *ballot = Ballot { len: len as usize, cells: numbers.next()? };
        }
        let log = numbers.log(settled.checked_sub(dropped))?;
        let record = Record { n, own, weights, kept, noted, summary, settled, ballots };
        Office::from_parts(record, log).map_err(|_| Unreadable::Unsound)
    }
}

#[cfg(test)]
mod tests;
