//! The household sheet: grossing weights of households pooled under the settled code of their line.

use std::collections::BTreeMap;

use crate::record::{coded, sound, Record, DONE, LINES, NO_HOUSEHOLDS, UNSOUND};

/// Most households that are read.
pub const HOUSEHOLDS: usize = 1_000_000;

/// Bytes of one household: mark, line and grossing weight.
pub const HOUSEHOLD_SIZE: usize = 7;

const MARK: [u8; 2] = [0x48, 0x52];

/// A line of the sheet.
#[derive(Clone, Copy, Debug, PartialEq, Eq)]
pub struct Row {
    /// The code; nothing for households under lines with no edit yet.
    pub class: Option<u32>,
    /// The weight of the households of that class.
    pub total: u64,
}

/// The sheet of the households in the bytes: those under lines with no edit yet first, then classes rising, only those
/// met; empty if it is refused.
pub fn sheet(record: &Record, log: &[u32], households: &[u8]) -> (u32, Vec<Row>) {
    if !sound(record, log) {
        return (UNSOUND, vec![]);
    }
    let Some(lines) = read(households) else {
        return (NO_HOUSEHOLDS, vec![]);
    };
    let mut totals = BTreeMap::new();
    for (&number, total) in record.codes.iter().zip(lines).filter_map(|(number, total)| Some((number, total?))) {
        *totals.entry(coded(number)).or_insert(0) += total;
    }
    (DONE, totals.into_iter().map(|(class, total)| Row { class, total }).collect())
}

/// The weight of the households of each line, nothing for a line without one; nothing at all if the bytes are not of the
/// layout. At most 1,000,000 weights of 32 bits add up to less than 2^52.
fn read(bytes: &[u8]) -> Option<[Option<u64>; LINES as usize]> {
    let (households, rest) = bytes.as_chunks::<HOUSEHOLD_SIZE>();
    if !rest.is_empty() || households.len() > HOUSEHOLDS {
        return None;
    }
    let (mut totals, mut met) = ([0; LINES as usize], 0_u64);
    for &[first, second, line, a, b, c, d] in households {
        let total = totals.get_mut(usize::from(line)).filter(|_| [first, second] == MARK)?;
        *total += u64::from(u32::from_be_bytes([a, b, c, d]));
        met |= 1 << line;
    }
    Some(std::array::from_fn(|line| (met >> line & 1 == 1).then_some(totals[line])))
}

/// The bytes of a household.
pub fn household(line: u8, weight: u32) -> [u8; HOUSEHOLD_SIZE] {
    let [a, b, c, d] = weight.to_be_bytes();
    [MARK[0], MARK[1], line, a, b, c, d]
}
