//! What calls are handed beside a record: households, version vectors, bounds of weights.

use super::Sample;
use crate::archive::{write_vectors, COUNT_SIZE};
use crate::random::Random;
use crate::record::{Record, OFFICES};
use crate::sheet::{household, HOUSEHOLD_SIZE};

/// The bytes of this many households, of few lines or of all, their weights at the limits now and then.
pub fn any_households(random: &mut Random, count: usize) -> Vec<u8> {
    let lines = random.pick(&[1, 3, 64, 64]);
    let mut bytes = vec![];
    for _ in 0..count {
        let any = random.below(lines) as u8;
        let line = random.pick(&[any, any, any, 0, 5, 63]);
        let weight = match random.below(8) {
            0 => random.pick(&[0, 0, 1, 255, 256, 65_536, u32::MAX]),
            _ => random.bits() as u32,
        };
        bytes.extend(household(line, weight));
    }
    bytes
}

/// The bytes of households with one thing wrong: a byte of a mark, a line above 63, a byte more or less.
pub fn damaged_households(random: &mut Random, mut bytes: Vec<u8>) -> Vec<u8> {
    let at = random.below(bytes.len());
    let start = at - at % HOUSEHOLD_SIZE;
    match random.below(6) {
        _ if bytes.is_empty() => bytes.push(random.pick(&[0, 0x48])),
        0 => bytes[start + random.below(2)] ^= 1 << random.below(8),
        1 => bytes[start..start + 2].reverse(),
        2 => bytes[start + 2] = random.pick(&[64, 65, 128, 255]),
        3 => bytes.truncate(at - usize::from(at > 0 && at == start)),
        4 => bytes.insert(at, random.pick(&[0, 0x48, 0x52])),
        _ => drop(bytes.remove(at)),
    }
    bytes
}

/// The bytes of a vector near those of a sound record: one of them, one with counts changed, or no vector.
pub fn any_vector(random: &mut Random, sample: &Sample) -> Vec<u8> {
    let Sample { record, log } = sample;
    let size = COUNT_SIZE * record.n;
    let mut vectors = vec![0; size * (1 + record.n)];
    write_vectors(record, log, &mut vectors);
    let mut vector = vectors[size * random.below(1 + record.n)..][..size].to_vec();
    for _ in 0..random.pick(&[0, 1, 1, 2]) {
        let place = COUNT_SIZE * random.below(record.n);
        let count = &mut vector[place..place + COUNT_SIZE];
        let number = count.iter().fold(0, |number, &byte| number << 8 | u64::from(byte));
        let other = match random.below(10) {
            0 => random.pick(&[0, 1024, 1025, 1 << 16, 1 << 32, number ^ 1 << 32, 1 << 63, u64::MAX]),
            _ => number.wrapping_add(random.pick(&[0, 1, 2, 3])).saturating_sub(1),
        };
        count.copy_from_slice(&other.to_be_bytes());
    }
    match random.below(12) {
        0 => drop(vector.pop()),
        1 => vector.extend([0; COUNT_SIZE]),
        2 => vector.truncate(size - COUNT_SIZE),
        _ => {}
    }
    vector
}

/// Lowest and highest weights: the same, near each other, around the record's own, far apart, or seldom the wrong way
/// round at a place before n; any numbers from place n on.
pub fn any_bounds(random: &mut Random, record: &Record) -> ([u16; OFFICES], [u16; OFFICES]) {
    let (mut lowest, mut highest) = ([0; OFFICES], [0; OFFICES]);
    let (kind, level) = (random.below(6), random.pick(&[1, 2, 10, 50, 1000]));
    for office in 0..OFFICES {
        let own = record.present[office];
        let near = random.within(1, 3) as u16 * level;
        (lowest[office], highest[office]) = match kind {
            0 => (own, own),
            1 => (own.saturating_sub(near), own.saturating_add(near)),
            2 => (near, near + random.below(2) as u16),
            3 => (near, near * 2),
            4 => random.pick(&[(0, 0), (0, 1), (1, 1), (0, u16::MAX), (u16::MAX, u16::MAX)]),
            _ => (near, near),
        };
        if office >= record.n && random.percent(50) {
            (lowest[office], highest[office]) = (random.bits() as u16, random.bits() as u16);
        }
    }
    if random.percent(6) {
        let office = random.below(record.n);
        lowest[office] = highest[office].saturating_add(1);
    }
    (lowest, highest)
}
