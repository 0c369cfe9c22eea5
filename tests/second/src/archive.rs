//! Version vectors for the archive: counts of entries per office, of the settled log and of the offices' paths.

use crate::record::*;

/// Bytes of a count.
pub const COUNT_SIZE: usize = 8;

/// The settled log and the paths of all offices there can be.
pub const PATHS: usize = 1 + OFFICES;

/// How the log or a path stands to a vector, by counts.
#[derive(Clone, Copy, Debug, PartialEq, Eq)]
pub enum Standing {
    /// No count is above the vector's, and one is below.
    Before,
    /// Every count is the vector's.
    Equal,
    /// No count is below the vector's, and one is above.
    After,
    /// One count is below the vector's, and one is above.
    Beside,
}

/// A count of entries for each office.
type Counts = [u64; OFFICES];

/// The counts with those of these entries added.
fn counted(mut counts: Counts, entries: &[u32]) -> Counts {
    entries.iter().for_each(|&word| counts[office_of(word)] += 1);
    counts
}

/// The counts of the settled log of a sound record, and then of each office's path, dropped entries included.
fn all_counts(record: &Record, log: &[u32]) -> impl Iterator<Item = Counts> {
    let settled = counted(record.kept.counts, &log[..record.held()]);
    let (n, ballots) = (record.n, record.ballots);
    std::iter::once(settled).chain((0..n).map(move |office| counted(settled, ballots[office].tail())))
}

/// Writes the vectors of the settled log and of the offices' paths and answers their length; later bytes of the output
/// keep their contents.
pub fn write_vectors(record: &Record, log: &[u32], output: &mut [u8]) -> (u32, usize) {
    if !sound(record, log) {
        return (UNSOUND, 0);
    }
    let length = (1 + record.n) * record.n * COUNT_SIZE;
    let Some(output) = output.get_mut(..length) else {
        return (OUTPUT_SHORT, 0);
    };
    for (vector, counts) in output.chunks_exact_mut(record.n * COUNT_SIZE).zip(all_counts(record, log)) {
        for (place, count) in vector.chunks_exact_mut(COUNT_SIZE).zip(counts) {
            place.copy_from_slice(&count.to_be_bytes());
        }
    }
    (DONE, length)
}

/// How the settled log and then each office's path stand to the vector in the bytes; beside from the last path on.
pub fn compare_vector(record: &Record, log: &[u32], bytes: &[u8]) -> (u32, [Standing; PATHS]) {
    let mut standings = [Standing::Beside; PATHS];
    if !sound(record, log) {
        return (UNSOUND, standings);
    }
    let Some(vector) = read_vector(bytes, record.n) else {
        return (NO_VECTOR, standings);
    };
    for (standing, counts) in standings.iter_mut().zip(all_counts(record, log)) {
        *standing = stands(&counts, &vector);
    }
    (DONE, standings)
}

/// The vector of n counts in the bytes, if they are one.
fn read_vector(bytes: &[u8], n: usize) -> Option<Counts> {
    let (places, rest) = bytes.as_chunks::<COUNT_SIZE>();
    if places.len() != n || !rest.is_empty() {
        return None;
    }
    let mut vector = [0; OFFICES];
    for (count, &place) in vector.iter_mut().zip(places) {
        *count = u64::from_be_bytes(place);
    }
    Some(vector)
}

/// How the counts stand to the vector.
fn stands(counts: &Counts, vector: &Counts) -> Standing {
    let pairs = || counts.iter().zip(vector);
    match (pairs().any(|(count, other)| count < other), pairs().any(|(count, other)| count > other)) {
        (false, false) => Standing::Equal,
        (true, false) => Standing::Before,
        (false, true) => Standing::After,
        (true, true) => Standing::Beside,
    }
}
