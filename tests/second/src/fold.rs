//! Folding: the first entries of the log, which every office is known to have, are dropped, and what they did is kept.

use crate::record::*;

/// The record without the entries that every office is known to have, and how many went. The rest of the log moves to
/// the front of the buffer; words past it keep their contents.
pub fn fold(mut record: Record, log: &mut [u32]) -> (u32, u64, Record) {
    if !sound(&record, log) {
        return (UNSOUND, 0, record);
    }
    let count = known_to_all(&record).saturating_sub(record.kept.dropped);
    drop_first(&mut record, log, count as usize);
    (DONE, count, record)
}

/// How many settled entries every office is known to have: its own length at the least, and what was noted of each other
/// office.
fn known_to_all(record: &Record) -> u64 {
    let others = (0..record.n).filter(|&office| office != record.own);
    others.map(|office| record.noted[office]).fold(record.settled, u64::min)
}

/// Drops the first entries that the log still has, so many of them.
pub(crate) fn drop_first(record: &mut Record, log: &mut [u32], count: usize) {
    let (held, kept) = (record.held(), &mut record.kept);
    let gone = &log[..count];
    kept.dropped += count as u64;
    kept.present = weights_after(kept.present, gone);
    kept.codes = codes_after(&kept.codes, gone);
    gone.iter().for_each(|&word| kept.counts[office_of(word)] += 1);
    log.copy_within(count..held, 0);
}
