//! Weights known within bounds: the entry that would win the first step whichever weights are chosen.

use crate::elect::Tally;
use crate::record::*;

/// The entry that wins the first step under every choice of weights from the lowest to the highest of each office; nothing
/// if none does. Bounds from place n on aren't looked at.
pub fn forecast(record: &Record, log: &[u32], lowest: [u16; OFFICES], highest: [u16; OFFICES]) -> (u32, Option<u32>) {
    if !sound(record, log) {
        return (UNSOUND, None);
    }
    if lowest.iter().zip(&highest).take(record.n).any(|(low, high)| low > high) {
        return (NO_BOUNDS, None);
    }
    let settled = &log[..record.held()];
    let first = record.ballots.map(|ballot| ballot.tail().first().copied());
    let always = |&e: &u32| {
        // The worst choice for e: its supporters have their lowest weight, all others their highest.
        let weights =
            std::array::from_fn(|office| if first[office] == Some(e) { lowest[office] } else { highest[office] });
        Tally::by(&weights, record, settled).winner() == Some(e)
    };
    (DONE, first.into_iter().flatten().find(always))
}
