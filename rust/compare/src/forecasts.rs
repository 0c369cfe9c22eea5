//! Forecasts for random bounds: number, whether an entry is named, and which, compared.

use second::forecast::forecast;
use second::random::Random;
use second::record::{Record, OFFICES};
use second::samples::any_bounds;

use crate::alike::same;
use crate::engine;

/// Bounds near the record's weights, at times with one of them anywhere, or the lowest and the highest exchanged.
fn bounds(random: &mut Random, record: &Record) -> ([u16; OFFICES], [u16; OFFICES]) {
    let (mut lowest, mut highest) = any_bounds(random, &Record { n: record.n.clamp(1, OFFICES), ..*record });
    let at = random.below(OFFICES);
    match random.below(16) {
        0 => lowest[at] = random.bits() as u16,
        1 => highest[at] = random.bits() as u16,
        2 => (lowest[at], highest[at]) = (0, u16::MAX),
        3 => std::mem::swap(&mut lowest, &mut highest),
        _ => {}
    }
    (lowest, highest)
}

/// Compares the forecasts for random bounds; answers the number and whether an entry is named.
pub fn any(random: &mut Random, record: &Record, log: &[u32]) -> Result<(u32, bool), String> {
    let (lowest, highest) = bounds(random, record);
    let (number, entry) = forecast(record, log, lowest, highest);
    let answer = (number, entry.is_some(), entry.unwrap_or(0));
    let engine = engine::forecast(record, log, lowest, highest);
    same(&format!("forecast from {lowest:?} to {highest:?}"), engine, answer)?;
    Ok((number, entry.is_some()))
}
