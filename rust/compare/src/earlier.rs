//! Lines as of an earlier place: number, words read, and all 64 places of the answer, compared.

use second::earlier::{earlier, NAMED};
use second::random::Random;
use second::record::{line_of, Record, LINES};

use crate::alike::same;
use crate::engine;
use crate::samples::huge;

/// Most lines that are named past those that can be.
const MORE: usize = 100;

/// A place around the ends of what is settled and not dropped, inside it, or far from it.
fn any_place(random: &mut Random, record: &Record) -> u64 {
    let (dropped, settled) = (record.kept.dropped, record.settled);
    let inside = dropped.wrapping_add(random.below(record.held().saturating_add(1)) as u64);
    let far = huge(random) as u64;
    match random.below(14) {
        0 => random.pick(&[0, 1]),
        1 => settled.saturating_add(1),
        2 => random.pick(&[far, settled ^ 1 << 32, settled ^ 1 << 63]),
        3 => settled.saturating_sub(1),
        4 => random.pick(&[dropped, dropped.saturating_sub(1), dropped.saturating_add(1)]),
        5..=9 => settled,
        _ => inside,
    }
}

/// Lines, most of them with an entry among these: none, few, as many as can be or more, seldom one outside the frame.
fn any_lines(random: &mut Random, log: &[u32]) -> Vec<u32> {
    let count = match random.below(12) {
        0 => 0,
        1 => NAMED - 1,
        2 => NAMED,
        3 => NAMED + 1,
        4 => random.below(NAMED + MORE + 1),
        5 => random.below(NAMED + 1),
        _ => random.within(1, 5),
    };
    let others = random.pick(&[0, 0, 10, 100]);
    let mut lines: Vec<u32> = (0..count)
        .map(|_| match log.get(random.below(log.len())) {
            Some(&word) if !random.percent(others) && line_of(word) < LINES => line_of(word),
            _ => random.below(LINES as usize) as u32,
        })
        .collect();
    if count > 0 && random.percent(8) {
        let any = random.bits() as u32;
        let any_at = random.below(count);
        let at = random.pick(&[0, count - 1, any_at]);
        lines[at] = random.pick(&[LINES, LINES, 71, 72, 255, 256, 320, 1 << 16, u32::MAX, any]);
    }
    lines
}

/// Compares random lines as of a random place; answers the number and whether some entries before it were not read.
pub fn any(random: &mut Random, record: &Record, log: &[u32]) -> Result<(u32, bool), String> {
    let p = any_place(random, record);
    let settled = &log[..record.held().min(log.len())];
    let lines = any_lines(random, settled);
    let answer = earlier(record, log, p, &lines);
    same(&format!("lines {lines:?} as of {p}"), engine::frame_at(record, log, p, &lines), answer)?;
    Ok((answer.0, answer.0 == 0 && answer.1 > 0 && (answer.1 as u64) < p - record.kept.dropped))
}
