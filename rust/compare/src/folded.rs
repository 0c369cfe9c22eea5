//! The clauses of soundness that dropped entries and noted lengths bring, broken one at a time.

use second::random::Random;
use second::record::{entry, Ballot, Kept, Record, CODES, LENGTH, LOG, OFFICES};
use second::samples::{any_kept, Sample};

/// These clauses.
pub const FOLDED: [&str; 14] = [
    "kept counts that do not add up",
    "kept counts that add up past 2^64 alone",
    "a kept count from place n on",
    "a kept weight, and so the total",
    "a kept weight from place n on, the total kept",
    "kept weights with nothing dropped",
    "a kept code above its limit",
    "a kept code with nothing dropped",
    "more dropped than settled",
    "settled length above 2^63",
    "settled length and tail above 2^63",
    "a noted length above the own",
    "a noted length of the own office",
    "a noted length from place n on",
];

/// Breaks one of the clauses; where it cannot be broken so, one near it.
pub fn break_folded(random: &mut Random, clause: usize, sample: &mut Sample) {
    let record = &mut sample.record;
    let n = record.n.clamp(1, OFFICES);
    let office = random.below(n);
    match clause {
        0..=2 => break_counts(random, clause, &mut record.kept, n, office),
        3..=7 => break_effect(random, clause, record, n, office),
        8 => drop_too_many(random, record, n),
        9 | 10 => pass_the_limit(random, clause, record, n, office),
        _ => return break_noted(random, clause, record, n),
    }
    sample.derive(); // so that no other clause is broken
}

fn break_counts(random: &mut Random, clause: usize, kept: &mut Kept, n: usize, office: usize) {
    let other = (office + 1) % n;
    match clause {
        1 if n > 1 && kept.counts.iter().all(|&count| count < 1 << 63) => {
            kept.counts[office] = kept.counts[office].wrapping_add(1 << 63);
            kept.counts[other] = kept.counts[other].wrapping_add(1 << 63);
        }
        2 if n < OFFICES => {
            let count = kept.counts[office].min(random.pick(&[1, u64::MAX]));
            kept.counts[office] -= count;
            kept.counts[random.within(n, OFFICES - 1)] = count.max(1);
        }
        _ => kept.counts[office] = kept.counts[office].wrapping_add(random.pick(&[1, 1 << 32, 1 << 63, u64::MAX])),
    }
}

/// Breaks the kept weights or codes.
fn break_effect(random: &mut Random, clause: usize, record: &mut Record, n: usize, office: usize) {
    let (kept, other) = (&mut record.kept, (office + 1) % n);
    let moved = kept.present[office].min(u16::MAX - kept.present[other]).min(random.pick(&[1, u16::MAX]));
    let line = random.pick(&[0, 1, 5, 62, 63]);
    match clause {
        4 if n < OFFICES && kept.present[office] > 0 => {
            let past = random.within(n, OFFICES - 1);
            (kept.present[office], kept.present[past]) = (0, kept.present[office]);
        }
        5 if kept.dropped == 0 && n > 1 && moved > 0 => {
            kept.present[office] -= moved;
            kept.present[other] += moved;
        }
        7 if kept.dropped == 0 => kept.codes[line] = random.pick(&[1, 2, 121, CODES]),
        6 | 7 => kept.codes[line] = random.pick(&[CODES + 1, CODES + 2, 65_536, 1 << 31, u32::MAX]),
        _ => kept.present[office] = kept.present[office].wrapping_add(random.pick(&[1, 256, u16::MAX])),
    }
}

/// Drops more than is settled, or settles fewer than are dropped.
fn drop_too_many(random: &mut Random, record: &mut Record, n: usize) {
    let more = random.pick(&[1, 1, 2, LOG as u64, 1 << 40]);
    if record.kept.dropped >= more && random.percent(50) {
        record.settled = record.kept.dropped - more;
        record.noted = record.noted.map(|noted| noted.min(record.settled));
    } else {
        record.kept = any_kept(random, n, record.weights, record.settled.saturating_add(more));
    }
}

/// Makes the settled length, or it and a tail, one or more above 2^63; as many entries stay undropped.
fn pass_the_limit(random: &mut Random, clause: usize, record: &mut Record, n: usize, office: usize) {
    let held = record.held().min(LOG) as u64;
    if clause == 10 && record.ballots.iter().all(|ballot| ballot.len == 0) {
        record.ballots[office] = Ballot::of(&[entry(0, 0, 0)]);
    }
    let longest = record.ballots.iter().map(|ballot| ballot.len.min(LOG) as u64).max().unwrap_or(0);
    let (tail, more) = if clause == 10 { (longest, 1) } else { (0, random.pick(&[1, 2, 1 << 62])) };
    record.settled = LENGTH + more - tail;
    record.kept = any_kept(random, n, record.weights, record.settled - held);
}

fn break_noted(random: &mut Random, clause: usize, record: &mut Record, n: usize) {
    let own = record.own.min(OFFICES - 1);
    let others: Vec<usize> = (0..n).filter(|&office| office != own).collect();
    match clause {
        11 if !others.is_empty() => {
            let above = record.settled.saturating_add(random.pick(&[1, 1, 2, 1 << 32]));
            record.noted[random.pick(&others)] = random.pick(&[above, above, u64::MAX]);
        }
        13 if n < OFFICES => record.noted[random.within(n, OFFICES - 1)] = random.pick(&[1, record.settled.max(1)]),
        _ => record.noted[own] = random.pick(&[1, record.settled.max(1), u64::MAX]),
    }
}
