//! Records made unsound, one clause at a time.

use super::{any_kept, crowded, Sample};
use crate::random::Random;
use crate::record::{entry, Ballot, Record, CODES, LENGTH, LINES, LOG, OFFICES, TAIL};

/// Breaks one clause of soundness, or now and then none, of any record.
pub fn break_one(random: &mut Random, sample: &mut Sample) {
    let Sample { record, log } = sample;
    let huge = random.pick(&[33, 255, 256, 1025, 65536, 1 << 32, usize::MAX - 1, usize::MAX]);
    let n = record.n.min(OFFICES);
    let (office, past) = (random.below(n), random.within(n.min(OFFICES - 1), OFFICES - 1));
    let wrong = random.pick(&[(n as u32) << 24, 64 << 16, (64 + n as u32) << 16 | 1, 10_000, u32::MAX, 0x00FF_0000]);
    match random.below(24) {
        0 => record.n = random.pick(&[0, 9, n.saturating_sub(1), huge]),
        1 => record.own = random.pick(&[record.n, huge]),
        2 => {
            let weight = random.pick(&[1, 256, 65535]);
            (record.weights[past], record.kept.present[past], record.present[past]) = (weight, weight, weight);
        }
        3 => (record.weights, record.kept.present, record.present) = Default::default(),
        4 | 5 => break_length(random, sample),
        6 if record.held() > 0 => {
            let at = random.below(record.held());
            log.iter_mut().skip(at).take(1).for_each(|word| *word = wrong);
            sample.derive();
        }
        6 | 7 => log.truncate(random.pick(&[0, 1, LOG - 1])),
        8 => break_ballot(random, &mut record.ballots[past], wrong, 0),
        9 | 10 => break_present(random, sample, office, past),
        11 | 12 => break_codes(random, record),
        13 if n > 1 => record.ballots[office] = Ballot::of(&crowded(random, n)),
        14 => break_noted(random, record, office, past),
        15..=17 => break_kept(random, sample, office, past),
        18 => break_nothing_kept(random, sample, office),
        _ => break_ballot(random, &mut record.ballots[office], wrong, huge),
    }
}

/// Breaks a length: more dropped than settled, more held than there is room for, more settled than there may be.
fn break_length(random: &mut Random, sample: &mut Sample) {
    let Sample { record, log } = sample;
    let n = record.n.clamp(1, OFFICES);
    let (dropped, more) = (record.kept.dropped, random.pick(&[1, 2, 32, 1 << 32]));
    let drop_to = |random: &mut Random, record: &mut Record, dropped: u64| {
        record.kept = any_kept(random, n, record.weights, dropped);
    };
    match random.below(5) {
        0 => record.settled = dropped.saturating_add(LOG.max(log.len()) as u64 + more),
        1 => record.settled = random.pick(&[u64::MAX, LENGTH, LENGTH + 1, dropped.wrapping_sub(1)]),
        2 => drop_to(random, record, record.settled.saturating_add(more)),
        3 => {
            record.settled = LENGTH + more;
            let held = random.below(LOG) as u64;
            drop_to(random, record, LENGTH + more - held);
        }
        _ => {
            let (held, longest) = (record.held() as u64, record.ballots.iter().map(|b| b.len).max().unwrap_or(0));
            record.settled = (LENGTH + 1).saturating_sub(longest as u64);
            drop_to(random, record, record.settled.saturating_sub(held));
        }
    }
    sample.derive();
}

/// Breaks a noted length: above the own one, or of the own office, or from place n on.
fn break_noted(random: &mut Random, record: &mut Record, office: usize, past: usize) {
    let above = record.settled.saturating_add(random.pick(&[1, 1, 2, 1 << 32]));
    match random.below(4) {
        0 => record.noted[record.own.min(OFFICES - 1)] = random.pick(&[1, record.settled, above]),
        1 => record.noted[past] = random.pick(&[1, record.settled, u64::MAX]),
        _ => record.noted[office] = random.pick(&[above, above, u64::MAX]),
    }
}

/// Breaks what is kept: a count, the sum of the counts, a weight, their total, or a code.
fn break_kept(random: &mut Random, sample: &mut Sample, office: usize, past: usize) {
    let kept = &mut sample.record.kept;
    let other = (office + 1) % sample.record.n.clamp(1, OFFICES);
    let line = random.pick(&[0, 1, 5, 62, 63]);
    match random.below(8) {
        0 => kept.counts[office] = kept.counts[office].wrapping_add(random.pick(&[1, 1 << 32, u64::MAX])),
        1 => kept.dropped = kept.dropped.wrapping_add(random.pick(&[1, u64::MAX])),
        2 => {
            // The sum is right but for an overflow.
            kept.counts[office] = kept.counts[office].wrapping_add(1 << 63);
            kept.counts[other] = kept.counts[other].wrapping_add(1 << 63);
        }
        3 => {
            let count = kept.counts[office].min(random.pick(&[1, u64::MAX]));
            kept.counts[office] -= count;
            kept.counts[past] = kept.counts[past].wrapping_add(count.max(1));
        }
        4 => kept.present[office] = kept.present[office].wrapping_add(random.pick(&[1, 256, u16::MAX])),
        5 => {
            let weight = kept.present[office];
            kept.present[office] = 0;
            kept.present[past] = kept.present[past].wrapping_add(weight.max(1));
        }
        _ => kept.codes[line] = random.pick(&[CODES + 1, CODES + 2, 65_536, u32::MAX]),
    }
    sample.derive();
}

/// With nothing dropped, keeps weights or a code all the same; else keeps others, which is sound.
fn break_nothing_kept(random: &mut Random, sample: &mut Sample, office: usize) {
    let kept = &mut sample.record.kept;
    let other = (office + 1) % sample.record.n.clamp(1, OFFICES);
    match random.below(3) {
        0 => kept.codes[random.pick(&[0, 5, 63])] = random.pick(&[1, 121, CODES]),
        1 => kept.present.swap(office, other),
        _ if kept.present[office] > 0 && kept.present[other] < u16::MAX => {
            kept.present[office] -= 1;
            kept.present[other] += 1;
        }
        _ => kept.codes[1] = 1,
    }
    sample.derive();
}

/// Breaks the present weights, the total kept or not, or has a word of the log move weight that they don't show.
fn break_present(random: &mut Random, Sample { record, log }: &mut Sample, office: usize, past: usize) {
    let to = (office + 1) % record.n.clamp(1, OFFICES);
    match random.below(4) {
        0 => record.present[office] = record.present[office].wrapping_add(random.pick(&[1, 256, u16::MAX])),
        1 => record.present[past] = random.pick(&[1, 256, 65535]),
        2 => record.present.swap(office, to),
        _ => {
            let at = random.below(record.held());
            log.iter_mut().skip(at).take(1).for_each(|word| *word = entry(office, LINES + to as u32, 1));
        }
    }
}

/// Breaks one of the stored codes, or has two stand at each other's lines.
fn break_codes(random: &mut Random, record: &mut Record) {
    let lines = record.codes.len();
    let (line, other) = (random.pick(&[0, 1, 5, 62, 63]), random.below(lines));
    match random.below(4) {
        0 => record.codes[line] = random.pick(&[0, 0, 1, 1, 120, 121, 10_000, u32::MAX]),
        1 | 2 => record.codes[other] = record.codes[other].wrapping_add(random.pick(&[1, 256, 65_536, u32::MAX])),
        _ => record.codes.swap(line, other),
    }
}

/// Breaks a ballot's length, one of its entries, or the zeros after them.
fn break_ballot(random: &mut Random, ballot: &mut Ballot, wrong: u32, huge: usize) {
    let length = ballot.len.min(TAIL);
    match random.below(3) {
        0 => ballot.len = random.pick(&[TAIL + 1, huge.max(TAIL + 1), length + 1]),
        1 if length > 0 => ballot.cells[random.below(length)] = wrong,
        _ if length < TAIL => ballot.cells[random.within(length, TAIL - 1)] = random.pick(&[1, wrong]),
        _ => ballot.len = TAIL + 1,
    }
}
