//! Sound records that have offices, weights and paths in common, and drop different parts of them.

use super::{any_entry, any_kept, any_move, fair_beginning, issued_by, Sample};
use crate::generate::weights;
use crate::random::Random;
use crate::record::{part, tail_limit, Ballot, Kept, Record, LENGTH, LOG, OFFICES, TAIL};

/// What related samples have in common: offices, weights, and one path that they all stray from.
pub struct Family {
    n: usize,
    weights: [u16; OFFICES],
    /// Few entries, so that different paths meet often.
    entries: Vec<u32>,
    /// The path, behind entries that all have dropped.
    path: Vec<u32>,
    /// What is kept of the entries before the path.
    before: Kept,
    /// Where the settled logs end, more or less.
    around: usize,
    /// Whether offices have dropped entries of the path.
    folded: bool,
}

/// How many entries all offices have dropped: none, few, very many, or so many that lengths end at their limit.
fn any_before(random: &mut Random, around: usize) -> u64 {
    match random.below(20) {
        0..=15 => 0,
        16 => random.pick(&[1, 2, 1000, 1 << 16, 1 << 32]),
        17 => random.bits() >> random.within(2, 60),
        _ => LENGTH - around as u64 - random.below(2 * TAIL) as u64,
    }
}

impl Family {
    /// A family with a settled log of few entries, or now and then of almost as many as can be.
    pub fn new(random: &mut Random) -> Family {
        let n = random.pick(&[1, 2, 2, 3, 3, 3, 4, 4, 5, 6, 7, 8]);
        let mut all = [0; OFFICES];
        for (place, weight) in all.iter_mut().zip(weights(random, n)) {
            *place = weight as u16;
        }
        let moves = random.pick(&[0, 0, 30, 60]);
        let any = |random: &mut Random| if random.percent(moves) { any_move(random, n) } else { any_entry(random, n) };
        let mut entries: Vec<u32> = (0..random.within(2, 4)).map(|_| any(random)).collect();
        let run = if random.percent(40) { random.pick(&[1, part(n)]) } else { 0 };
        if run > 0 {
            entries.extend((0..n).map(|office| issued_by(office, any(random))));
        }
        let folded = random.percent(40);
        let most = if folded { LOG + TAIL } else { LOG - 2 };
        let around = if random.percent(85) { random.below(6) } else { random.within(LOG - TAIL - 8, most) };
        let mut path = vec![entries[0]; LOG + 3 * TAIL];
        for (at, word) in path.iter_mut().enumerate() {
            if at + 40 > around || random.percent(2) {
                *word = random.pick(&entries);
            }
            // Runs of each office's entries in turn: full parts.
            if let Some(turn) = at.checked_div(run) {
                *word = issued_by(turn % n, *word);
            }
        }
        let dropped = any_before(random, around);
        let before = any_kept(random, n, all, dropped);
        Family { n, weights: all, entries, path, before, around, folded }
    }

    /// The same paths with another weight, or with one more office that has none.
    pub fn other(&self, random: &mut Random) -> Family {
        let (mut n, mut weights) = (self.n, self.weights);
        if n < OFFICES && random.percent(50) {
            n += 1;
        } else {
            let office = random.below(n);
            weights[office] = if weights[office] == 7 { 8 } else { 7 };
        }
        let before = any_kept(random, n, weights, self.before.dropped);
        Family { n, weights, before, entries: self.entries.clone(), path: self.path.clone(), ..*self }
    }

    /// An office of the family.
    pub fn office(&self, random: &mut Random) -> usize {
        random.below(self.n)
    }

    /// A sound record of the office, with its log.
    pub fn sample(&self, random: &mut Random, own: usize) -> Sample {
        let near = self.around + random.below(5);
        let most = (LENGTH - self.before.dropped).min(self.path.len() as u64 - TAIL as u64) as usize;
        let settled = near.saturating_sub(2).min(most).min(if self.folded { most } else { LOG });
        let gone = self.dropped(random, settled);
        let mut path = self.path.clone();
        if settled > 0 && random.percent(4) {
            path[random.below(settled)] = random.pick(&self.entries);
        }
        let mut log = self.blank_log(random);
        log[..settled - gone].copy_from_slice(&path[gone..settled]);
        let length = self.before.dropped + settled as u64;
        let mut record = Record { n: self.n, own, weights: self.weights, settled: length, ..Record::ZERO };
        record.kept = kept_after(self.before, &path[..gone]);
        let limit = tail_limit(length, record.kept.dropped).unwrap_or(0);
        for office in 0..self.n {
            record.ballots[office] = self.ballot(random, settled, limit);
            record.noted[office] = if office == own { 0 } else { any_noted(random, &record) };
        }
        let mut sample = Sample { record, log };
        sample.derive();
        sample
    }

    /// How many entries of the path the office has dropped, of so many that are settled.
    fn dropped(&self, random: &mut Random, settled: usize) -> usize {
        if !self.folded {
            return 0;
        }
        let any = random.below(settled + 1);
        random.pick(&[0, any, any, settled / 2, settled.saturating_sub(1), settled]).max(settled.saturating_sub(LOG))
    }

    /// A log of 1024 words or some more, none of which is settled.
    fn blank_log(&self, random: &mut Random) -> Vec<u32> {
        let length = if random.percent(70) { LOG } else { random.within(LOG, LOG + 76) };
        let filler = random.pick(&[0, u32::MAX, 0xDEAD_BEEF, self.entries[0], 64 << 16]);
        vec![filler; length]
    }

    /// A ballot of at most so many entries behind so many of the path: none, or the family's path, or one that strays
    /// from it.
    fn ballot(&self, random: &mut Random, settled: usize, most: usize) -> Ballot {
        let length = match random.below(20) {
            0..=4 => 0,
            5..=9 if most < TAIL => most,
            5..=16 => random.within(1, 5),
            17 | 18 => random.below(TAIL + 1),
            _ => most,
        };
        let length = length.min(most);
        let mut ballot = Ballot { len: length, ..Ballot::NONE };
        ballot.cells[..length].copy_from_slice(&self.path[settled..settled + length]);
        if length > 0 && random.percent(35) {
            ballot.cells[random.below(length)] = random.pick(&self.entries);
        }
        Ballot::of(fair_beginning(ballot.tail(), self.n))
    }
}

/// What is kept once these entries are dropped too.
fn kept_after(before: Kept, entries: &[u32]) -> Kept {
    let record = Record { kept: before, settled: before.dropped + entries.len() as u64, ..Record::ZERO };
    Sample { record, log: entries.to_vec() }.without(entries.len()).record.kept
}

/// A length that may be noted of another office: none, the own one, or around the dropped part.
fn any_noted(random: &mut Random, record: &Record) -> u64 {
    let (dropped, settled) = (record.kept.dropped, record.settled);
    let inside = dropped + random.below(record.held() + 1) as u64;
    random.pick(&[0, dropped, inside, inside, settled, settled.saturating_sub(1), dropped / 2])
}
