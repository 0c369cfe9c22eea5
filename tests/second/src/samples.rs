//! Random records with their logs, related to each other so that calls on them have something to do.

use crate::fold::drop_first;
use crate::message::{length, write};
use crate::random::Random;
use crate::record::{
    codes_after, entry, is_entry, move_weight, office_of, part, set_code, sound, Ballot, Kept, Record, LINES, LOG,
    OFFICES, TAIL,
};

mod breaks;
mod family;
mod inputs;

pub use breaks::break_one;
pub use family::Family;
pub use inputs::{any_bounds, any_households, any_vector, damaged_households};

/// A record and its log.
#[derive(Clone, Debug, PartialEq, Eq)]
pub struct Sample {
    /// The record.
    pub record: Record,
    /// The log, words past the settled ones included.
    pub log: Vec<u32>,
}

/// What the words past the settled log are, where nothing else is said: no entry.
pub const FILLER: u32 = 0xDEAD_BEEF;

impl Sample {
    /// The record of an office with these weights, settled log and ballots, and a log of 1024 words. Nothing is dropped,
    /// and no other office was heard of.
    pub fn new(own: usize, weights: &[u16], settled: &[u32], ballots: &[(usize, &[u32])]) -> Sample {
        let mut record = Record { n: weights.len(), own, settled: settled.len() as u64, ..Record::ZERO };
        record.weights.iter_mut().zip(weights).for_each(|(place, &weight)| *place = weight);
        record.kept = Kept::nothing(record.weights);
        for &(office, tail) in ballots {
            record.ballots[office] = Ballot::of(tail);
        }
        let mut log = settled.to_vec();
        log.resize(LOG.max(settled.len()), FILLER);
        let mut sample = Sample { record, log };
        sample.derive();
        sample
    }

    /// The same office behind entries that are dropped, of which this was kept.
    pub fn behind(mut self, kept: Kept) -> Sample {
        self.record.settled += kept.dropped;
        self.record.kept = kept;
        self.derive();
        self
    }

    /// The same office with its first entries dropped, so many of those that it still has.
    pub fn without(mut self, count: usize) -> Sample {
        drop_first(&mut self.record, &mut self.log, count);
        self
    }

    /// The same office with these lengths noted.
    pub fn noting(mut self, lengths: &[(usize, u64)]) -> Sample {
        lengths.iter().for_each(|&(office, length)| self.record.noted[office] = length);
        self
    }

    /// Makes the present weights and the codes those that follow from what is kept and from the settled words, as far as
    /// these are entries.
    pub fn derive(&mut self) {
        let Sample { record, log } = self;
        (record.present, record.codes) = (record.kept.present, record.kept.codes);
        for &word in log.iter().take(record.held()) {
            set_code(&mut record.codes, word);
            if is_entry(word, OFFICES) {
                move_weight(&mut record.present, word);
            }
        }
    }

    /// The message that a sound record sends; of no bytes for one that isn't sound.
    pub fn message(&self) -> Vec<u8> {
        if !sound(&self.record, &self.log) {
            return vec![];
        }
        self.spelled()
    }

    /// The message as it would be spelled, sound or not; of no bytes if a length has no room.
    pub fn spelled(&self) -> Vec<u8> {
        let Sample { record, log } = self;
        let room = record.n <= OFFICES && record.held() <= log.len() && record.ballots.iter().all(|b| b.len <= TAIL);
        if !room {
            return vec![];
        }
        let mut output = vec![0; length(record)];
        write(record, &log[..record.held()], &mut output);
        output
    }
}

/// What could be kept of so many dropped entries of n offices with these weights: shares of the count, weights moved
/// about, some lines edited; with nothing dropped there is one answer.
pub fn any_kept(random: &mut Random, n: usize, weights: [u16; OFFICES], dropped: u64) -> Kept {
    let mut kept = Kept::nothing(weights);
    if dropped == 0 {
        return kept;
    }
    kept.dropped = dropped;
    let mut rest = dropped;
    for count in &mut kept.counts[1..n] {
        *count = random.pick(&[0, 1, rest / 3, rest / 2, rest]).min(rest);
        rest -= *count;
    }
    kept.counts[0] = rest;
    kept.counts[..n].rotate_right(random.below(n));
    let edited = random.pick(&[0, 2, 60]);
    for _ in 0..random.pick(&[0, 1, 8]) {
        move_weight(&mut kept.present, any_move(random, n));
    }
    let entries: Vec<u32> = (0..edited).map(|_| any_entry(random, n)).collect();
    kept.codes = codes_after(&kept.codes, &entries);
    kept
}

/// This many different entries, n offices in turn: none has more than its part of a tail of them, if each can have as many.
pub fn in_turn(n: usize, from: u32, length: usize) -> Vec<u32> {
    (0..length).map(|at| entry(at % n, at as u32 % LINES, from + at as u32)).collect()
}

/// The entry with another office.
pub fn issued_by(office: usize, word: u32) -> u32 {
    word & 0x00FF_FFFF | (office as u32) << 24
}

/// The longest beginning of the entries in which none of n offices has more than its part.
pub fn fair_beginning(entries: &[u32], n: usize) -> &[u32] {
    let mut counts = [0; OFFICES];
    let length = entries.iter().take_while(|&&word| {
        counts[office_of(word)] += 1;
        counts[office_of(word)] <= part(n)
    });
    &entries[..length.count()]
}

/// A tail in which one of n offices, two or more, has one entry past its part, together or scattered, among some or no
/// entries of the others.
pub fn crowded(random: &mut Random, n: usize) -> Vec<u32> {
    let (busy, part) = (random.below(n), part(n));
    let mut offices = vec![busy; part + 1];
    let others = random.below(TAIL.min(n * part + 1) - part);
    offices.extend((0..n).filter(|&office| office != busy).cycle().take(others));
    if random.percent(50) {
        for at in 0..offices.len() {
            let other = random.below(offices.len());
            offices.swap(at, other);
        }
    }
    let moves = random.pick(&[0, 0, 20, 100]);
    let any = |random: &mut Random| if random.percent(moves) { any_move(random, n) } else { any_entry(random, n) };
    offices.into_iter().map(|office| issued_by(office, any(random))).collect()
}

/// Any entry among n offices.
pub fn any_entry(random: &mut Random, n: usize) -> u32 {
    let line = random.pick(&[0, 1, 5, 62, 63]);
    let code = random.pick(&[0, 1, 120, 255, 256, 9998, 9999]);
    entry(random.below(n), line, code)
}

/// Any move among n offices; most weights are small, and so are most moves.
pub fn any_move(random: &mut Random, n: usize) -> u32 {
    let to = random.below(n) as u32;
    let code = random.pick(&[1, 1, 2, 15, 30, 60, 535, 9998, 9999]);
    entry(random.below(n), LINES + to, code)
}
