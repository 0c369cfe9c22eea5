//! Random records with their logs: sound ones that are related to each other, and records of any numbers at all.

use second::random::Random;
use second::record::{entry, part, Ballot, Kept, Record, CODES, LENGTH, LINES, LOG, OFFICES, TAIL};
use second::samples::{any_kept, fair_beginning, issued_by, Sample};

/// What related samples have in common: offices, weights, few entries, and one path that they all stray from.
pub struct Family {
    n: usize,
    weights: [u16; OFFICES],
    entries: Vec<u32>,
    /// The path, behind entries that all have dropped.
    path: Vec<u32>,
    /// What is kept of the entries before the path.
    before: Kept,
    /// Where the settled logs end on the path, more or less.
    around: usize,
    /// How many of its settled entries an office drops at the most, in hundredths.
    folded: usize,
}

/// Any edit among n offices, at the limits more often than not.
fn any_edit(random: &mut Random, n: usize) -> u32 {
    let any = random.below(LINES as usize) as u32;
    let line = random.pick(&[0, 1, 5, 5, 62, 63, any]);
    let code = random.pick(&[0, 1, 120, 255, 256, 9998, 9999]);
    entry(random.below(n), line, code)
}

/// Any move among n offices, to itself too, and of little more often than not.
fn any_move(random: &mut Random, n: usize) -> u32 {
    let to = random.within(0, n + 1).min(n - 1);
    let weight = random.pick(&[1, 1, 1, 2, 5, 15, 25, 50, 256, 9998, 9999]);
    entry(random.below(n), LINES + to as u32, weight)
}

/// Any entry among n offices.
pub fn any_entry(random: &mut Random, n: usize) -> u32 {
    if random.percent(30) {
        any_move(random, n)
    } else {
        any_edit(random, n)
    }
}

/// The ways in which a word is no entry.
const WRONG_WORDS: usize = 5;

/// A word that is no entry among n offices: its office, its line, its code, the office that a move goes to or the
/// weight that it moves is outside the limits.
pub fn wrong_word(random: &mut Random, n: usize, way: usize) -> u32 {
    let past = LINES + n as u32;
    match way {
        0 => any_entry(random, n) & 0x00FF_FFFF | random.pick(&[n as u32, 8, 9, 255]) << 24,
        1 => any_entry(random, n) & 0xFF00_FFFF | random.pick(&[72, 127, 128, 255]) << 16,
        2 => any_entry(random, n) & 0xFFFF_0000 | random.pick(&[CODES, CODES + 1, 16384, 65535]),
        3 => any_move(random, n) & 0xFF00_FFFF | random.pick(&[past, past, 72]) << 16,
        _ => any_move(random, n) & 0xFFFF_0000,
    }
}

/// A word that is no entry among n offices, for any reason.
pub fn no_entry(random: &mut Random, n: usize) -> u32 {
    match random.below(WRONG_WORDS + 1) {
        WRONG_WORDS => u32::MAX,
        way => wrong_word(random, n, way),
    }
}

/// A number far outside every limit, or just outside one of them.
pub fn huge(random: &mut Random) -> usize {
    random.pick(&[9, 33, 64, 255, 256, 1025, 65535, 65536, 1 << 31, 1 << 32, 1 << 63, usize::MAX - 31, usize::MAX])
}

/// Weights of n offices, at least one of them not zero.
fn weights(random: &mut Random, n: usize) -> [u16; OFFICES] {
    let kind = random.below(7);
    let mut weights = [0; OFFICES];
    for (office, weight) in weights[..n].iter_mut().enumerate() {
        *weight = match kind {
            0 => 1,
            1 => random.below(4) as u16,
            2 => random.bits() as u16,
            3 => u16::MAX,
            4 => random.pick(&[50, 50, 0, 25]),
            5 => random.pick(&[65535, 65534, 55537, 55536, 9999, 9998, 1]), // a move passes the limits or just does not
            _ => [40, 35, 25, 20, 15, 10, 5, 0][office],
        };
    }
    if weights == [0; OFFICES] {
        weights[random.below(n)] = 1;
    }
    weights
}

impl Family {
    pub fn new(random: &mut Random) -> Family {
        let n = if random.percent(40) { 3 } else { random.within(1, OFFICES) };
        let moves = random.pick(&[0, 0, 30, 60, 100]);
        let any = |random: &mut Random| if random.percent(moves) { any_move(random, n) } else { any_edit(random, n) };
        let entries: Vec<u32> = (0..random.within(2, 5)).map(|_| any(random)).collect();
        let around = match random.below(10) {
            0..=5 => random.below(8),
            6 => LOG - TAIL,
            7 => random.within(LOG - TAIL - 8, LOG),
            8 => LOG,
            _ => random.below(LOG + 1),
        };
        let folded = random.pick(&[0, 0, 0, 30, 100, 100]);
        let around = if folded > 0 && random.percent(20) { LOG + random.below(TAIL) } else { around };
        let mut path: Vec<u32> = (0..LOG + 3 * TAIL).map(|_| random.pick(&entries)).collect();
        // Runs of each office's entries in turn, so that tails are long and parts full.
        let run = random.pick(&[0, 0, 1, part(n)]);
        if run > 0 {
            path.iter_mut().enumerate().for_each(|(at, word)| *word = issued_by(at / run % n, *word));
        }
        let weights = weights(random, n);
        let dropped = any_dropped(random, around);
        Family { n, weights, entries, path, before: any_kept(random, n, weights, dropped), around, folded }
    }

    /// The same offices with one weight changed, or one office more or fewer.
    pub fn other_offices(&self, random: &mut Random) -> Family {
        let mut other = Family { entries: self.entries.clone(), path: self.path.clone(), ..*self };
        if random.percent(60) {
            let office = random.below(self.n);
            other.weights[office] ^= 1 << random.below(16);
        } else if other.n < OFFICES {
            other.n += 1;
        }
        if other.weights == [0; OFFICES] {
            other.weights[0] = 1;
        }
        other.before = any_kept(random, other.n, other.weights, self.before.dropped);
        other
    }

    /// An office of the family.
    pub fn office(&self, random: &mut Random) -> usize {
        random.below(self.n)
    }

    /// A sound record of the office, with its log.
    pub fn sample(&self, random: &mut Random, own: usize) -> Sample {
        let most = if self.folded > 0 { self.path.len() - TAIL } else { LOG };
        let most = (LENGTH - self.before.dropped).min(most as u64) as usize;
        let settled = (self.around + random.below(5)).saturating_sub(2).min(most);
        let gone = self.dropped(random, settled);
        let mut path = self.path.clone();
        if settled > 0 && random.percent(6) {
            let at = if random.percent(50) { settled - 1 } else { random.below(settled) };
            path[at] = random.pick(&self.entries);
        }
        let length = self.before.dropped + settled as u64;
        let mut record = Record { n: self.n, own, weights: self.weights, settled: length, ..Record::ZERO };
        record.kept = self.before;
        // Dropped first, so that the log is one whose words past the held ones mean nothing.
        record.kept = Sample { record, log: path.clone() }.without(gone).record.kept;
        let mut log = self.lent_log(random);
        log[..settled - gone].copy_from_slice(&path[gone..settled]);
        let room = (LOG - (settled - gone)).min((LENGTH - length).min(TAIL as u64) as usize);
        for office in 0..self.n {
            record.ballots[office] = self.ballot(random, settled, room.min(TAIL));
            record.noted[office] = if office == own { 0 } else { any_noted(random, &record) };
        }
        let mut sample = Sample { record, log };
        sample.derive();
        sample
    }

    /// How many entries of the path an office drops, of so many that are settled.
    fn dropped(&self, random: &mut Random, settled: usize) -> usize {
        let most = settled * self.folded / 100;
        let any = random.below(most + 1);
        random.pick(&[0, any, any, most, most.saturating_sub(1)]).max(settled.saturating_sub(LOG))
    }

    /// A log of 1,024 words or more, none of them settled.
    fn lent_log(&self, random: &mut Random) -> Vec<u32> {
        let length = if random.percent(70) { LOG } else { random.within(LOG + 1, LOG + 80) };
        let filler = random.pick(&[0, u32::MAX, 0xDEAD_BEEF, self.entries[0], LINES << 16, LINES << 16 | 1]);
        vec![filler; length]
    }

    /// A ballot of at most so many entries behind this many of the path: none, the path, or one that strays from it.
    fn ballot(&self, random: &mut Random, settled: usize, most: usize) -> Ballot {
        let length = match random.below(20) {
            0..=5 => 0,
            6..=10 if most < TAIL => most,
            6..=15 => random.within(1, 5),
            16 | 17 => random.below(TAIL + 1),
            18 => TAIL - 1,
            _ => TAIL,
        };
        let length = length.min(most);
        let mut ballot = Ballot { len: length, ..Ballot::NONE };
        let tail = &mut ballot.cells[..length];
        tail.copy_from_slice(&self.path[settled..settled + length]);
        if length == 0 {
            return ballot;
        }
        match random.below(10) {
            0 | 1 => tail[random.below(length)] = random.pick(&self.entries),
            2 => tail.swap(0, random.below(length)),
            3 => tail.rotate_left(1),
            _ => {}
        }
        Ballot::of(fair_beginning(ballot.tail(), self.n))
    }
}

/// How many entries a family has dropped before its path: mostly none; few; very many; or so many that lengths end at
/// 2^63.
fn any_dropped(random: &mut Random, around: usize) -> u64 {
    match random.below(24) {
        0 => random.pick(&[1, 2, 1 << 16, 1 << 32]),
        1 => random.bits() >> random.within(2, 60),
        2 | 3 => LENGTH - around as u64 - random.below(TAIL + 4) as u64,
        _ => 0,
    }
}

/// A length that may be noted of another office: none, the own one, or one around the dropped part.
fn any_noted(random: &mut Random, record: &Record) -> u64 {
    let (dropped, settled) = (record.kept.dropped, record.settled);
    let inside = dropped + random.below(record.held() + 1) as u64;
    random.pick(&[0, inside, inside, settled, settled, dropped, dropped / 2, settled.saturating_sub(1)])
}

/// A record of any numbers, with a log of any words.
pub fn any_sample(random: &mut Random) -> Sample {
    let number = |random: &mut Random, limit: usize| match random.below(4) {
        0 => huge(random),
        _ => random.below(limit + 1),
    };
    let word = |random: &mut Random| match random.below(3) {
        0 => random.bits() as u32,
        1 => 0,
        _ => any_entry(random, OFFICES),
    };
    let mut record = Record { n: number(random, OFFICES), own: number(random, OFFICES), ..Record::ZERO };
    for weight in record.weights.iter_mut().chain(&mut record.present) {
        *weight = random.pick(&[0, 1, u16::MAX]);
    }
    for code in &mut record.codes {
        *code = random.pick(&[0, 0, 1, 121, CODES, CODES + 1, u32::MAX]);
    }
    for weight in &mut record.kept.present {
        *weight = random.pick(&[0, 1, u16::MAX]);
    }
    for number in record.kept.counts.iter_mut().chain(&mut record.noted) {
        *number = random.pick(&[0, 0, 1, 2, 1 << 32, LENGTH, u64::MAX]);
    }
    record.kept.codes[random.below(LINES as usize)] = random.pick(&[0, 1, CODES, CODES + 1]);
    record.settled = number(random, LOG) as u64;
    record.kept.dropped = random.pick(&[0, 0, 1, record.settled, record.settled / 2, LENGTH, u64::MAX]);
    for ballot in &mut record.ballots {
        ballot.len = number(random, TAIL);
        for cell in &mut ballot.cells {
            *cell = word(random);
        }
    }
    let length = if random.percent(80) { LOG } else { number(random, LOG).min(2000) };
    let log = (0..length).map(|_| word(random)).collect();
    Sample { record, log }
}
