//! Elections: which entry wins, and what the record is once it is settled.

use crate::record::*;

/// What the ballots of a sound record say.
pub(crate) struct Tally<'a> {
    /// How many of the dropped entries each office issued.
    dropped: [u64; OFFICES],
    /// First tail entry of each office's ballot; nothing for an office with no ballot.
    first: [Option<u32>; OFFICES],
    /// T of that entry.
    support: [u32; OFFICES],
    /// U: weight of the offices with no ballot.
    unheard: u32,
    /// The settled entries that are not dropped. They and the dropped ones decide between level entries.
    settled: &'a [u32],
}

impl<'a> Tally<'a> {
    /// The tally of a sound record with this settled log, by its present weights.
    pub(crate) fn of(record: &Record, settled: &'a [u32]) -> Tally<'a> {
        Tally::by(&record.present, record, settled)
    }

    /// The tally of a sound record with this settled log, by these weights.
    pub(crate) fn by(weights: &[u16; OFFICES], record: &Record, settled: &'a [u32]) -> Tally<'a> {
        let dropped = record.kept.counts;
        let mut tally = Tally { dropped, first: [None; OFFICES], support: [0; OFFICES], unheard: 0, settled };
        for (office, ballot) in record.ballots[..record.n].iter().enumerate() {
            tally.first[office] = ballot.tail().first().copied();
        }
        for (office, &weight) in weights[..record.n].iter().enumerate() {
            let Some(voted) = tally.first[office] else {
                tally.unheard += u32::from(weight);
                continue;
            };
            for (first, support) in tally.first.iter().zip(&mut tally.support) {
                if *first == Some(voted) {
                    *support += u32::from(weight);
                }
            }
        }
        tally
    }

    /// Supported entries, each with its T, once for each ballot that supports it.
    fn supported(&self) -> impl Iterator<Item = (u32, u32)> + '_ {
        self.first.iter().zip(&self.support).filter_map(|(first, &support)| Some(((*first)?, support)))
    }

    /// What decides between level entries, the lower first: the settled entries of its office, then its value.
    fn rank(&self, e: u32) -> (u64, u32) {
        let entries = self.settled.iter().filter(|&&word| word >> 24 == e >> 24).count();
        (self.dropped[office_of(e)] + entries as u64, e)
    }

    /// Whether an entry e with this T wins.
    fn wins(&self, e: u32, support: u32) -> bool {
        support > self.unheard
            && self.supported().filter(|&(f, _)| f != e).all(|(f, other)| {
                let bar = other + self.unheard;
                support > bar || support == bar && self.rank(e) < self.rank(f)
            })
    }

    /// The entry that wins, if there is one.
    pub(crate) fn winner(&self) -> Option<u32> {
        self.supported().find(|&(e, support)| self.wins(e, support)).map(|(e, _)| e)
    }

    /// Whether the winner is level with another entry.
    pub(crate) fn tied(&self, winner: u32) -> bool {
        let support = self.supported().find(|&(e, _)| e == winner).map_or(0, |(_, support)| support);
        self.supported().any(|(f, other)| f != winner && support == other + self.unheard)
    }
}

/// Writes the winner to the log of a sound record, and moves the weight or stores the code that it has; ballots that
/// start with it lose it, all others become none.
fn settle(record: &mut Record, log: &mut [u32], winner: u32) {
    log[record.held()] = winner;
    record.settled += 1;
    move_weight(&mut record.present, winner);
    set_code(&mut record.codes, winner);
    for ballot in record.ballots.iter_mut().filter(|ballot| ballot.len > 0) {
        if ballot.cells[0] == winner {
            ballot.shorten(1);
        } else {
            *ballot = Ballot::NONE;
        }
    }
}

/// One step of a sound record: whether an entry won and was settled.
pub(crate) fn step(record: &mut Record, log: &mut [u32]) -> bool {
    let Some(winner) = Tally::of(record, &log[..record.held()]).winner() else {
        return false;
    };
    settle(record, log, winner);
    true
}

/// The record after one step, and how many entries the step settled: one or none.
pub fn elect_step(mut record: Record, log: &mut [u32]) -> (u32, usize, Record) {
    if !sound(&record, log) {
        return (UNSOUND, 0, record);
    }
    let count = usize::from(step(&mut record, log));
    (DONE, count, record)
}

/// The record after steps until no entry wins, and how many entries they settled.
pub fn elect(mut record: Record, log: &mut [u32]) -> (u32, usize, Record) {
    if !sound(&record, log) {
        return (UNSOUND, 0, record);
    }
    let mut count = 0;
    while step(&mut record, log) {
        count += 1;
    }
    (DONE, count, record)
}
