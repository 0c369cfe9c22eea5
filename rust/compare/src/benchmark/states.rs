//! Offices to time calls on.

use second::record::{entry, Ballot, Kept, Record, LINES, LOG, OFFICES, TAIL};
use second::samples::Sample;

/// Weights of the eight offices.
pub const WEIGHTS: [u16; OFFICES] = [40, 35, 25, 20, 15, 10, 5, 1];

/// What the entries of a state are, in its log and in its ballots.
#[derive(Clone, Copy, PartialEq)]
pub enum Entries {
    /// Edits, none of them of line 63.
    Edits,
    /// Moves of weight from office to office, each of which takes effect.
    Moves,
}

impl Entries {
    /// The entry at a place of the path.
    fn word(self, at: usize) -> u32 {
        match self {
            Entries::Edits => entry(at % OFFICES, at as u32 % 63, at as u32 % 10_000),
            Entries::Moves => entry(at % OFFICES, LINES + (at + 1) as u32 % OFFICES as u32, 1),
        }
    }

    pub fn name(self) -> &'static str {
        match self {
            Entries::Edits => "edits",
            Entries::Moves => "moves",
        }
    }
}

/// What the ballots of a state hold.
#[derive(Clone, Copy, PartialEq)]
pub enum Ballots {
    /// Eight tails with this many entries, the same one: an election settles all of it.
    Alike(usize),
    /// Eight tails of 32 entries in other orders, each with another first: an election settles one entry.
    Apart,
}

impl Ballots {
    pub const EMPTY: Ballots = Ballots::Alike(0);
    pub const FULL: Ballots = Ballots::Alike(TAIL);

    pub fn entries(self) -> usize {
        match self {
            Ballots::Alike(entries) => entries,
            Ballots::Apart => TAIL,
        }
    }

    pub fn name(self) -> String {
        match self {
            Ballots::EMPTY => "empty".into(),
            Ballots::FULL => "full".into(),
            Ballots::Alike(entries) => format!("{entries} each"),
            Ballots::Apart => "full, apart".into(),
        }
    }
}

/// How long the settled log of a state is, and what is in it and in the ballots. Nothing is dropped.
#[derive(Clone, Copy, PartialEq)]
pub struct State {
    pub settled: usize,
    pub entries: Entries,
    pub ballots: Ballots,
}

impl State {
    /// A fresh office.
    pub const FOUNDED: State = State { settled: 0, entries: Entries::Edits, ballots: Ballots::EMPTY };

    /// Whether there is no entry in it.
    pub fn is_empty(self) -> bool {
        self.settled + self.ballots.entries() == 0
    }

    /// What its entries are, in a word.
    pub fn entries(self) -> &'static str {
        if self.is_empty() {
            "none"
        } else {
            self.entries.name()
        }
    }
}

/// Such an office, one of eight.
pub fn state(State { settled, entries, ballots }: State, own: usize) -> Sample {
    let mut log = vec![0; LOG];
    for (at, place) in log[..settled].iter_mut().enumerate() {
        *place = entries.word(at);
    }
    let mut record = Record { n: OFFICES, own, weights: WEIGHTS, settled: settled as u64, ..Record::ZERO };
    record.kept = Kept::nothing(WEIGHTS);
    for (office, ballot) in record.ballots.iter_mut().enumerate() {
        *ballot = Ballot { len: ballots.entries(), ..Ballot::NONE };
        for (at, cell) in ballot.cells.iter_mut().enumerate().take(ballots.entries()) {
            *cell = entries.word(settled + at);
        }
        if ballots == Ballots::Apart {
            ballot.cells.rotate_left(office);
        }
    }
    let mut sample = Sample { record, log };
    sample.derive();
    sample
}

/// Such an office with a log that is twice the same entries, and every other office known to have settled the first of
/// them: a fold drops that half and leaves the words of the log as they were.
pub fn doubled(of: State, own: usize) -> Sample {
    let Sample { mut record, mut log } = state(of, own);
    let half = of.settled / 2;
    log.copy_within(..half, half);
    record.noted = std::array::from_fn(|office| if office == own { 0 } else { half as u64 });
    let mut sample = Sample { record, log };
    sample.derive();
    sample
}
