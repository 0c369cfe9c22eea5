//! How the next place stands: the entries that ballots support, each with its T; U; and the offices that are unheard.

use crate::record::*;

/// How the election of the next place stands.
#[derive(Clone, Copy, Debug, Default, PartialEq, Eq)]
pub struct Standing {
    /// Supported entries there are.
    pub rows: usize,
    /// U: weight of the offices with no ballot.
    pub unheard: u32,
    /// The supported entries, each once, in the order of the lowest office that supports it, then zeros.
    pub entries: [u32; OFFICES],
    /// T of each of them, then zeros.
    pub tallies: [u32; OFFICES],
    /// Whether each office has no ballot: 1 if so, 0 otherwise and from office n on.
    pub silent: [u32; OFFICES],
}

impl Standing {
    /// Adds the weight of an office that supports the entry.
    fn support(&mut self, entry: u32, weight: u32) {
        let known = self.entries[..self.rows].iter().position(|&supported| supported == entry);
        let row = known.unwrap_or(self.rows);
        self.rows = self.rows.max(row + 1);
        self.entries[row] = entry;
        self.tallies[row] += weight;
    }
}

/// How the next place stands by the present weights.
pub fn standing(record: &Record, log: &[u32]) -> (u32, Standing) {
    let mut standing = Standing::default();
    if !sound(record, log) {
        return (UNSOUND, standing);
    }
    for (office, ballot) in record.ballots[..record.n].iter().enumerate() {
        let weight = u32::from(record.present[office]);
        match ballot.tail().first() {
            Some(&entry) => standing.support(entry, weight),
            None => {
                standing.unheard += weight;
                standing.silent[office] = 1;
            }
        }
    }
    (DONE, standing)
}
