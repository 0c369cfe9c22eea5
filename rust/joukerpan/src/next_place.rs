//! How the next place of the settled log stands.

use joukerpan_sys::Tallied;

use crate::Entry;

/// How the election of the next place stands at an office. Made by [`Office::standing`](crate::Office::standing).
///
/// The weights of the candidates and `unheard` add up to the total.
#[derive(Clone, Debug, PartialEq, Eq)]
pub struct NextPlace {
    /// The entries that offices vote for, each once, in the order of the lowest office that does.
    pub candidates: Vec<Candidate>,
    /// The present weight of the offices whose vote is missing.
    pub unheard: u32,
    /// The offices whose vote is missing, rising. [`Office::present`](crate::Office::present) has the weight of each.
    pub silent: Vec<usize>,
}

/// An entry that offices vote for, and the present weight of these.
#[derive(Clone, Copy, Debug, PartialEq, Eq)]
pub struct Candidate {
    /// The entry.
    pub entry: Entry,
    /// The present weight of the offices that vote for it.
    pub weight: u32,
}

impl From<Tallied> for NextPlace {
    fn from(tallied: Tallied) -> NextPlace {
        let rows = tallied.entries.into_iter().zip(tallied.tallies).take(tallied.rows);
        NextPlace {
            candidates: rows.map(|(word, weight)| Candidate { entry: word.into(), weight }).collect(),
            unheard: tallied.unheard,
            silent: (0..tallied.silent.len()).filter(|&office| tallied.silent[office] == 1).collect(),
        }
    }
}
