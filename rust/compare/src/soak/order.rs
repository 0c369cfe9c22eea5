//! The one order: the longest log so far, and who issued each of its entries with what in view.

use std::collections::HashMap;

use second::record::{code_of, line_of, office_of, Record, LINES, OFFICES};
use second::samples::Sample;

use super::desk::Desk;

/// Entries one after the other, as one number that depends on each of them and on their order.
#[derive(Clone, Copy, Debug, PartialEq, Eq, Hash)]
pub struct Chain(u64);

impl Chain {
    /// No entries.
    pub const EMPTY: Chain = Chain(0x6A6F_756B_6572_7061);

    /// The entries with these behind them.
    pub fn with(self, entries: &[u32]) -> Chain {
        entries.iter().fold(self, |Chain(bits), &word| {
            let bits = (bits ^ u64::from(word)).wrapping_mul(0x9E37_79B9_7F4A_7C15).wrapping_add(1);
            Chain((bits ^ bits >> 29).wrapping_mul(0xBF58_476D_1CE4_E5B9))
        })
    }
}

/// A done issue: the place behind the path that was in view, that path, and the entry.
#[derive(Clone, Copy, Debug)]
pub struct Issue {
    pub place: u64,
    pub view: Chain,
    pub entry: u32,
}

/// The longest settled log that any office had when it was stored.
pub struct Order {
    weights: Vec<u16>,
    entries: Vec<u32>,
    /// Of each length, the entries up to it.
    chains: Vec<Chain>,
    issues: HashMap<u64, Vec<Issue>>,
    /// Issues that their offices were told to be lost.
    lost: Vec<Issue>,
}

impl Order {
    pub fn new(weights: &[u16]) -> Order {
        let (issues, lost) = (HashMap::new(), vec![]);
        Order { weights: weights.to_vec(), entries: vec![], chains: vec![Chain::EMPTY], issues, lost }
    }

    pub fn length(&self) -> usize {
        self.entries.len()
    }

    /// Notes what an office that is stored has settled, and what it has issued.
    pub fn store(&mut self, record: &Record, held: &[u32], chain: Chain, issues: &[Issue]) -> Result<(), String> {
        for (place, &word) in (record.kept.dropped as usize..).zip(held) {
            match self.entries.get(place) {
                Some(&known) if known != word => {
                    return Err(format!("place {place} is {known:08X} at one office and {word:08X} at {}", record.own));
                }
                Some(_) => {}
                None if place == self.entries.len() => {
                    self.entries.push(word);
                    self.chains.push(self.chains[place].with(&[word]));
                }
                None => return Err(format!("office {} has dropped what no office has settled", record.own)),
            }
        }
        if self.chains.get(record.settled as usize) != Some(&chain) {
            return Err(format!("the settled log of office {} is no beginning of the order", record.own));
        }
        issues.iter().for_each(|issue| self.issues.entry(issue.place).or_default().push(*issue));
        Ok(())
    }

    /// Notes which issues an office that is stored was told to be lost.
    pub fn lose(&mut self, lost: &[Issue]) {
        self.lost.extend(lost);
    }

    /// Whether the order has none of the lost issues: what is lost is lost for good, at every office.
    fn check_lost(&self) -> Result<(), String> {
        let settled = |issue: &&Issue| {
            let place = issue.place as usize;
            self.chains.get(place) == Some(&issue.view) && self.entries.get(place) == Some(&issue.entry)
        };
        match self.lost.iter().find(settled) {
            Some(issue) => Err(format!("place {}: {:08X} was told to be lost", issue.place, issue.entry)),
            None => Ok(()),
        }
    }

    /// Whether the offices have all of the order, each entry was issued by its own office with exactly the entries before
    /// it in view, no lost one is among them, and what is kept of dropped entries is what these did.
    pub fn check(&self, desks: &[Desk]) -> Result<(), String> {
        for (place, &word) in self.entries.iter().enumerate() {
            let issued = |issue: &Issue| issue.entry == word && issue.view == self.chains[place];
            let issues = self.issues.get(&(place as u64)).map_or(&[][..], |all| all);
            if !issues.iter().any(issued) {
                return Err(format!("place {place}: nobody issued {word:08X} with the entries before it in view"));
            }
        }
        self.check_lost()?;
        desks.iter().try_for_each(|desk| self.check_desk(&desk.record()))
    }

    fn check_desk(&self, record: &Record) -> Result<(), String> {
        let (dropped, settled) = (record.kept.dropped as usize, record.settled as usize);
        if settled != self.entries.len() {
            return Err(format!("office {} has settled {settled} of {}", record.own, self.entries.len()));
        }
        let (gone, mut codes, mut counts) = (&self.entries[..dropped], [0; LINES as usize], [0; OFFICES]);
        for &word in gone {
            counts[office_of(word)] += 1;
            if let Some(code) = codes.get_mut(line_of(word) as usize) {
                *code = code_of(word) + 1;
            }
        }
        let kept = Sample::new(record.own, &self.weights, gone, &[]).record;
        if (record.kept.codes, record.kept.counts, record.kept.present) != (codes, counts, kept.present) {
            return Err(format!("office {} keeps other than what its dropped entries did", record.own));
        }
        Ok(())
    }
}
