//! The offices, with the real engine behind each, and demand 3's consequence asserted after every call: of any two
//! settled logs, dropped entries included, one is a beginning of the other.

use joukerpan::{Entry, Office, Refused, MESSAGE_MAX};

use crate::folding;
use crate::ledger::Ledger;

/// What a run's folds come to, in entries.
#[derive(Clone, Copy, Debug, PartialEq)]
pub struct Folded {
    /// Settled, dropped ones included, and how many of these the office that has dropped most has dropped.
    pub settled: usize,
    pub dropped: usize,
    /// The most that any office ever had settled and not dropped.
    pub most: usize,
    /// The least that an office had settled when it fell silent for good, and the most that any had then.
    pub silent: Option<(usize, usize)>,
}

/// All offices of a run, and what is known of their edits.
pub struct World {
    offices: Vec<Office>,
    pub ledger: Ledger,
    /// The longest settled log, whole. Every office's is a beginning of it, so of any two one is of the other.
    order: Vec<u32>,
    /// The whole settled length of each office, and whether it is gone for good.
    lengths: Vec<usize>,
    gone: Vec<bool>,
    silent: Option<(usize, usize)>,
    /// The most entries that any office ever had settled and not dropped.
    most: usize,
    /// Of each office, how often its record has changed.
    versions: Vec<u64>,
    /// Of receiver and sender, their versions when the sender's message last changed nothing.
    nothing_new: Vec<Vec<Option<(u64, u64)>>>,
    /// Of each office, its message's length and the version that it is of.
    sizes: Vec<Option<(u64, usize)>>,
    buffer: Vec<u8>,
    pub messages: u64,
    pub bytes: u64,
}

impl World {
    /// Offices founded alike.
    pub fn found(weights: &[u16]) -> World {
        let n = weights.len();
        World {
            offices: (0..n).map(|own| Office::found(own, weights).expect("settings are checked")).collect(),
            ledger: Ledger::new(n),
            order: Vec::new(),
            lengths: vec![0; n],
            gone: vec![false; n],
            silent: None,
            most: 0,
            versions: vec![0; n],
            nothing_new: vec![vec![None; n]; n],
            sizes: vec![None; n],
            buffer: vec![0; MESSAGE_MAX],
            messages: 0,
            bytes: 0,
        }
    }

    /// The office's present weight, as it knows it itself.
    pub fn weight(&self, office: usize) -> u16 {
        self.offices[office].present()[office]
    }

    /// The whole settled length of the office.
    pub fn length(&self, office: usize) -> usize {
        self.lengths[office]
    }

    /// How many entries the order has.
    pub fn settled(&self) -> usize {
        self.order.len()
    }

    /// What folding has come to.
    pub fn folded(&self) -> Folded {
        Folded {
            settled: self.order.len(),
            dropped: self.offices.iter().map(folding::dropped).max().unwrap_or(0),
            most: self.most,
            silent: self.silent,
        }
    }

    /// The office is silent from now on; what the others have is then what all have.
    pub fn leave(&mut self, office: usize, now: u32) {
        self.gone[office] = true;
        let then = (self.lengths[office], self.order.len());
        self.silent = Some(self.silent.map_or(then, |silent| silent.min(then)));
        self.note_everywhere(now);
    }

    /// The edit is made at its office: issue, then elect. Answers what was lost.
    pub fn make(&mut self, id: usize, now: u32) -> Result<Vec<usize>, Refused> {
        let entry = self.ledger.edits[id].entry;
        let office = usize::from(entry.office);
        self.offices[office].issue(entry.line.into(), entry.code.into())?;
        self.ledger.made(id);
        self.offices[office].elect();
        self.versions[office] += 1;
        Ok(self.note(office, now))
    }

    /// One office takes another's message and elects. Answers whether it has news to send on, and what it lost.
    ///
    /// Where the same message has changed nothing and neither office has changed since, the calls are not made
    /// again: taking a message twice and electing twice leave what once leaves (proved, request (vi)).
    pub fn pull(&mut self, to: usize, from: usize, now: u32) -> (bool, Vec<usize>) {
        let versions = (self.versions[to], self.versions[from]);
        self.messages += 1;
        if self.nothing_new[to][from] == Some(versions) {
            self.bytes += self.sizes[from].map_or(0, |(_, size)| size) as u64;
            return (false, Vec::new());
        }
        let message = self.offices[from].send(&mut self.buffer).expect("no message is longer");
        self.sizes[from] = Some((versions.1, message.len()));
        self.bytes += message.len() as u64;
        let ballots = self.offices[to].record().ballots;
        let taken = folding::take(&mut self.offices[to], message);
        if !taken.then(self.offices[to].elect()).changed {
            self.nothing_new[to][from] = Some(versions);
            return (false, Vec::new());
        }
        self.versions[to] += 1;
        let length = self.lengths[to];
        let lost = self.note(to, now);
        let news = self.lengths[to] != length || self.offices[to].record().ballots != ballots;
        (news, lost)
    }

    /// The office folds its log.
    pub fn fold(&mut self, office: usize) {
        if folding::fold(&mut self.offices[office]) > 0 {
            self.versions[office] += 1;
            self.check(office);
        }
    }

    /// Works in what a call has changed at the office; answers what it lost.
    fn note(&mut self, office: usize, now: u32) -> Vec<usize> {
        let known = self.lengths[office];
        let (dropped, length) = (folding::dropped(&self.offices[office]), folding::whole_length(&self.offices[office]));
        let settled = self.offices[office].settled();
        assert!(length >= known, "a settled log never shrinks");
        for place in self.order.len()..length {
            self.order.push(settled[place - dropped]);
            self.ledger.join(Entry::from(self.order[place]));
        }
        for place in known..length {
            if usize::from(Entry::from(self.order[place]).office) == office {
                self.ledger.settle_own(office, place, now);
            }
        }
        self.lengths[office] = length;
        self.most = self.most.max(length - dropped);
        self.check(office);
        self.note_everywhere(now);
        self.ledger.keep(office, &self.offices[office].pending())
    }

    /// Asserts that the office's whole settled log is a beginning of the order. What it has dropped was compared
    /// before it was dropped, and is no longer than what was compared.
    fn check(&self, office: usize) {
        let dropped = folding::dropped(&self.offices[office]);
        let settled = self.offices[office].settled();
        assert!(dropped <= self.lengths[office], "only settled entries are dropped");
        assert_eq!(settled, &self.order[dropped..self.lengths[office]], "one settled log is a beginning of the other");
    }

    fn note_everywhere(&mut self, now: u32) {
        let there = self.lengths.iter().zip(&self.gone).filter(|(_, gone)| !**gone);
        if let Some(least) = there.map(|(length, _)| *length).min() {
            self.ledger.heard_everywhere(least, now);
        }
    }
}

#[cfg(test)]
mod tests {
    use joukerpan::Entry;

    use super::{Folded, World};

    /// Two offices of which the first decides, with one edit settled at both.
    fn settled() -> World {
        let mut world = World::found(&[2, 1]);
        let id = world.ledger.enter(Entry { office: 0, line: 5, code: 120 }, 0, false);
        assert_eq!(world.make(id, 0), Ok(vec![]));
        assert_eq!(world.pull(1, 0, 7), (true, vec![]));
        assert_eq!(world.pull(1, 0, 8), (false, vec![]));
        world
    }

    #[test]
    fn an_edit_is_settled_at_its_office_and_at_all() {
        let world = settled();
        let edit = &world.ledger.edits[0];
        assert_eq!((edit.own, edit.all, edit.lost), (Some(0), Some(7), false));
        assert_eq!((world.messages, world.settled()), (2, 1));
    }

    #[test]
    fn folding_drops_what_all_are_known_to_have() {
        let mut world = settled();
        world.fold(0);
        assert_eq!(world.folded(), Folded { settled: 1, dropped: 0, most: 1, silent: None });
        world.pull(0, 1, 9);
        world.fold(0);
        assert_eq!(world.folded(), Folded { settled: 1, dropped: 1, most: 1, silent: None });
        world.pull(1, 0, 10);
        assert_eq!((world.length(1), world.settled()), (1, 1));
        world.leave(1, 11);
        assert_eq!(world.folded().silent, Some((1, 1)));
    }

    #[test]
    #[should_panic(expected = "one settled log is a beginning of the other")]
    fn a_log_that_is_no_beginning_ends_the_run() {
        let mut world = settled();
        world.order[0] += 1;
        world.check(1);
    }
}
