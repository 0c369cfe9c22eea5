//! The proved engine as a protocol of the experiment: dependent edits are settled together.

use joukerpan::{Entry, Office, Refused};

use super::Protocol;

/// Offices of equal weight. An edit's number is its code.
pub struct Engine {
    offices: Vec<Office>,
    settled: Vec<Vec<usize>>,
    discarded: Vec<Vec<usize>>,
}

impl Engine {
    pub fn new(offices: usize) -> Engine {
        let found = |own| Office::found(own, &vec![1; offices]).expect("1 to 8 offices");
        Engine {
            offices: (0..offices).map(found).collect(),
            settled: vec![Vec::new(); offices],
            discarded: vec![Vec::new(); offices],
        }
    }

    /// Notes what a take or an election has done: own entries were pending, and are now settled, pending or discarded.
    fn note(&mut self, office: usize, before: &[Entry]) {
        let known = self.settled[office].len();
        let news = self.offices[office].settled()[known..].iter().map(|&word| Entry::from(word));
        let own = news.clone().filter(|entry| usize::from(entry.office) == office).count();
        self.settled[office].extend(news.map(number));
        let kept = own + self.offices[office].pending().len();
        self.discarded[office].extend(before.iter().skip(kept).map(|&entry| number(entry)));
    }
}

fn number(entry: Entry) -> usize {
    entry.code.into()
}

impl Protocol for Engine {
    fn pull(&mut self, to: usize, from: usize) {
        let before = self.offices[to].pending();
        let message = self.offices[from].message();
        self.offices[to].take(&message).expect("a sent message of another office is taken");
        self.offices[to].elect();
        self.note(to, &before);
    }

    fn edit(&mut self, office: usize, id: usize) {
        let code = u32::try_from(id).expect("a run has few edits");
        match self.offices[office].issue(0, code) {
            Ok(()) => {}
            Err(Refused::PartFull) => return self.discarded[office].push(id),
            Err(refused) => unreachable!("a run has few edits: {refused}"),
        }
        let before = self.offices[office].pending();
        self.offices[office].elect();
        self.note(office, &before);
    }

    fn settled(&self, office: usize) -> &[usize] {
        &self.settled[office]
    }

    fn discarded(&mut self, office: usize) -> Vec<usize> {
        std::mem::take(&mut self.discarded[office])
    }
}
