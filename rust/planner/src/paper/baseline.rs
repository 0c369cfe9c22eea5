//! The baseline: weighted voting on one edit at a time, written from document 000 (3.3) and from what 001 says of it,
//! that it "requires one entire election round to be completed in order to commit each single update". All edits
//! are of one object, so any two conflict.

use std::collections::{BTreeMap, VecDeque};

use super::Protocol;

/// What becomes of the edits that wait at an office when something is settled.
#[derive(Clone, Copy, PartialEq)]
pub enum Waiting {
    /// They go on waiting, whatever is settled.
    Keep,
    /// They go on waiting where what is settled is what they were made behind, as dependent edits of 001 are.
    Depend,
    /// They have read the settled version from before, and are aborted: 000's abort rule to the letter.
    Abort,
}

/// An edit, and the office that made it.
#[derive(Clone, Copy, PartialEq, Eq, PartialOrd, Ord)]
struct Candidate {
    office: usize,
    id: usize,
}

/// What an office knows.
#[derive(Clone)]
struct Server {
    own: usize,
    /// What it has settled; the next election is for the place behind it.
    log: Vec<usize>,
    /// The known votes of that election. Once cast they are never retracted.
    votes: Vec<Option<Candidate>>,
    /// What the office has voted for, if it has, then its own edits that are no candidates yet.
    path: VecDeque<Candidate>,
    discarded: Vec<usize>,
}

/// Offices of equal weight.
pub struct Baseline {
    servers: Vec<Server>,
    waiting: Waiting,
}

impl Baseline {
    pub fn new(offices: usize, waiting: Waiting) -> Baseline {
        let server = |own| {
            let (log, votes, path, discarded) = (Vec::new(), vec![None; offices], VecDeque::new(), Vec::new());
            Server { own, log, votes, path, discarded }
        };
        Baseline { servers: (0..offices).map(server).collect(), waiting }
    }
}

impl Server {
    /// The edits are settled behind what is settled here: the votes are over, and their rivals are discarded.
    fn settle(&mut self, news: &[usize], waiting: Waiting) {
        let voted = self.votes[self.own].is_some();
        self.log.extend_from_slice(news);
        self.votes.fill(None);
        let shared = self.path.iter().zip(news).take_while(|(edit, id)| edit.id == **id).count();
        let vote = if voted { self.path.pop_front() } else { None };
        let lost = vote.filter(|vote| vote.office == self.own && shared == 0);
        self.discarded.extend(lost.map(|vote| vote.id));
        let kept = match waiting {
            Waiting::Keep => true,
            Waiting::Depend => shared == news.len(),
            Waiting::Abort => false,
        };
        if !kept {
            self.discarded.extend(self.path.drain(..).map(|edit| edit.id));
        }
    }

    /// The office votes for what its path begins with, if it has no vote.
    fn vote(&mut self) {
        if self.votes[self.own].is_none() {
            self.votes[self.own] = self.path.front().copied();
        }
    }

    /// The commit rule: the candidate that no other can reach, by votes, or ties and comes first by its office.
    fn winner(&self) -> Option<Candidate> {
        let mut tally: BTreeMap<Candidate, usize> = BTreeMap::new();
        self.votes.iter().flatten().for_each(|&candidate| *tally.entry(candidate).or_default() += 1);
        let unknown = self.votes.iter().filter(|vote| vote.is_none()).count();
        let wins = |(candidate, votes): (&Candidate, &usize)| {
            let beats = |(other, theirs): (&Candidate, &usize)| {
                other == candidate || *votes > theirs + unknown || (*votes == theirs + unknown && candidate < other)
            };
            (*votes > unknown && tally.iter().all(beats)).then_some(*candidate)
        };
        tally.iter().find_map(wins)
    }

    /// Elections until none is decided.
    fn elect(&mut self, waiting: Waiting) {
        while let Some(winner) = self.winner() {
            self.settle(&[winner.id], waiting);
            self.vote();
        }
    }

    /// What another office knows is taken over: its settled edits, its vote where this office has none to cast, and
    /// all votes that are not known.
    fn learn(&mut self, other: &Server, waiting: Waiting) {
        if other.log.len() > self.log.len() {
            let news = other.log[self.log.len()..].to_vec();
            self.settle(&news, waiting);
        }
        if other.log.len() == self.log.len() {
            if self.path.is_empty() {
                self.path.extend(other.votes[other.own]);
            }
            for office in (0..self.votes.len()).filter(|&office| office != self.own) {
                self.votes[office] = self.votes[office].or(other.votes[office]);
            }
        }
        self.vote();
        self.elect(waiting);
    }
}

impl Protocol for Baseline {
    fn pull(&mut self, to: usize, from: usize) {
        let other = self.servers[from].clone();
        self.servers[to].learn(&other, self.waiting);
    }

    fn edit(&mut self, office: usize, id: usize) {
        let server = &mut self.servers[office];
        server.path.push_back(Candidate { office, id });
        server.vote();
        server.elect(self.waiting);
    }

    fn settled(&self, office: usize) -> &[usize] {
        &self.servers[office].log
    }

    fn discarded(&mut self, office: usize) -> Vec<usize> {
        std::mem::take(&mut self.servers[office].discarded)
    }
}

#[cfg(test)]
mod tests {
    use super::{Baseline, Protocol, Waiting};

    #[test]
    fn a_second_edit_waits_for_the_first() {
        for waiting in [Waiting::Keep, Waiting::Depend] {
            let mut three = Baseline::new(3, waiting);
            three.edit(0, 0);
            three.edit(0, 1);
            three.pull(1, 0);
            assert_eq!(three.settled(1), [0]); // two of three
            three.pull(0, 1);
            assert_eq!(three.settled(0), [0]); // and now the second is a candidate
            three.pull(1, 0);
            assert_eq!(three.settled(1), [0, 1]);
        }
    }

    #[test]
    fn the_abort_rule_drops_what_waits() {
        let mut three = Baseline::new(3, Waiting::Abort);
        three.edit(0, 0);
        three.edit(0, 1);
        three.pull(1, 0);
        three.pull(0, 1);
        assert_eq!((three.discarded(0), three.settled(0)), (vec![1], &[0][..]));
    }

    #[test]
    fn what_depends_on_a_beaten_edit_is_beaten() {
        for (waiting, beaten) in [(Waiting::Keep, vec![1]), (Waiting::Depend, vec![1, 2])] {
            let mut three = Baseline::new(3, waiting);
            three.edit(0, 0);
            three.edit(1, 1);
            three.edit(1, 2);
            three.pull(2, 0);
            three.pull(1, 2);
            assert_eq!((three.discarded(1), three.settled(1)), (beaten, &[0][..]));
        }
    }
}
