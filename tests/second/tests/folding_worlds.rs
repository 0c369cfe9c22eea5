//! Demand 3 with folding among the calls, dropped entries included; what is claimed beside it; and requests (vi), (vii)
//! and (xi) in such worlds.

mod common;

use common::lists::{lists, Effect};
use second::calls::{found, issue};
use second::elect::elect;
use second::fold::fold;
use second::generate::weights;
use second::random::Random;
use second::record::{sound, Record, DONE, LOG};
use second::samples::Sample;
use second::take::take;

/// An office with the entries that it has dropped, which no call reads.
#[derive(Clone)]
struct Desk {
    office: Sample,
    dropped: Vec<u32>,
}

impl Desk {
    /// The settled log, dropped entries included.
    fn log(&self) -> Vec<u32> {
        [&self.dropped, &self.office.log[..self.office.record.held()]].concat()
    }

    /// The path of an office, dropped entries included.
    fn path(&self, office: usize) -> Vec<u32> {
        [&self.log()[..], self.office.record.ballots[office].tail()].concat()
    }

    /// The desk after a call that left this record and log: as many entries are dropped as the dropped count rose.
    fn after(&self, record: Record, log: Vec<u32>) -> Desk {
        let gone = (record.kept.dropped - self.office.record.kept.dropped) as usize;
        let dropped = [&self.dropped[..], &self.office.log[..gone]].concat();
        Desk { office: Sample { record, log }, dropped }
    }

    fn take(&self, message: &[u8]) -> (u32, Desk) {
        let mut log = self.office.log.clone();
        let (number, _, record) = take(self.office.record, &mut log, message);
        (number, self.after(record, log))
    }
}

/// A world, and what demand 3 speaks of.
struct World {
    random: Random,
    weights: [u16; 8],
    desks: Vec<Desk>,
    sent: Vec<Vec<u8>>,
    logs: Vec<Vec<u32>>,
    issues: Vec<(Vec<u32>, u32)>,
    folded: u64,
    inside: usize,
}

impl World {
    fn new(seed: u64) -> World {
        let mut random = Random::new(seed);
        let n = random.within(1, 5);
        let mut all = [0; 8];
        all.iter_mut().zip(weights(&mut random, n)).for_each(|(place, weight)| *place = weight as u16);
        let desk = |own| {
            let log = vec![7; LOG];
            let (number, record) = found(n, own, all, &log);
            assert_eq!(number, DONE);
            Desk { office: Sample { record, log }, dropped: vec![] }
        };
        let desks = (0..n).map(desk).collect();
        World { random, weights: all, desks, sent: vec![], logs: vec![], issues: vec![], folded: 0, inside: 0 }
    }

    /// One call, and what must hold of it.
    fn call(&mut self) {
        let own = self.random.below(self.desks.len());
        let desk = self.desks[own].clone();
        let Sample { record, mut log } = desk.office.clone();
        let after = match self.random.below(10) {
            0..=2 => self.issued(&desk, own),
            3 | 4 => {
                self.sent.push(desk.office.message());
                desk
            }
            5..=7 if !self.sent.is_empty() => self.taken(&desk),
            8 => {
                let (number, count, record) = fold(record, &mut log);
                assert_eq!(number, DONE);
                self.folded += count;
                let after = desk.after(record, log);
                assert_eq!((after.dropped.len() as u64, after.log()), (record.kept.dropped, desk.log()));
                after
            }
            _ => {
                let (number, count, record) = elect(record, &mut log);
                assert_eq!((number, record.settled), (DONE, desk.office.record.settled + count as u64));
                desk.after(record, log)
            }
        };
        self.logs.push(after.log());
        self.kept_is_what_was_dropped(&after);
        self.desks[own] = after;
    }

    fn issued(&mut self, desk: &Desk, own: usize) -> Desk {
        let n = self.desks.len();
        let line = if self.random.percent(20) { 64 + self.random.below(n) } else { self.random.below(3) } as u32;
        let code = 1 + self.random.below(4) as u32;
        let Sample { record, log } = desk.office.clone();
        let (number, record) = issue(record, &log, line, code);
        if number == DONE {
            self.issues.push((desk.path(own), own as u32 * 16777216 + line * 65536 + code));
        }
        desk.after(record, log)
    }

    /// Any of the messages sent, the last ones more often. Taken again it changes nothing, and so does an election.
    fn taken(&mut self, desk: &Desk) -> Desk {
        let recent = self.sent.len().saturating_sub(8);
        let from = if self.random.percent(70) { recent } else { 0 };
        let message = self.sent[self.random.within(from, self.sent.len() - 1)].clone();
        let (number, after) = desk.take(&message);
        assert!(matches!(number, 0 | 9 | 17), "{number}");
        self.inside += usize::from(number == 17);
        if number == DONE {
            let (again, twice) = after.take(&message);
            assert_eq!((again, &twice.office), (DONE, &after.office));
            self.swapped(desk, &message);
        }
        after
    }

    /// Two messages that are accepted in both orders leave the same log and the same ballots of the other offices.
    fn swapped(&mut self, desk: &Desk, first: &[u8]) {
        let second = self.sent[self.random.below(self.sent.len())].clone();
        let both = |one: &[u8], other: &[u8]| {
            let (number, after) = desk.take(one);
            let (second, after) = after.take(other);
            (number == DONE && second == DONE).then_some(after)
        };
        if let (Some(one), Some(other)) = (both(first, &second), both(&second, first)) {
            assert_eq!(one.log(), other.log());
            let own = one.office.record.own;
            let ballots = |desk: &Desk| {
                let mut ballots = desk.office.record.ballots;
                ballots[own].len = 0;
                ballots[own].cells = [0; 32];
                ballots
            };
            assert_eq!(ballots(&one), ballots(&other));
        }
    }

    /// What is kept is what the dropped entries did; the record is sound, and has what any office has dropped.
    fn kept_is_what_was_dropped(&self, desk: &Desk) {
        let office = lists(&desk.office);
        let founding = self.weights[..self.desks.len()].iter().map(|&weight| weight.into()).collect();
        let nothing = Effect { weights: founding, codes: vec![None; 64], counts: vec![0; self.desks.len()] };
        assert_eq!(office.kept, nothing.after(&desk.dropped));
        assert!(sound(&desk.office.record, &desk.office.log));
        let least = self.desks.iter().map(|desk| desk.office.record.settled).min().unwrap();
        assert!(desk.office.record.kept.dropped <= least);
    }

    /// Demand 3 over the whole list.
    fn check(&self) {
        let order = self.logs.iter().max_by_key(|log| log.len()).cloned().unwrap_or_default();
        assert!(self.logs.iter().all(|log| order.starts_with(log)));
        for (place, &value) in order.iter().enumerate() {
            assert!(self.issues.iter().any(|(view, issued)| *issued == value && view[..] == order[..place]));
        }
        self.desks.iter().for_each(counts_decide);
    }
}

/// Among an office's log and paths one is a beginning of another exactly if each of its counts is at most the other's.
fn counts_decide(desk: &Desk) {
    let paths: Vec<Vec<u32>> = (0..desk.office.record.n).map(|office| desk.path(office)).chain([desk.log()]).collect();
    let counts = |path: &[u32]| -> Vec<usize> {
        (0..8).map(|office| path.iter().filter(|&&word| word / 16777216 == office).count()).collect()
    };
    for one in &paths {
        for other in &paths {
            let at_most = counts(one).iter().zip(counts(other)).all(|(a, b)| *a <= b);
            assert_eq!(at_most, other.starts_with(one));
        }
    }
}

#[test]
fn one_order_with_dropped_entries() {
    let (mut folded, mut inside, mut settled) = (0, 0, 0);
    for seed in 0..250 {
        let mut world = World::new(seed);
        (0..400).for_each(|_| world.call());
        world.check();
        folded += world.folded;
        inside += world.inside;
        settled += world.desks.iter().map(|desk| desk.office.record.settled).max().unwrap();
    }
    assert!(folded > 2000 && inside > 1000 && settled > 3000, "{folded} {inside} {settled}");
}
