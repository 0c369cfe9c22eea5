//! What offices are told of their edits in worlds played at random, folding among the calls: each edit is told settled or
//! lost once, and a lost one is lost for good.

use second::calls::{found, issue};
use second::elect::elect;
use second::fold::fold;
use second::generate::weights;
use second::outcome::{outcome, Outcome};
use second::random::Random;
use second::record::{office_of, Record, DONE, LOG, TAIL};
use second::samples::Sample;
use second::standing::standing;
use second::take::take;

/// An office, the entries that it has dropped, and what it was told.
struct Desk {
    record: Record,
    log: Vec<u32>,
    dropped: Vec<u32>,
    issued: usize,
    settled: usize,
    lost: usize,
}

impl Desk {
    /// The settled log, dropped entries included.
    fn order(&self) -> Vec<u32> {
        [&self.dropped, &self.log[..self.record.held()]].concat()
    }

    /// The own tail.
    fn tail(&self) -> &[u32] {
        self.record.ballots[self.record.own].tail()
    }

    fn own_entries(&self, entries: &[u32]) -> usize {
        entries.iter().filter(|&&word| office_of(word) == self.record.own).count()
    }
}

/// What happened in the worlds.
#[derive(Debug, Default)]
struct Seen {
    settled: usize,
    lost: usize,
    kept: usize,
    lost_behind_settled: usize,
    folded: usize,
    adopted: usize,
}

struct World {
    random: Random,
    desks: Vec<Desk>,
    sent: Vec<Vec<u8>>,
    /// Of each lost entry its path, dropped entries included: all before it, and the entry.
    lost: Vec<Vec<u32>>,
    seen: Seen,
}

impl World {
    fn new(seed: u64) -> World {
        let mut random = Random::new(seed);
        let n = random.within(2, 6);
        let mut all = [0; 8];
        all.iter_mut().zip(weights(&mut random, n)).for_each(|(place, weight)| *place = weight as u16);
        let desk = |own| {
            let log = vec![7; LOG];
            let (number, record) = found(n, own, all, &log);
            assert_eq!(number, DONE);
            Desk { record, log, dropped: vec![], issued: 0, settled: 0, lost: 0 }
        };
        World { random, desks: (0..n).map(desk).collect(), sent: vec![], lost: vec![], seen: Seen::default() }
    }

    /// One call. A take, an election and a fold are told of.
    fn call(&mut self) {
        let own = self.random.below(self.desks.len());
        match self.random.below(10) {
            0..=2 => self.issue(own),
            3 | 4 => {
                let Desk { record, log, .. } = &self.desks[own];
                self.sent.push(Sample { record: *record, log: log.clone() }.message());
            }
            5..=7 if !self.sent.is_empty() => {
                let recent = self.sent.len().saturating_sub(8);
                let from = if self.random.percent(70) { recent } else { 0 };
                let message = self.sent[self.random.within(from, self.sent.len() - 1)].clone();
                self.told(own, |record, log| take(record, log, &message).2);
            }
            8 => self.told(own, |record, log| fold(record, log).2),
            _ => self.elect(own),
        }
    }

    fn issue(&mut self, own: usize) {
        let line =
            if self.random.percent(20) { 64 + self.random.below(self.desks.len()) } else { self.random.below(3) };
        let desk = &mut self.desks[own];
        let (number, record) = issue(desk.record, &desk.log, line as u32, 1 + self.random.below(4) as u32);
        desk.issued += usize::from(number == DONE);
        desk.record = record;
    }

    /// An election: what it settles first is what led before it.
    fn elect(&mut self, own: usize) {
        let Desk { record, log, .. } = &self.desks[own];
        let (_, stood) = standing(record, log);
        let (held, settled) = (record.held(), record.settled);
        self.told(own, |record, log| elect(record, log).2);
        let Desk { record, log, .. } = &self.desks[own];
        if record.settled > settled {
            let rows = stood.entries.iter().zip(stood.tallies).take(stood.rows);
            let (_, tally) = rows.clone().find(|(&entry, _)| entry == log[held]).expect("a row for the winner");
            assert!(tally > stood.unheard && rows.clone().all(|(_, other)| other <= tally));
        }
    }

    /// Makes a call and asks what became of the own edits.
    fn told(&mut self, own: usize, call: impl FnOnce(Record, &mut [u32]) -> Record) {
        let desk = &self.desks[own];
        let (before, order, mut log) = (desk.record, desk.order(), desk.log.clone());
        let (tail, pending) = (desk.tail().to_vec(), desk.own_entries(desk.tail()));
        let record = call(before, &mut log);
        let gone = desk.log[..(record.kept.dropped - before.kept.dropped) as usize].to_vec();
        let mut rest = [0; TAIL];
        let (number, told) = outcome(&before, &record, &log, &mut rest);
        assert_eq!(number, DONE);
        assert_eq!(told.settled + told.pending + told.lost, pending, "three parts");
        assert!(told.pending == 0 || told.lost == 0, "never both");
        let own_tail: Vec<u32> = tail.iter().copied().filter(|&word| office_of(word) == own).collect();
        assert_eq!(rest[..pending - told.settled], own_tail[told.settled..]);
        let desk = &mut self.desks[own];
        desk.dropped.extend(&gone);
        (desk.record, desk.log) = (record, log);
        desk.settled += told.settled;
        desk.lost += told.lost;
        let entries = (0..tail.len()).filter(|&at| office_of(tail[at]) == own);
        let paths = entries.skip(pending - told.lost).map(|at| [&order[..], &tail[..=at]].concat());
        self.lost.extend(paths);
        self.count(told, pending, gone.len(), tail.len());
    }

    fn count(&mut self, told: Outcome, pending: usize, dropped: usize, tail: usize) {
        let seen = &mut self.seen;
        seen.settled += told.settled;
        seen.lost += told.lost;
        seen.kept += told.pending;
        seen.lost_behind_settled += usize::from(told.settled > 0 && told.lost > 0);
        seen.folded += usize::from(dropped > 0 && pending > 0);
        seen.adopted += usize::from(tail > pending && pending > 0);
    }

    /// Each edit was told settled or lost once, or is pending; and no office has settled a lost one at its place.
    fn check(&self) {
        for desk in &self.desks {
            assert_eq!(desk.issued, desk.settled + desk.lost + desk.own_entries(desk.tail()));
            assert_eq!(desk.settled, desk.own_entries(&desk.order()));
            let order = desk.order();
            assert!(self.lost.iter().all(|path| !order.starts_with(path)), "a lost entry was settled");
        }
    }
}

#[test]
fn each_edit_is_told_once_and_lost_for_good() {
    let mut seen = Seen::default();
    for seed in 0..300 {
        let mut world = World::new(seed);
        (0..400).for_each(|_| world.call());
        world.check();
        seen.settled += world.seen.settled;
        seen.lost += world.seen.lost;
        seen.kept += world.seen.kept;
        seen.lost_behind_settled += world.seen.lost_behind_settled;
        seen.folded += world.seen.folded;
        seen.adopted += world.seen.adopted;
    }
    let Seen { settled, lost, kept, lost_behind_settled, folded, adopted } = seen;
    assert!(settled > 3000 && lost > 3000 && kept > 3000, "{settled} {lost} {kept}");
    assert!(lost_behind_settled > 20 && folded > 20 && adopted > 300, "{lost_behind_settled} {folded} {adopted}");
}
