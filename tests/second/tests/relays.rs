//! Messages twice and in either order: document 02's request (vi), over generated histories and on random records.

use second::elect::elect;
use second::generate::{script, KINDS};
use second::lines::each_line;
use second::random::Random;
use second::record::{Ballot, Kept, DONE};
use second::rehearsal::{Command, World};
use second::samples::{Family, Sample};
use second::take::take;

/// The office after the message, if it accepts it.
fn taken(office: &Sample, message: &[u8]) -> Option<Sample> {
    let Sample { record, mut log } = office.clone();
    let (number, _, record) = take(record, &mut log, message);
    (number == DONE).then_some(Sample { record, log })
}

/// The office after an election.
fn elected(office: &Sample) -> (usize, Sample) {
    let Sample { record, mut log } = office.clone();
    let (number, count, record) = elect(record, &mut log);
    assert_eq!(number, DONE);
    (count, Sample { record, log })
}

/// Taking an accepted message again leaves every byte and word; so does electing again.
fn twice_is_once(office: &Sample, message: &[u8]) -> bool {
    let Some(once) = taken(office, message) else { return false };
    never_unsettles(office, &once);
    assert_eq!(taken(&once, message).as_ref(), Some(&once));
    let (_, elected_once) = elected(&once);
    assert_eq!(elected(&elected_once), (0, elected_once));
    true
}

/// The settled log before a take is a beginning of the one after it, and a path that extends the new log is a beginning
/// of its path after it.
fn never_unsettles(before: &Sample, after: &Sample) {
    let gone = (after.record.kept.dropped - before.record.kept.dropped) as usize;
    let log = |office: &Sample, gone: usize| office.log[gone..office.record.held()].to_vec();
    let (before_log, after_log) = (log(before, gone), log(after, 0));
    assert!(after_log.starts_with(&before_log));
    for (old, new) in before.record.ballots.iter().zip(&after.record.ballots) {
        let (old, new) = ([&before_log[..], old.tail()].concat(), [&after_log[..], new.tail()].concat());
        let extends = old.len() > after_log.len() && old.starts_with(&after_log);
        assert!(!extends || new.starts_with(&old));
    }
}

/// What must not depend on the order: the settled log with what was kept of its dropped part, the noted lengths, and the
/// other offices' ballots.
fn shared(office: &Sample) -> (&[u32], Kept, [u64; 8], Vec<&Ballot>) {
    let record = &office.record;
    let ballots = record.ballots.iter().enumerate();
    let others = ballots.filter(|&(place, _)| place != record.own).map(|(_, ballot)| ballot);
    (&office.log[..record.held()], record.kept, record.noted, others.collect())
}

/// The paths of both orders, where the messages are accepted in both.
fn both_orders(office: &Sample, first: &[u8], second: &[u8]) -> Option<(Sample, Sample)> {
    let one = taken(&taken(office, first)?, second)?;
    let other = taken(&taken(office, second)?, first)?;
    Some((one, other))
}

/// A world that is played, with every message that was sent in it.
struct Played {
    random: Random,
    world: World,
    sent: Vec<Vec<u8>>,
    twice: usize,
    pairs: usize,
    own_ballot_differs: usize,
    log_grown_by_both: usize,
}

impl Played {
    fn new(seed: u64) -> Played {
        let (random, world) = (Random::new(seed), World::default());
        Played { random, world, sent: vec![], twice: 0, pairs: 0, own_ballot_differs: 0, log_grown_by_both: 0 }
    }

    fn office(&self, k: usize) -> Sample {
        let office = &self.world.offices[k];
        Sample { record: office.record, log: office.log.to_vec() }
    }

    fn line(&mut self, line: &[u8]) {
        let Some(command) = Command::parse(line) else { return };
        let Some(answer) = self.world.run(command) else { return };
        if answer.number != DONE {
            return;
        }
        match command {
            Command::Found(..) => self.sent.clear(),
            Command::Send(_, m) => self.sent.push(self.world.slots[m].message().to_vec()),
            _ => {}
        }
        if !self.sent.is_empty() {
            self.deliver();
        }
    }

    /// Delivers any two of the messages sent, late ones too, to one of the offices: each twice, and in both orders.
    fn deliver(&mut self) {
        let k = self.random.below(self.world.offices.len());
        let office = self.office(k);
        let recent = self.random.below(self.sent.len().min(6));
        let (first, second) = (self.random.below(self.sent.len()), self.sent.len() - 1 - recent);
        let (first, second) = (&self.sent[first], &self.sent[second]);
        self.twice += usize::from(twice_is_once(&office, first));
        // In the world a message that is accepted is accepted behind any other.
        let accepted = |message| taken(&office, message);
        let (Some(one), Some(other)) = (accepted(first), accepted(second)) else { return };
        let (after, swapped) = both_orders(&office, first, second).expect("accepted in both orders");
        assert_eq!(shared(&after), shared(&swapped));
        self.pairs += 1;
        self.own_ballot_differs += usize::from(after.record.ballots[k] != swapped.record.ballots[k]);
        let grown = |later: &Sample| later.record.settled > office.record.settled;
        self.log_grown_by_both += usize::from(grown(&one) && grown(&other));
    }
}

#[test]
fn histories() {
    let (mut twice, mut pairs, mut own, mut grown) = (0, 0, 0, 0);
    for kind in KINDS {
        for seed in 0..4 {
            let mut played = Played::new(seed);
            each_line(&script(kind, seed, 1500).unwrap()[..], |line| {
                played.line(line);
                Ok(())
            })
            .unwrap();
            twice += played.twice;
            pairs += played.pairs;
            own += played.own_ballot_differs;
            grown += played.log_grown_by_both;
        }
    }
    assert!(twice > 10_000 && pairs > 10_000 && own > 30 && grown > 100, "{twice} {pairs} {own} {grown}");
}

#[test]
fn doubled_deliveries_leave_the_world_that_single_ones_leave() {
    // A relayed history stands there as it is, then with each take twice.
    for seed in 0..20 {
        let text = script("relays", seed, 1200).unwrap();
        let lines: Vec<&[u8]> = text.split(|&byte| byte == b'\n').filter(|line| !line.is_empty()).collect();
        let starts: Vec<usize> = (0..lines.len()).filter(|&at| lines[at].starts_with(b"f ")).collect();
        for three in starts.windows(3).step_by(3) {
            let [single, doubled, end] = three.try_into().unwrap();
            let play = |lines: &[&[u8]]| {
                let mut played = Played::new(seed);
                lines.iter().for_each(|line| played.world.answer(line, &mut vec![]));
                (0..played.world.offices.len()).map(|k| played.office(k)).collect::<Vec<_>>()
            };
            assert_eq!(play(&lines[single..doubled]), play(&lines[doubled..end]));
        }
    }
}

#[test]
fn twice_is_once_on_every_sound_record() {
    let mut random = Random::new(7);
    let (mut done, mut swaps, mut differ) = (0, 0, 0);
    for _ in 0..40_000 {
        let family = Family::new(&mut random);
        let own = family.office(&mut random);
        let office = family.sample(&mut random, own);
        let mut message = || {
            let from = family.office(&mut random);
            family.sample(&mut random, from).message()
        };
        let (first, second) = (message(), message());
        done += usize::from(twice_is_once(&office, &first));
        // Outside the world the order may matter.
        if let Some((one, other)) = both_orders(&office, &first, &second) {
            swaps += 1;
            differ += usize::from(shared(&one) != shared(&other));
        }
    }
    assert!(done > 15_000 && swaps > 5000 && differ > 100, "{done} {swaps} {differ}");
}

#[test]
fn the_own_ballot_follows_the_first_to_arrive() {
    let run = |lines: &str| {
        let mut world = World::default();
        lines.lines().for_each(|line| world.answer(line.as_bytes(), &mut vec![]));
        world.offices[2].record.ballots
    };
    let begin = "f 3 40 35 25\ni 0 5 120\ni 1 5 130\ns 0 0\ns 1 1\n";
    let (first, second) = (run(&format!("{begin}t 2 0\nt 2 1")), run(&format!("{begin}t 2 1\nt 2 0")));
    assert_eq!(first[..2], second[..2]);
    assert_eq!((first[2], second[2]), (first[0], first[1]));
}

#[test]
fn a_message_again_behind_an_election_may_change_something() {
    // Case H: a settles, office 2's ballot c is lost, and d waits. Taken again, office 0's message gives office 2 a vote.
    let mut world = World::default();
    for line in ["f 3 40 30 30", "i 0 5 120", "s 0 0", "t 1 0", "s 1 1", "i 0 6 7", "s 0 2", "i 2 5 140"] {
        world.answer(line.as_bytes(), &mut vec![]);
    }
    let mut answers = vec![];
    for line in ["t 2 1", "t 2 2", "t 2 2", "e 2", "e 2", "t 2 2", "e 2"] {
        world.answer(line.as_bytes(), &mut answers);
    }
    assert_eq!(answers, b"t 0\nt 0\nt 0\ne 0 1\ne 0 0\nt 0\ne 0 1\n");
}
