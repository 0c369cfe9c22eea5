//! Folding: nothing that is read changes, one order stays behind all offices, and the frame outlasts its log.

#[path = "../examples/service/dice.rs"]
mod dice;

use dice::Dice;
use joukerpan::{Household, Office, Outcome, Refused, LINES, LOG, TAIL};

/// An office with the entries that it has dropped, which nothing but the tests knows.
struct Whole {
    office: Office,
    dropped: Vec<u32>,
}

impl Whole {
    fn new(own: usize, weights: &[u16]) -> Whole {
        Whole { office: Office::found(own, weights).unwrap(), dropped: vec![] }
    }

    /// The settled log, dropped entries included.
    fn log(&self) -> Vec<u32> {
        [&self.dropped, self.office.settled()].concat()
    }

    /// Notes what a call has dropped, of the words that were settled before it.
    fn note(&mut self, before: &[u32]) {
        let gone = self.office.dropped() as usize - self.dropped.len();
        self.dropped.extend(&before[..gone]);
        assert_eq!(self.office.settled_length() as usize, self.log().len());
    }

    fn take(&mut self, message: &[u8]) -> Result<Outcome, Refused> {
        let before = self.office.settled().to_vec();
        let taken = self.office.take(message);
        self.note(&before);
        taken
    }

    fn fold(&mut self) -> u64 {
        let (before, whole) = (self.office.settled().to_vec(), self.log());
        let read = reads(&self.office);
        let count = self.office.fold().dropped;
        self.note(&before);
        assert_eq!((self.log(), reads(&self.office)), (whole, read), "nothing that is read changes");
        count
    }
}

/// All that is read of an office apart from its settled words.
fn reads(office: &Office) -> impl PartialEq + std::fmt::Debug {
    let households: Vec<Household> = (0..64).map(|line| Household { line, weight: 1 << (line / 2) }).collect();
    let tentative: Vec<_> = (0..LINES).map(|line| office.tentative_frame(line)).collect();
    let sheet: Vec<_> = office.sheet(&Household::to_bytes(&households)).unwrap().iter().copied().collect();
    let bounds = office.present().iter().map(|&weight| weight..=weight.saturating_add(1)).collect::<Vec<_>>();
    (office.frame(), tentative, office.present().to_vec(), office.vectors(), sheet, office.forecast(&bounds))
}

#[test]
fn one_order_is_behind_all_offices() {
    let mut dice = Dice(31);
    let (mut dropped, mut inside) = (0, 0);
    for _ in 0..60 {
        let weights: Vec<u16> = (0..1 + dice.below(4)).map(|_| 1 + dice.below(9) as u16).collect();
        let n = weights.len();
        let mut offices: Vec<Whole> = (0..n).map(|own| Whole::new(own, &weights)).collect();
        let mut sent = vec![offices[0].office.message()];
        for _ in 0..200 {
            let at = dice.below(n);
            let whole = &mut offices[at];
            if dice.below(3) == 0 && whole.office.pending().len() < TAIL / n {
                whole.office.issue(dice.below(5) as u32, dice.below(3) as u32).unwrap();
            }
            match whole.take(&sent[dice.below(sent.len())]) {
                Ok(_) | Err(Refused::OwnMessage) => {}
                refused => {
                    assert_eq!(refused, Err(Refused::EndsInside));
                    inside += 1;
                }
            }
            whole.office.elect();
            if dice.below(3) == 0 {
                dropped += whole.fold();
            }
            whole.office = Office::from_bytes(&whole.office.to_bytes()).unwrap();
            sent.push(whole.office.message());
        }
        let order = offices.iter().map(Whole::log).max_by_key(Vec::len).unwrap();
        assert!(offices.iter().all(|whole| order.starts_with(&whole.log())));
    }
    assert!(dropped > 300 && inside > 300, "{dropped} {inside}");
}

#[test]
fn a_full_log_has_room_again_once_all_are_heard_of() {
    let [mut zero, mut one, mut two] = [0, 1, 2].map(|own| Office::found(own, &[100, 1, 1]).unwrap());
    for code in 0..LOG as u32 {
        zero.issue(code % 64, code).unwrap();
        assert_eq!(zero.elect().grown, 1);
    }
    assert_eq!((zero.issue(5, 120), zero.fold().dropped), (Err(Refused::LogFull), 0));
    one.take(&zero.message()).unwrap();
    zero.take(&one.message()).unwrap();
    assert_eq!((zero.fold().dropped, zero.issue(5, 120)), (0, Err(Refused::LogFull))); // office 2 was never heard of
    two.take(&zero.message()).unwrap();
    zero.take(&two.message()).unwrap();
    assert_eq!((zero.fold().dropped, zero.issue(5, 120), zero.elect().grown), (LOG as u64, Ok(()), 1));
    assert_eq!((zero.settled_length(), zero.settled().len()), (1025, 1));

    assert_eq!(one.dropped(), 0);
    one.take(&zero.message()).unwrap(); // drops what office 0 had dropped
    assert_eq!((one.settled_length(), one.dropped(), one.settled()), (1025, 1024, zero.settled()));
    assert_eq!(one.frame(), zero.frame());
}

#[test]
fn messages_that_begin_past_or_end_inside() {
    let mut alone = Office::found(0, &[1, 0]).unwrap();
    let first = alone.message();
    for code in [120, 130] {
        alone.issue(5, code).unwrap();
        alone.elect();
    }
    let mut other = Office::found(1, &[1, 0]).unwrap();
    other.take(&alone.message()).unwrap();
    alone.take(&other.message()).unwrap();
    assert_eq!(alone.fold().dropped, 2);
    other.take(&alone.message()).unwrap();
    assert_eq!(other.take_with_places(&first), (Err(Refused::EndsInside), 0)); // an old message

    let mut again = Office::found(1, &[1, 0]).unwrap(); // founded again, as none should be
    assert_eq!(again.take_with_places(&alone.message()), (Err(Refused::BeginsPast), 0));
}

#[test]
fn earlier_places_of_a_folded_log() {
    let mut office = Office::found(0, &[1]).unwrap();
    for (line, code) in [(5, 120), (6, 7), (5, 130)] {
        office.issue(line, code).unwrap();
    }
    assert_eq!((office.elect().grown, office.fold().dropped), (3, 3));
    office.issue(7, 9).unwrap();
    office.elect();
    let at = |p, lines: &[u32]| office.frame_at(p, lines).map(|earlier| (earlier.edits().to_vec(), earlier.words()));
    assert_eq!(at(4, &[7]), Ok((vec![Some(9)], 1)));
    assert_eq!(at(4, &[5, 6, 8]), Ok((vec![Some(130), Some(7), None], 1)));
    assert_eq!(at(3, &[5, 7]), Ok((vec![Some(130), None], 0)));
    assert_eq!((at(2, &[5]), at(2, &[])), (Err(Refused::NoPlace), Err(Refused::NoPlace)));
    assert_eq!(at(5, &[5]), Err(Refused::NoPlace));
}
