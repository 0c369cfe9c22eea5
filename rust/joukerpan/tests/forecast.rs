//! Weights known within bounds: what is named, against every choice for few offices and small bounds, and against random
//! choices for large ones.

#[path = "../examples/service/dice.rs"]
mod dice;

use std::ops::RangeInclusive;

use dice::Dice;
use joukerpan::{Entry, Office, Refused};

type Bounds = Vec<RangeInclusive<u16>>;

/// Office 0 of n, with one entry in each ballot, or none, and a settled log.
fn office(weights: &[u16], votes: &[Option<Entry>], settled: &[Entry]) -> Office {
    let (mut record, mut log) = Office::found(0, weights).unwrap().into_parts();
    for (word, entry) in log.iter_mut().zip(settled) {
        *word = entry.value();
        record.summary.codes[usize::from(entry.line)] = u32::from(entry.code) + 1;
    }
    record.settled = settled.len() as u64;
    for (ballot, entry) in record.ballots.iter_mut().zip(votes) {
        if let Some(entry) = entry {
            ballot.len = 1;
            ballot.cells[0] = entry.value();
        }
    }
    Office::from_parts(record, log).unwrap()
}

/// An entry of an office, one of few, so that offices vote alike.
fn some_entry(n: usize, dice: &mut Dice) -> Entry {
    Entry { office: dice.below(n) as u8, line: 5, code: 120 + dice.below(2) as u16 }
}

fn some_office(n: usize, dice: &mut Dice) -> Office {
    let votes: Vec<_> = (0..n).map(|_| (dice.below(4) > 0).then(|| some_entry(n, dice))).collect();
    let settled: Vec<_> = (0..dice.below(4)).map(|_| some_entry(n, dice)).collect();
    office(&vec![1; n], &votes, &settled)
}

/// Entry e wins when T(e) > U and, for each other supported entry f, T(e) > T(f) + U, or T(e) = T(f) + U and
/// the office of e has fewer entries in the settled log than that of f, or as many and e the lower value.
fn wins(office: &Office, weights: &[u16], e: Entry) -> bool {
    let votes: Vec<Option<Entry>> = office.record().ballots[..weights.len()]
        .iter()
        .map(|ballot| (ballot.len > 0).then(|| Entry::from(ballot.cells[0])))
        .collect();
    let weight = |vote: Option<Entry>| -> u64 {
        votes.iter().zip(weights).filter(|(other, _)| **other == vote).map(|(_, &weight)| u64::from(weight)).sum()
    };
    let count = |f: Entry| office.settled().iter().filter(|&&word| Entry::from(word).office == f.office).count();
    let order = |f: Entry| (count(f), f.value());
    let unheard = weight(None);
    let mine = weight(Some(e));
    let beats = |f: Entry| {
        let theirs = weight(Some(f)) + unheard;
        mine > theirs || mine == theirs && order(e) < order(f)
    };
    votes.contains(&Some(e)) && mine > unheard && votes.iter().flatten().all(|&f| f == e || beats(f))
}

/// Every choice of weights within the bounds.
fn choices(bounds: &[RangeInclusive<u16>]) -> Vec<Vec<u16>> {
    let Some((first, rest)) = bounds.split_first() else { return vec![Vec::new()] };
    let rest = choices(rest);
    first.clone().flat_map(|weight| rest.iter().map(move |rest| [&[weight], &rest[..]].concat())).collect()
}

fn candidates(office: &Office) -> Vec<Entry> {
    let ballots = office.record().ballots.iter();
    ballots.filter(|ballot| ballot.len > 0).map(|ballot| Entry::from(ballot.cells[0])).collect()
}

#[test]
fn named_exactly_if_it_wins_under_every_choice() {
    let mut dice = Dice(31);
    let mut named = 0;
    for round in 0..6000 {
        let n = 1 + round % 4;
        let office = some_office(n, &mut dice);
        let bounds: Bounds = (0..n)
            .map(|_| {
                let low = dice.below(5) as u16;
                low..=low + dice.below(3) as u16
            })
            .collect();
        let all = choices(&bounds);
        let sure = candidates(&office).into_iter().find(|&e| all.iter().all(|choice| wins(&office, choice, e)));
        assert_eq!(office.forecast(&bounds), Ok(sure), "{office:?} {bounds:?}");
        named += usize::from(sure.is_some());
    }
    assert!(named > 600, "{named} were named");
}

/// A weight within the bounds, often at one of them.
fn some_weight(range: &RangeInclusive<u16>, dice: &mut Dice) -> u16 {
    let (low, high) = (usize::from(*range.start()), usize::from(*range.end()));
    match dice.below(3) {
        0 => low as u16,
        1 => high as u16,
        _ => (low + dice.below(high - low + 1)) as u16,
    }
}

/// The supporters of the entry lowest, all others highest.
fn worst(office: &Office, bounds: &[RangeInclusive<u16>], e: Entry) -> Vec<u16> {
    let supports = |place: usize| {
        let ballot = &office.record().ballots[place];
        ballot.len > 0 && Entry::from(ballot.cells[0]) == e
    };
    let weight =
        |(place, range): (usize, &RangeInclusive<u16>)| if supports(place) { *range.start() } else { *range.end() };
    bounds.iter().enumerate().map(weight).collect()
}

#[test]
fn large_bounds_against_random_choices() {
    let mut dice = Dice(32);
    let mut named = 0;
    for round in 0..4000 {
        let n = 1 + round % 8;
        let office = some_office(n, &mut dice);
        let bounds: Bounds = (0..n)
            .map(|_| {
                let low = dice.below(65_536);
                let part = 1 + dice.below(8);
                low as u16..=(low + dice.below(1 + (65_535 - low) / part)) as u16
            })
            .collect();
        match office.forecast(&bounds).unwrap() {
            Some(e) => {
                named += 1;
                for _ in 0..20 {
                    let choice: Vec<u16> = bounds.iter().map(|range| some_weight(range, &mut dice)).collect();
                    assert!(wins(&office, &choice, e), "{office:?} {bounds:?} {choice:?}");
                }
            }
            None => {
                let fails = |e: Entry| !wins(&office, &worst(&office, &bounds, e), e);
                assert!(candidates(&office).into_iter().all(fails), "{office:?} {bounds:?}");
            }
        }
    }
    assert!(named > 200, "{named} were named");
}

const A: Entry = Entry { office: 0, line: 5, code: 120 };
const B: Entry = Entry { office: 1, line: 5, code: 130 };
const C: Entry = Entry { office: 2, line: 5, code: 140 };
const D: Entry = Entry { office: 0, line: 6, code: 7 };
const WEIGHTS: [u16; 3] = [40, 35, 25];

#[test]
fn bounds_that_meet_are_the_election() {
    let mut dice = Dice(33);
    for round in 0..500 {
        let n = 1 + round % 8;
        let office = some_office(n, &mut dice);
        let bounds: Bounds = office.present().iter().map(|&weight| weight..=weight).collect();
        let mut elected = office.clone();
        let before = office.settled().len();
        elected.elect();
        let first = elected.settled().get(before).map(|&word| Entry::from(word));
        assert_eq!(office.forecast(&bounds), Ok(first));
    }
}

#[test]
fn a_tie_at_the_bound_goes_by_the_counts() {
    let votes = [Some(A), Some(B), Some(C)];
    let bounds = [40..=40, 35..=40, 25..=25];
    assert_eq!(office(&WEIGHTS, &votes, &[]).forecast(&bounds), Ok(Some(A)));
    assert_eq!(office(&WEIGHTS, &votes, &[D]).forecast(&bounds), Ok(None)); // at 40 and 40 it would be B's
    assert_eq!(office(&WEIGHTS, &votes, &[D]).forecast(&[41..=41, 35..=40, 25..=25]), Ok(Some(A)));
}

#[test]
fn a_total_of_zero_is_a_choice() {
    let agreed = office(&WEIGHTS, &[Some(A); 3], &[]);
    assert_eq!(agreed.forecast(&[0..=0, 0..=0, 0..=0]), Ok(None));
    assert_eq!(agreed.forecast(&[0..=65_535, 0..=65_535, 0..=65_535]), Ok(None));
    assert_eq!(agreed.forecast(&[0..=65_535, 0..=65_535, 1..=65_535]), Ok(Some(A)));
}

#[test]
#[allow(clippy::reversed_empty_ranges)] // bounds that do not fit are what is tried
fn bounds_past_the_last_office_are_not_looked_at() {
    let agreed = office(&WEIGHTS, &[Some(A); 3], &[]);
    assert_eq!(agreed.forecast(&[1..=2, 0..=2, 0..=2, 9..=0]), Ok(Some(A)));
    assert_eq!(agreed.forecast(&vec![1..=2; 20]), Ok(Some(A)));
    for place in 0..3 {
        let mut bounds = vec![1..=2; 8];
        bounds[place] = 2..=1;
        assert_eq!(agreed.forecast(&bounds), Err(Refused::NoWeights));
        bounds[place] = 2..=2;
        assert_eq!(agreed.forecast(&bounds), Ok(Some(A)));
    }
    assert_eq!(agreed.forecast(&[1..=1]), Ok(Some(A))); // the others may have any weight
}
