//! How the next place stands: candidates, weights, and whose vote is missing.

use joukerpan::{Ballot, Candidate, Entry, NextPlace, Office, TAIL};

const WEIGHTS: [u16; 3] = [40, 35, 25];
const A: Entry = Entry { office: 0, line: 5, code: 120 };
const B: Entry = Entry { office: 1, line: 5, code: 130 };
const C: Entry = Entry { office: 2, line: 5, code: 140 };
const D: Entry = Entry { office: 0, line: 6, code: 7 };

/// How office 0 of these weights stands, with an empty log and these ballots.
fn standing(weights: &[u16], ballots: &[&[Entry]]) -> NextPlace {
    let (mut record, log) = Office::found(0, weights).unwrap().into_parts();
    for (ballot, tail) in record.ballots.iter_mut().zip(ballots) {
        let mut cells = [0; TAIL];
        cells.iter_mut().zip(*tail).for_each(|(cell, entry)| *cell = entry.value());
        *ballot = Ballot { len: tail.len(), cells };
    }
    Office::from_parts(record, log).unwrap().standing()
}

/// A standing with these candidates.
fn next(candidates: &[(Entry, u32)], unheard: u32, silent: &[usize]) -> NextPlace {
    let candidates = candidates.iter().map(|&(entry, weight)| Candidate { entry, weight }).collect();
    NextPlace { candidates, unheard, silent: silent.to_vec() }
}

#[test]
fn the_papers_ballots() {
    assert_eq!(standing(&WEIGHTS, &[]), next(&[], 100, &[0, 1, 2]));
    assert_eq!(standing(&WEIGHTS, &[&[A]]), next(&[(A, 40)], 60, &[1, 2]));
    assert_eq!(standing(&WEIGHTS, &[&[A], &[], &[A]]), next(&[(A, 65)], 35, &[1]));
    assert_eq!(standing(&WEIGHTS, &[&[A], &[B]]), next(&[(A, 40), (B, 35)], 25, &[2]));
    assert_eq!(standing(&WEIGHTS, &[&[A], &[B], &[C]]), next(&[(A, 40), (B, 35), (C, 25)], 0, &[]));
    assert_eq!(standing(&[40, 30, 30], &[&[A, D], &[A], &[C]]), next(&[(A, 70), (C, 30)], 0, &[]));
}

#[test]
fn eight_offices() {
    let entries: Vec<[Entry; 1]> = (0..8).map(|office| [Entry { office, line: 63, code: 9999 }]).collect();
    let ballots: Vec<&[Entry]> = entries.iter().map(|tail| &tail[..]).collect();
    let rows: Vec<(Entry, u32)> = entries.iter().map(|tail| (tail[0], 65_535)).collect();
    assert_eq!(standing(&[65_535; 8], &ballots), next(&rows, 0, &[]));
    assert_eq!(standing(&[65_535; 8], &[]), next(&[], 8 * 65_535, &[0, 1, 2, 3, 4, 5, 6, 7]));
}

#[test]
fn the_vote_of_an_office_that_is_away_is_missing() {
    let [mut zero, mut one, mut two] = [0, 1, 2].map(|own| Office::found(own, &WEIGHTS).unwrap());
    zero.issue(5, 120).unwrap();
    one.issue(5, 130).unwrap();
    zero.take(&one.message()).unwrap();
    zero.elect();
    assert_eq!(zero.standing(), next(&[(A, 40), (B, 35)], 25, &[2]));

    two.take(&one.message()).unwrap(); // office 2 is back, and votes for office 1's edit
    let outcome = zero.take(&two.message()).unwrap().then(zero.elect());
    assert_eq!((outcome.lost, outcome.grown), (vec![A], 1));
    assert_eq!(zero.standing(), next(&[], 100, &[0, 1, 2]));
}

#[test]
fn an_office_without_weight_holds_nothing_up() {
    let [mut zero, mut one, mut two] = [0, 1, 2].map(|own| Office::found(own, &WEIGHTS).unwrap());
    two.move_weight(0, 25).unwrap(); // before it goes away
    zero.take(&two.message()).unwrap();
    assert_eq!(zero.elect().grown, 1);
    one.take(&zero.message()).unwrap();
    zero.issue(5, 120).unwrap();
    one.issue(5, 130).unwrap();
    zero.take(&one.message()).unwrap();
    assert_eq!(zero.standing(), next(&[(A, 65), (B, 35)], 0, &[2]));
    assert_eq!((zero.elect().settled, zero.settled_frame(5)), (1, Ok(Some(120))));
}
