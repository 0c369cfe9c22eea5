//! How the next place stands: document 01's cases, and what a standing says on random records.

mod common;

use common::*;
use second::elect::elect_step;
use second::random::Random;
use second::record::*;
use second::samples::{break_one, Family, Sample};
use second::standing::{standing, Standing};

/// The rows, U, and the offices that are unheard; all else is zero.
fn stands(office: &Sample) -> (Vec<(u32, u32)>, u32, Vec<usize>) {
    let (number, Standing { rows, unheard, entries, tallies, silent }) = standing(&office.record, &office.log);
    assert_eq!(number, DONE);
    assert!(entries[rows..].iter().chain(&tallies[rows..]).all(|&word| word == 0));
    assert!(silent.iter().all(|&mark| mark <= 1));
    let silent = (0..OFFICES).filter(|&k| silent[k] == 1).collect();
    (entries.into_iter().zip(tallies).take(rows).collect(), unheard, silent)
}

#[test]
fn the_paper_s_ballots() {
    let of = |weights: &[u16], ballots: &[(usize, &[u32])]| stands(&Sample::new(0, weights, &[], ballots));
    assert_eq!(of(&WEIGHTS, &[]), (vec![], 100, vec![0, 1, 2]));
    assert_eq!(of(&WEIGHTS, &[(0, &[A])]), (vec![(A, 40)], 60, vec![1, 2]), "A");
    assert_eq!(of(&WEIGHTS, &[(0, &[A]), (2, &[A])]), (vec![(A, 65)], 35, vec![1]), "B");
    assert_eq!(of(&WEIGHTS, &[(0, &[A]), (1, &[B])]), (vec![(A, 40), (B, 35)], 25, vec![2]), "C");
    let d: [(usize, &[u32]); 3] = [(0, &[A]), (1, &[B]), (2, &[C])];
    assert_eq!(of(&WEIGHTS, &d), (vec![(A, 40), (B, 35), (C, 25)], 0, vec![]), "D");
    assert_eq!(of(&WEIGHTS, &[(0, &[A, D]), (2, &[A, D])]), (vec![(A, 65)], 35, vec![1]), "G");
    let h: [(usize, &[u32]); 3] = [(0, &[A, D]), (1, &[A]), (2, &[C])];
    assert_eq!(of(&[40, 30, 30], &h), (vec![(A, 70), (C, 30)], 0, vec![]), "H");
    let office = Sample::new(0, &[40, 30, 30], &[A], &[(0, &[D])]);
    assert_eq!(stands(&office), (vec![(D, 40)], 60, vec![1, 2]), "H behind its first step");
    assert_eq!(stands(&Sample::new(1, &WEIGHTS, &[A], &[])), (vec![], 100, vec![0, 1, 2]), "I behind its take");
}

#[test]
fn rows_in_the_order_of_the_lowest_office() {
    let office = Sample::new(3, &[1, 2, 4, 8, 16, 32, 64, 128], &[], &[(1, &[C, A]), (2, &[A]), (5, &[C]), (7, &[B])]);
    assert_eq!(stands(&office), (vec![(C, 34), (A, 4), (B, 128)], 1 + 8 + 16 + 64, vec![0, 3, 4, 6]));
    let all: Vec<(usize, [u32; 1])> = (0..8).map(|k| (k, [entry(k, 0, 0)])).collect();
    let all: Vec<(usize, &[u32])> = all.iter().map(|(k, tail)| (*k, &tail[..])).collect();
    let rows = (0..8).map(|k| (entry(k, 0, 0), 65535)).collect();
    assert_eq!(stands(&Sample::new(0, &[65535; 8], &[], &all)), (rows, 0, vec![]), "eight rows");
    assert_eq!(stands(&Sample::new(0, &[65535; 8], &[], &[])).1, 8 * 65535, "all unheard");
}

#[test]
fn present_weights_count() {
    let moved = Sample::new(0, &WEIGHTS, &[entry(2, 64, 25)], &[(0, &[A]), (2, &[B])]);
    assert_eq!(stands(&moved), (vec![(A, 65), (B, 0)], 35, vec![1]));
    let (unsound, nothing) = (Record { present: [40, 35, 25, 0, 0, 0, 0, 0], ..moved.record }, Standing::default());
    assert_eq!(standing(&unsound, &moved.log), (UNSOUND, nothing));
    assert_eq!(standing(&moved.record, &moved.log[..1023]), (UNSOUND, nothing));
}

/// The entry that wins by a standing and the settled entries of each office: document 01's rule with the tie order of its
/// day, over rows.
fn winner(office: &Sample, rows: &[(u32, u32)], unheard: u32) -> Option<u32> {
    let entries = |e: u32| {
        let settled = office.log[..office.record.held()].iter().filter(|&&word| word >> 24 == e >> 24).count();
        (office.record.kept.counts[(e >> 24) as usize] + settled as u64, e)
    };
    let beats = |(e, t): (u32, u32), (f, other): (u32, u32)| {
        e == f || t > other + unheard || t == other + unheard && entries(e) < entries(f)
    };
    let wins = |row: (u32, u32)| row.1 > unheard && rows.iter().all(|&other| beats(row, other));
    rows.iter().copied().find(|&row| wins(row)).map(|(e, _)| e)
}

#[test]
fn the_standing_decides_the_first_step() {
    let mut random = Random::new(5);
    let (mut settled, mut open, mut contested) = (0, 0, 0);
    for _ in 0..40_000 {
        let family = Family::new(&mut random);
        let own = family.office(&mut random);
        let office = family.sample(&mut random, own);
        let (rows, unheard, silent) = stands(&office);
        let total: u32 = office.record.weights.iter().map(|&weight| u32::from(weight)).sum();
        assert_eq!(rows.iter().map(|row| row.1).sum::<u32>() + unheard, total);
        let none = |&k: &usize| office.record.ballots[k].len == 0;
        assert_eq!(silent, (0..office.record.n).filter(none).collect::<Vec<_>>());
        let mut log = office.log.clone();
        let (_, count, after) = elect_step(office.record, &mut log);
        let first = (count > 0).then(|| log[after.held() - 1]);
        assert_eq!(first, winner(&office, &rows, unheard));
        let leading = rows.iter().map(|row| row.1).max().unwrap_or(0);
        assert!(first.is_none_or(|e| rows.contains(&(e, leading))), "the winner leads");
        settled += count;
        open += usize::from(count == 0 && !rows.is_empty());
        contested += usize::from(count > 0 && rows.len() > 1);
    }
    assert!(settled > 5000 && open > 5000 && contested > 1000, "{settled} {open} {contested}");
}

#[test]
fn refused_on_every_unsound_record() {
    let mut random = Random::new(6);
    for _ in 0..5000 {
        let family = Family::new(&mut random);
        let own = family.office(&mut random);
        let mut office = family.sample(&mut random, own);
        break_one(&mut random, &mut office);
        let refused = !sound(&office.record, &office.log);
        let (number, told) = standing(&office.record, &office.log);
        assert_eq!(number == UNSOUND, refused);
        assert!(!refused || told == Standing::default());
    }
}
