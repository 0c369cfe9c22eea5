//! Weights known within bounds: document 02's request (xii), worked by hand, and by trying every choice of weights.

mod common;

use common::*;
use second::elect::elect_step;
use second::forecast::forecast;
use second::random::Random;
use second::record::*;
use second::samples::{any_bounds, Family, Sample};

/// Bounds of these offices, 9 and 3 past them: they aren't looked at.
fn eight(given: &[u16], past: u16) -> [u16; 8] {
    std::array::from_fn(|office| given.get(office).copied().unwrap_or(past))
}

/// What is named over this log with these ballots of three offices.
fn named(settled: &[u32], ballots: &[(usize, &[u32])], lowest: [u16; 3], highest: [u16; 3]) -> Option<u32> {
    let office = record(1, &WEIGHTS, settled, ballots);
    let (number, named) = forecast(&office, &log(settled), eight(&lowest, 9), eight(&highest, 3));
    assert_eq!(number, DONE);
    named
}

#[test]
fn bounds_that_meet() {
    // Cases A to E, by the paper's weights whatever the record's are.
    assert_eq!(named(&[], &[(0, &[A])], WEIGHTS, WEIGHTS), None);
    assert_eq!(named(&[], &[(0, &[A]), (2, &[A])], WEIGHTS, WEIGHTS), Some(A));
    assert_eq!(named(&[], &[(0, &[A]), (1, &[B])], WEIGHTS, WEIGHTS), None);
    assert_eq!(named(&[], &[(0, &[A]), (1, &[B]), (2, &[C])], WEIGHTS, WEIGHTS), Some(A));
    assert_eq!(named(&[], &[(0, &[A]), (1, &[B])], [50, 50, 0], [50, 50, 0]), Some(A));
    assert_eq!(named(&[A], &[(0, &[A]), (1, &[B])], [50, 50, 0], [50, 50, 0]), Some(B));
    assert_eq!(named(&[], &[(0, &[A]), (1, &[B])], [0, 1, 0], [0, 1, 0]), Some(B));
}

#[test]
fn bounds_with_room() {
    let two: &[(usize, &[u32])] = &[(0, &[A]), (1, &[B])];
    assert_eq!(named(&[], two, [60, 0, 0], [99, 40, 20]), Some(A));
    assert_eq!(named(&[], two, [59, 0, 0], [99, 40, 20]), None);
    // Level at the bound: by the counts of the log, then by value.
    assert_eq!(named(&[D], two, [60, 0, 0], [99, 40, 20]), None);
    assert_eq!(named(&[D], two, [61, 0, 0], [99, 40, 20]), Some(A));
    assert_eq!(named(&[], two, [0, 60, 0], [40, 99, 20]), None);
    assert_eq!(named(&[D], two, [0, 60, 0], [40, 99, 20]), Some(B));
    // All supporters at their lowest together.
    assert_eq!(named(&[], &[(0, &[A]), (1, &[A])], [10, 11, 0], [99, 99, 20]), Some(A));
    assert_eq!(named(&[], &[(0, &[A]), (1, &[A])], [10, 10, 0], [99, 99, 20]), None);
    // Any weights at all; a total of zero is a choice, and nothing wins by it.
    let all: &[(usize, &[u32])] = &[(0, &[A]), (1, &[A]), (2, &[A])];
    assert_eq!(named(&[], all, [0; 3], [u16::MAX; 3]), None);
    assert_eq!(named(&[], all, [0; 3], [0; 3]), None);
    assert_eq!(named(&[], all, [0, 1, 0], [u16::MAX; 3]), Some(A));
    assert_eq!(named(&[], &[], [1; 3], [u16::MAX; 3]), None);
}

#[test]
fn what_is_refused() {
    let office = record(1, &WEIGHTS, &[], &[(0, &[A]), (2, &[A])]);
    let given = |lowest: &[u16], highest: &[u16]| forecast(&office, &log(&[]), eight(lowest, 9), eight(highest, 3));
    assert_eq!(given(&[40, 35, 25], &[40, 35, 25]), (DONE, Some(A)));
    for lowest in [[41, 35, 25], [40, 36, 25], [40, 35, 26]] {
        assert_eq!(given(&lowest, &[40, 35, 25]), (NO_BOUNDS, None));
    }
    let unsound = Record { own: 3, ..office };
    assert_eq!(forecast(&unsound, &log(&[]), [1; 8], [0; 8]), (UNSOUND, None));
}

/// The first winner under these weights, by an election step of the same ballots and log.
fn winner(sample: &Sample, weights: [u16; 8]) -> Option<u32> {
    let Sample { mut record, mut log } = sample.clone();
    // Moves of the log would change the weights: the same entries as edits, so that the counts stay.
    for word in &mut log[..record.held()] {
        *word = entry(office_of(*word), 0, 0);
    }
    (record.weights, record.kept.present) = (weights, weights);
    let mut sample = Sample { record, log };
    sample.derive();
    if !sound(&sample.record, &sample.log) {
        return None; // a total of zero: nothing is above it
    }
    let held = sample.record.held();
    let (number, count, _) = elect_step(sample.record, &mut sample.log);
    assert_eq!(number, DONE);
    (count == 1).then(|| sample.log[held])
}

/// Every choice of weights for the first n offices, lowest first.
fn choices(lowest: &[u16], highest: &[u16]) -> Vec<[u16; 8]> {
    let mut all = vec![[0; 8]];
    for (office, (&low, &high)) in lowest.iter().zip(highest).enumerate() {
        let with = |weight: u16| {
            all.iter().map(move |&(mut choice)| {
                choice[office] = weight;
                choice
            })
        };
        all = (low..=high).flat_map(with).collect();
    }
    all
}

#[test]
fn an_entry_is_named_exactly_if_it_wins_under_every_choice() {
    let mut random = Random::new(1);
    let (mut some, mut none, mut tried) = (0, 0, 0);
    while tried < 6000 {
        let family = Family::new(&mut random);
        let own = family.office(&mut random);
        let sample = family.sample(&mut random, own);
        let n = sample.record.n;
        if n > 4 {
            continue;
        }
        tried += 1;
        let lowest: Vec<u16> = (0..n).map(|_| random.below(4) as u16).collect();
        let highest: Vec<u16> = lowest.iter().map(|&low| low + random.below(3) as u16).collect();
        let (number, named) = forecast(&sample.record, &sample.log, eight(&lowest, 9), eight(&highest, 3));
        assert_eq!(number, DONE);
        let winners: Vec<Option<u32>> =
            choices(&lowest, &highest).iter().map(|&choice| winner(&sample, choice)).collect();
        let always = winners[0].filter(|first| winners.iter().all(|&winner| winner == Some(*first)));
        assert_eq!(named, always);
        some += usize::from(named.is_some());
        none += usize::from(named.is_none());
    }
    assert!(some > 500 && none > 500, "{some} {none}");
}

#[test]
fn what_is_named_wins_under_random_choices_and_bounds_that_meet_are_an_election() {
    let mut random = Random::new(2);
    let mut seen = 0;
    for _ in 0..20_000 {
        let family = Family::new(&mut random);
        let own = family.office(&mut random);
        let sample = family.sample(&mut random, own);
        let n = sample.record.n;
        let (lowest, highest) = any_bounds(&mut random, &sample.record);
        let (number, named) = forecast(&sample.record, &sample.log, lowest, highest);
        let wrong = (0..n).any(|office| lowest[office] > highest[office]);
        assert_eq!(number, if wrong { NO_BOUNDS } else { DONE });
        if wrong {
            assert_eq!(named, None);
            continue;
        }
        let mut choice = [0; 8];
        for office in 0..n {
            let any = random.within(lowest[office].into(), highest[office].into()) as u16;
            choice[office] = random.pick(&[lowest[office], highest[office], any]);
        }
        if named.is_some() {
            assert_eq!(winner(&sample, choice), named);
            seen += 1;
        }
        assert_eq!(forecast(&sample.record, &sample.log, choice, choice), (DONE, winner(&sample, choice)));
    }
    assert!(seen > 2000, "{seen}");
}
