//! Even votes go to the quieter office: document 02's request (iii), worked by hand.

mod common;

use common::*;
use second::elect::elect;
use second::record::*;

/// What is settled over this log.
fn elected(weights: &[u16], settled: &[u32], ballots: &[(usize, &[u32])]) -> Vec<u32> {
    let mut kept = log(settled);
    let (number, count, after) = elect(record(0, weights, settled, ballots), &mut kept);
    assert_eq!((number, after.held()), (DONE, settled.len() + count));
    assert!(sound(&after, &kept));
    kept[settled.len()..after.held()].to_vec()
}

/// Weights 50, 50, 0; 0:a 1:b.
fn case_e(settled: &[u32]) -> Vec<u32> {
    elected(&[50, 50, 0], settled, &[(0, &[A]), (1, &[B])])
}

#[test]
fn case_e_still_holds_from_an_empty_log() {
    assert_eq!(case_e(&[]), [A]);
}

#[test]
fn fewer_entries_then_the_lower_value() {
    // One entry of office 0: office 1 wins.
    assert_eq!(case_e(&[A]), [B]);
    assert_eq!(case_e(&[D]), [B]);
    assert_eq!(case_e(&[B]), [A]);
    // As many of each: the lower value. Those of office 2 don't count.
    assert_eq!(case_e(&[A, B]), [A]);
    assert_eq!(case_e(&[B, D]), [A]);
    assert_eq!(case_e(&[C, C, C]), [A]);
    assert_eq!(case_e(&[A, C, B, D]), [B]);
    assert_eq!(case_e(&[B, B, D]), [A]);
    // A move is an entry like another, without effect too.
    assert_eq!(case_e(&[entry(0, 64, 1)]), [B]);
    assert_eq!(case_e(&[entry(0, 66, 9999)]), [B]);
    assert_eq!(case_e(&[entry(1, 65, 1)]), [A]);
}

#[test]
fn the_entrys_office_and_not_the_voter() {
    let over = |settled: &[u32]| elected(&[50, 50, 0], settled, &[(0, &[B]), (1, &[A])]);
    assert_eq!((over(&[]), over(&[A]), over(&[B])), (vec![A], vec![B], vec![A]));
}

#[test]
fn two_entries_of_one_office() {
    for settled in [&[][..], &[A], &[B], &[A, A]] {
        assert_eq!(elected(&[50, 50], settled, &[(0, &[D]), (1, &[A])]), [A]);
    }
}

#[test]
fn tails_and_lines_are_not_counted() {
    assert_eq!(elected(&[50, 50], &[], &[(0, &[A, D, D]), (1, &[B])]), [A]);
    assert_eq!(elected(&[50, 50], &[D], &[(0, &[A]), (1, &[B, B, B])]), [B]);
    let often = [entry(2, 7, 1), entry(2, 7, 2), entry(0, 8, 1)];
    let (eight, seven) = ([entry(0, 8, 2)], [entry(1, 7, 3)]);
    assert_eq!(elected(&[50, 50, 0], &often, &[(0, &eight), (1, &seven)]), seven);
}

#[test]
fn three_ways() {
    let over = |settled: &[u32]| elected(&[1, 1, 1], settled, &[(0, &[A]), (1, &[B]), (2, &[C])]);
    assert_eq!((over(&[]), over(&[A]), over(&[A, B])), (vec![A], vec![B], vec![C]));
    assert_eq!((over(&[C]), over(&[B, C, A]), over(&[A, B, C, A, C])), (vec![A], vec![A], vec![B]));
}

#[test]
fn level_once_u_is_added() {
    // 60 against 40 and 20 unheard: the heavier wins only if its office is the quieter one, or the lower at even counts.
    let over = |settled: &[u32]| elected(&[60, 40, 20], settled, &[(0, &[B]), (1, &[A])]);
    assert_eq!((over(&[]), over(&[B]), over(&[A])), (vec![], vec![], vec![B]));
    let over = |settled: &[u32]| elected(&[60, 40, 20], settled, &[(0, &[A]), (1, &[B])]);
    assert_eq!((over(&[]), over(&[B]), over(&[A])), (vec![A], vec![A], vec![]));
}

#[test]
fn counts_are_those_of_the_log_at_each_step() {
    // All agree on d of office 0; behind it office 1 has fewer entries.
    assert_eq!(elected(&[50, 50], &[], &[(0, &[D, A]), (1, &[D, B])]), [D, B]);
    assert_eq!(elected(&[50, 50], &[B], &[(0, &[D, A]), (1, &[D, B])]), [D, A]);
    // Two ties in one call. First 50 for the move against 50 for c, and office 1's number is the lower. The move makes
    // the weights 50, 25, 25: then 50 against 25 and 25 unheard, and office 1 has an entry now.
    let first = entry(1, 64, 25);
    let over = |x: u32, y: u32| elected(&[25, 50, 25], &[], &[(0, &[first, x]), (1, &[C]), (2, &[first, y])]);
    assert_eq!(over(C, B), [first, C]);
    assert_eq!(over(B, C), [first]);
    assert_eq!(over(A, C), [first, A]);
    assert_eq!(over(C, A), [first]);
}

#[test]
fn counts_of_long_logs() {
    for (of_0, of_1, winner) in [(256, 0, B), (0, 256, A), (256, 255, B), (256, 256, A), (257, 1, B), (511, 512, A)] {
        let settled = [vec![D; of_0], vec![B; of_1]].concat();
        assert_eq!(case_e(&settled), [winner], "{of_0} {of_1}");
    }
    assert_eq!(case_e(&[D; 1023]), [B]);
}
