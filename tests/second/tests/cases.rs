//! Document 01's cases A to L, and the further cases that these miss.

mod common;

use common::*;
use second::elect::{elect, elect_step};
use second::record::*;

/// Elects from an empty log: the count, the settled log, and the record's ballots.
fn elected(weights: &[u16], ballots: &[(usize, &[u32])]) -> (usize, Vec<u32>, Record) {
    let mut log = log(&[]);
    let (number, count, after) = elect(record(0, weights, &[], ballots), &mut log);
    assert_eq!(number, DONE);
    assert_eq!(after.held(), count);
    assert!(log[count..].iter().all(|&word| word == 0xDEAD_BEEF));
    (count, log[..count].to_vec(), after)
}

#[test]
fn a_alone_does_not_settle() {
    let (count, _, after) = elected(&WEIGHTS, &[(0, &[A])]);
    assert_eq!((count, after.ballots[0]), (0, ballot(&[A])));
}

#[test]
fn b_two_offices_settle() {
    let (count, settled, after) = elected(&WEIGHTS, &[(0, &[A]), (2, &[A])]);
    assert_eq!((count, settled), (1, vec![A]));
    assert_eq!(after.ballots, [Ballot::NONE; OFFICES]);
}

#[test]
fn c_the_unheard_could_turn_it() {
    assert_eq!(elected(&WEIGHTS, &[(0, &[A]), (1, &[B])]).0, 0);
}

#[test]
fn d_three_ways() {
    let (count, settled, after) = elected(&WEIGHTS, &[(0, &[A]), (1, &[B]), (2, &[C])]);
    assert_eq!((count, settled), (1, vec![A]));
    assert_eq!(after.ballots, [Ballot::NONE; OFFICES]);
}

#[test]
fn e_tie_from_an_empty_log() {
    let (count, settled, _) = elected(&[50, 50, 0], &[(0, &[A]), (1, &[B])]);
    assert_eq!((count, settled), (1, vec![A]));
}

#[test]
fn f_half_is_not_enough() {
    assert_eq!(elected(&[50, 50], &[(0, &[A])]).0, 0);
}

#[test]
fn g_two_steps() {
    let (count, settled, _) = elected(&WEIGHTS, &[(0, &[A, D]), (2, &[A, D])]);
    assert_eq!((count, settled), (2, vec![A, D]));
    let (number, count, after) = elect_step(record(0, &WEIGHTS, &[], &[(0, &[A, D]), (2, &[A, D])]), &mut log(&[]));
    assert_eq!((number, count, after.ballots[2]), (DONE, 1, ballot(&[D])));
}

#[test]
fn h_a_reset_office_is_unheard() {
    let (count, settled, after) = elected(&[40, 30, 30], &[(0, &[A, D]), (1, &[A]), (2, &[C])]);
    assert_eq!((count, settled), (1, vec![A]));
    assert_eq!(after.ballots[..3], [ballot(&[D]), Ballot::NONE, Ballot::NONE]);
}

#[test]
fn i_growing_drops_a_differing_ballot() {
    let sent = message(&record(2, &WEIGHTS, &[A], &[]), &log(&[A]));
    let mut kept = log(&[]);
    let (number, after) = take(record(1, &WEIGHTS, &[], &[(1, &[B])]), &mut kept, &sent);
    assert_eq!((number, after), (DONE, record(1, &WEIGHTS, &[A], &[])));
    assert_eq!(kept, log(&[A]));
}

#[test]
fn j_and_k_the_shorter_log_counts_and_twice_is_once() {
    let sent = message(&record(0, &WEIGHTS, &[], &[(0, &[A, D])]), &log(&[]));
    let mut kept = log(&[A]);
    let (number, after) = take(record(1, &WEIGHTS, &[A], &[]), &mut kept, &sent);
    let expected = record(1, &WEIGHTS, &[A], &[(0, &[D]), (1, &[D])]);
    assert_eq!((number, after), (DONE, expected));
    assert_eq!(take(after, &mut kept, &sent), (DONE, expected));
    assert_eq!(kept, log(&[A]));
}

#[test]
fn l_parted_logs() {
    let sent = message(&record(0, &WEIGHTS, &[B], &[]), &log(&[B]));
    let before = record(1, &WEIGHTS, &[A], &[(1, &[D])]);
    let mut kept = log(&[A]);
    assert_eq!(take(before, &mut kept, &sent), (LOGS_PART, before));
    assert_eq!(kept, log(&[A]));
}

/// Takes a message of office 0 with these ballots at office 1 with those, both over the same log.
fn taken(settled: &[u32], theirs: &[(usize, &[u32])], ours: &[(usize, &[u32])]) -> Record {
    let sent = message(&record(0, &WEIGHTS, settled, theirs), &log(settled));
    let (number, after) = take(record(1, &WEIGHTS, settled, ours), &mut log(settled), &sent);
    assert_eq!(number, DONE);
    after
}

#[test]
fn counts_by_office_do_not_compare_paths() {
    // d, a has an entry more of office 0 than a, and does not begin with it.
    let after = taken(&[], &[(0, &[D, A]), (2, &[D, A])], &[(1, &[A]), (2, &[A])]);
    assert_eq!(after, record(1, &WEIGHTS, &[], &[(0, &[D, A]), (1, &[A]), (2, &[A])]));
}

#[test]
fn merely_longer_is_not_adopted() {
    let after = taken(&[], &[(0, &[A, D]), (2, &[A, D, A])], &[(1, &[B]), (2, &[C])]);
    assert_eq!(after, record(1, &WEIGHTS, &[], &[(0, &[A, D]), (1, &[B]), (2, &[C])]));
}

#[test]
fn a_differing_own_ballot_stays() {
    let after = taken(&[], &[(0, &[A])], &[(1, &[B])]);
    assert_eq!(after, record(1, &WEIGHTS, &[], &[(0, &[A]), (1, &[B])]));
}

#[test]
fn the_receivers_ballot_in_the_message_is_not_used() {
    let after = taken(&[], &[(1, &[B, D])], &[(1, &[B])]);
    assert_eq!(after, record(1, &WEIGHTS, &[], &[(1, &[B])]));
    let after = taken(&[], &[(1, &[B, D])], &[]);
    assert_eq!(after, record(1, &WEIGHTS, &[], &[]));
}

#[test]
fn the_own_ballot_follows_the_senders() {
    let after = taken(&[A], &[(0, &[D, B]), (2, &[C])], &[(1, &[D])]);
    assert_eq!(after, record(1, &WEIGHTS, &[A], &[(0, &[D, B]), (1, &[D, B]), (2, &[C])]));
}

#[test]
fn a_tie_is_broken_after_u_is_added() {
    // 40 against 40 with 20 unheard: level in support, and no winner.
    assert_eq!(elected(&[40, 40, 20], &[(0, &[A]), (1, &[B])]).0, 0);
    // 60 against 40 and 20 unheard: level with U added, so the lower value wins, and only the lower.
    assert_eq!(elected(&[60, 40, 0, 20], &[(0, &[A]), (1, &[B])]).1, vec![A]);
    assert_eq!(elected(&[40, 60, 0, 20], &[(0, &[A]), (1, &[B])]).0, 0);
}

#[test]
fn no_weight_at_all_does_not_win() {
    assert_eq!(elected(&[0, 1], &[(0, &[A])]).0, 0);
    assert_eq!(elected(&[0, 1], &[(0, &[A]), (1, &[B])]).1, vec![B]);
    assert_eq!(elected(&[1], &[(0, &[A, A, D])]).1, vec![A, A, D]);
}

#[test]
fn growing_keeps_the_paths_that_extend_the_new_log_only() {
    let sent = message(&record(0, &WEIGHTS, &[A, D], &[]), &log(&[A, D]));
    let ours: &[(usize, &[u32])] = &[(0, &[A, D]), (1, &[A, D, B]), (2, &[A, C])];
    let mut kept = log(&[]);
    let (number, after) = take(record(1, &WEIGHTS, &[], ours), &mut kept, &sent);
    assert_eq!((number, after), (DONE, record(1, &WEIGHTS, &[A, D], &[(1, &[B])])));
    assert_eq!(kept, log(&[A, D]));
}

#[test]
fn a_shorter_log_with_a_parting_path_adopts_nothing() {
    let sent = message(&record(0, &WEIGHTS, &[], &[(0, &[B, D]), (2, &[A])]), &log(&[]));
    let before = record(1, &WEIGHTS, &[A], &[(0, &[C])]);
    assert_eq!(take(before, &mut log(&[A]), &sent), (DONE, before));
}
