//! Logs compared from their ends: document 02's request (viii), worked by hand.

mod common;

use common::{log, long_log, message, record, A, B, C, D, WEIGHTS};
use second::record::*;
use second::take::take;

/// The number and the places of office 1 with this log and a message of that office with that log.
fn given(sender: usize, theirs: &[u32], ours: &[u32]) -> (u32, usize) {
    let sent = message(&record(sender, &WEIGHTS, theirs, &[]), &log(theirs));
    let (number, places, _) = take(record(1, &WEIGHTS, ours, &[]), &mut log(ours), &sent);
    (number, places)
}

#[test]
fn every_shared_place_if_none_differs() {
    let path = long_log(1024);
    for (theirs, ours) in [(0, 0), (1, 1), (1024, 1024), (0, 1), (1, 0), (1024, 1023), (1023, 1024), (5, 900), (900, 5)]
    {
        assert_eq!(given(0, &path[..theirs], &path[..ours]), (DONE, theirs.min(ours)), "{theirs} {ours}");
    }
}

#[test]
fn up_to_and_including_the_first_difference_met() {
    // Case L.
    assert_eq!(given(0, &[B], &[A]), (LOGS_PART, 1));
    let (ours, length) = (long_log(1024), 1024);
    for at in [0, 1, 511, 512, 1022, 1023] {
        let mut theirs = ours.clone();
        theirs[at] = B;
        assert_eq!(given(0, &theirs, &ours), (LOGS_PART, length - at));
        // A difference further from the end is not met.
        theirs[at / 2] = C;
        assert_eq!(given(0, &theirs, &ours), (LOGS_PART, length - at));
    }
    // The last shared place is that of the shorter log.
    for (theirs, ours, places) in [
        (&[A, D, B][..], &[A, C][..], 1),
        (&[A, C], &[A, D, B], 1),
        (&[B, D, D, D], &[A, D], 2),
        (&[B, D], &[A, D, D, D], 2),
        (&[B, C], &[A, D], 1),
        (&[B, D, A], &[A, D, A], 3),
    ] {
        assert_eq!(given(0, theirs, ours), (LOGS_PART, places), "{theirs:?} {ours:?}");
    }
}

#[test]
fn no_place_on_any_other_refusal() {
    assert_eq!(given(1, &[A, D], &[A, D]), (OWN_MESSAGE, 0));
    assert_eq!(given(1, &[A, B], &[A, D]), (OWN_MESSAGE, 0));
    let ours = record(1, &WEIGHTS, &[A], &[]);
    let heavier = message(&record(0, &[40, 35, 26], &[A], &[]), &log(&[A]));
    assert_eq!(take(ours, &mut log(&[A]), &heavier), (OTHER_WEIGHTS, 0, ours));
    let sent = message(&record(0, &WEIGHTS, &[A], &[]), &log(&[A]));
    assert_eq!(take(ours, &mut log(&[A]), &sent[1..]), (NO_MESSAGE, 0, ours));
    assert_eq!(take(ours, &mut log(&[B]), &sent), (UNSOUND, 0, ours));
}

#[test]
fn a_second_take_may_need_more() {
    let sent = message(&record(0, &WEIGHTS, &[A, D], &[]), &log(&[A, D]));
    let mut kept = log(&[A]);
    let (_, first, after) = take(record(1, &WEIGHTS, &[A], &[]), &mut kept, &sent);
    let (_, second, again) = take(after, &mut kept, &sent);
    assert_eq!((first, second, again), (1, 2, after));
}
