//! The settled frame kept ready, and lines with no edit yet: document 02's requests (ii) and (ix), worked by hand.

mod common;

use common::*;
use second::calls::*;
use second::elect::elect;
use second::record::*;

/// The stored codes of the lines given, no edit yet for all others.
fn codes(given: &[(usize, u32)]) -> Codes {
    let mut codes = [0; 64];
    given.iter().for_each(|&(line, code)| codes[line] = code + 1);
    codes
}

/// The record over this settled log with these stored codes.
fn stored(own: usize, settled: &[u32], given: &[(usize, u32)]) -> Record {
    Record { codes: codes(given), ..record(own, &WEIGHTS, settled, &[]) }
}

#[test]
fn a_founded_record_has_no_codes() {
    let (number, fresh) = found(3, 1, [40, 35, 25, 0, 0, 0, 0, 0], &log(&[A]));
    assert_eq!((number, fresh.codes), (DONE, [0; 64]));
    assert_eq!(found(3, 3, [40, 35, 25, 0, 0, 0, 0, 0], &log(&[])).1.codes, [0; 64]);
    assert_eq!(settled_codes(&fresh, &log(&[A])), (DONE, [0; 64]));
}

#[test]
fn the_last_entry_for_a_line_gives_its_code() {
    for (settled, given) in [
        (&[][..], &[][..]),
        (&[A], &[(5, 120)]),
        (&[A, B], &[(5, 130)]),
        (&[B, A, D], &[(5, 120), (6, 7)]),
        (&[A, entry(1, 5, 0)], &[(5, 0)]),
        (&[entry(0, 0, 0), entry(2, 63, 0)], &[(0, 0), (63, 0)]),
        (&[entry(0, 0, 1), entry(2, 63, 9999)], &[(0, 1), (63, 9999)]),
        (&[entry(0, 0, 1), entry(0, 64, 9), entry(1, 66, 9999)], &[(0, 1)]),
    ] {
        let office = stored(1, settled, given);
        assert!(sound(&office, &log(settled)), "{settled:?}");
        assert_eq!(settled_codes(&office, &log(settled)), (DONE, codes(given)));
        for line in 0..64 {
            let code = given.iter().find(|&&(known, _)| known == line as usize).map(|&(_, code)| code);
            assert_eq!(settled_frame(&office, &log(settled), line), (DONE, code));
            assert_eq!(tentative_frame(&office, &log(settled), line), (DONE, code));
        }
    }
}

#[test]
fn other_codes_are_unsound() {
    let settled = [A, D, B, entry(0, 64, 9)];
    let good = stored(1, &settled, &[(5, 130), (6, 7)]);
    assert!(sound(&good, &log(&settled)));
    for line in 0..64 {
        for code in [1, 9, 10, 120, 121, 130, 10_000, u32::MAX] {
            let mut bad = good;
            bad.codes[line] = code;
            assert!(!sound(&bad, &log(&settled)), "{line} {code}");
            assert_eq!(settled_codes(&bad, &log(&settled)), (UNSOUND, [0; 64]));
        }
    }
    // The entry before the last; none; a line too few.
    assert!(!sound(&stored(1, &settled, &[(5, 120), (6, 7)]), &log(&settled)));
    assert!(!sound(&stored(1, &settled, &[]), &log(&settled)));
    assert!(!sound(&stored(1, &settled, &[(5, 130)]), &log(&settled)));
    // What is not settled has no code.
    assert!(!sound(&stored(1, &[A], &[(5, 120), (6, 7)]), &log(&settled)));
    assert_eq!(settled_codes(&good, &log(&settled)[..1023]), (UNSOUND, [0; 64]));
}

#[test]
fn elections_store_codes() {
    let tail = [A, D, entry(0, 5, 3), entry(0, 64, 9), entry(0, 0, 5), entry(0, 63, 1), entry(1, 63, 0)];
    let mut kept = log(&[]);
    let (number, count, after) = elect(record(0, &[1], &[], &[(0, &tail[..6])]), &mut kept);
    assert_eq!((number, count, after.codes), (DONE, 6, codes(&[(0, 5), (5, 3), (6, 7), (63, 1)])));
    // An edit back to 0.
    let (_, count, after) = elect(record(0, &[1, 1], &tail[..6], &[(0, &tail[6..]), (1, &tail[6..])]), &mut kept);
    assert_eq!((count, after.codes), (1, codes(&[(0, 5), (5, 3), (6, 7), (63, 0)])));
    // What loses has no code, and what is tentative has none.
    let (_, count, after) = elect(record(0, &WEIGHTS, &[], &[(0, &[A, D]), (1, &[B]), (2, &[C])]), &mut log(&[]));
    assert_eq!((count, after.codes), (1, codes(&[(5, 120)])));
}

#[test]
fn takes_store_codes() {
    let theirs = [A, B, D, entry(2, 7, 70), entry(0, 65, 9), entry(1, 6, 0)];
    let sender = Record { present: [31, 44, 25, 0, 0, 0, 0, 0], ..stored(0, &theirs, &[(5, 130), (6, 0), (7, 70)]) };
    let sent = message(&sender, &log(&theirs));
    for (ours, given) in [(0, &[][..]), (1, &[(5, 120)]), (3, &[(5, 130), (6, 7)]), (4, &[(5, 130), (6, 7), (7, 70)])] {
        let before = stored(1, &theirs[..ours], given);
        let mut kept = log(&theirs[..ours]);
        assert_eq!(take(before, &mut kept, &sent), (DONE, Record { own: 1, ..sender }));
        assert_eq!(kept, log(&theirs));
    }
    // A message with the shorter log changes none, and so does a ballot.
    let before = stored(1, &[A, B, D], &[(5, 130), (6, 7)]);
    let sent = message(&record(0, &WEIGHTS, &[A], &[(0, &[B, D, C])]), &log(&[A]));
    let (number, after) = take(before, &mut log(&[A, B, D]), &sent);
    assert_eq!((number, after.codes, after.ballots[1]), (DONE, before.codes, ballot(&[C])));
}

#[test]
fn issue_and_send_leave_the_codes() {
    let before = stored(1, &[A, B], &[(5, 130)]);
    let (number, after) = issue(before, &log(&[A, B]), 5, 77);
    assert_eq!((number, after.codes), (DONE, before.codes));
    assert_eq!(tentative_frame(&after, &log(&[A, B]), 5), (DONE, Some(77)));
    assert_eq!(settled_frame(&after, &log(&[A, B]), 5), (DONE, Some(130)));
    assert_eq!(settled_codes(&after, &log(&[A, B])), (DONE, codes(&[(5, 130)])));
    // The frame of the own path: the tail's last entry, else the stored code.
    let (_, after) = issue(after, &log(&[A, B]), 5, 0);
    assert_eq!(tentative_frame(&after, &log(&[A, B]), 5), (DONE, Some(0)));
    assert_eq!(tentative_frame(&before, &log(&[A, B]), 5), (DONE, Some(130)));
    // No edit yet, then a real 0 that is not settled.
    assert_eq!(tentative_frame(&before, &log(&[A, B]), 6), (DONE, None));
    let (_, after) = issue(before, &log(&[A, B]), 6, 0);
    assert_eq!(tentative_frame(&after, &log(&[A, B]), 6), (DONE, Some(0)));
    assert_eq!(settled_frame(&after, &log(&[A, B]), 6), (DONE, None));
}
