//! Boundary values that document 01 names, and every refusal with its number.

mod common;

use std::mem::offset_of;

use common::*;
use second::calls::*;
use second::elect::{elect, elect_step};
use second::message::send;
use second::record::*;
use second::samples::in_turn;

#[test]
fn layout() {
    assert_eq!((size_of::<Ballot>(), size_of::<Kept>(), size_of::<Record>()), (136, 344, 1808));
    assert_eq!((offset_of!(Kept, present), offset_of!(Kept, codes), offset_of!(Kept, counts)), (8, 24, 280));
    assert_eq!((offset_of!(Record, weights), offset_of!(Record, kept), offset_of!(Record, noted)), (16, 32, 376));
    assert_eq!((offset_of!(Record, present), offset_of!(Record, codes)), (440, 456));
    assert_eq!((offset_of!(Record, settled), offset_of!(Record, ballots)), (712, 720));
}

#[test]
fn founding() {
    let log = vec![7; LOG];
    let weights = [40, 35, 25, 0, 0, 0, 0, 0];
    assert_eq!(found(3, 2, weights, &log), (DONE, record(2, &WEIGHTS, &[], &[])));
    assert_eq!(found(3, 2, weights, &log[1..]), (UNSOUND, Record::ZERO));
    assert_eq!(found(0, 2, weights, &[]), (UNSOUND, Record::ZERO));
    for (n, own) in [(0, 0), (9, 0), (3, 3), (2, 0), (usize::MAX, 0), (3, usize::MAX)] {
        assert_eq!(found(n, own, weights, &log), (LIMITS, Record::ZERO));
    }
    assert_eq!(found(3, 0, [0; 8], &log), (LIMITS, Record::ZERO));
    assert_eq!(found(8, 7, [u16::MAX; 8], &log).0, DONE);
    assert_eq!(found(1, 0, [1, 0, 0, 0, 0, 0, 0, 0], &vec![0; 5000]).0, DONE);
    assert_eq!(found(1, 0, [0, 1, 0, 0, 0, 0, 0, 0], &log).0, LIMITS);
}

/// Records with one clause of soundness broken each, the log's entries being a, b.
fn unsound() -> Vec<Record> {
    let good = record(1, &WEIGHTS, &[A, B], &[(0, &[A]), (1, &[B, D])]);
    let mut bad = vec![];
    let mut broken = |change: &dyn Fn(&mut Record)| {
        let mut record = good;
        change(&mut record);
        bad.push(record);
    };
    broken(&|r| r.n = 0);
    broken(&|r| r.n = 9);
    broken(&|r| r.n = usize::MAX);
    broken(&|r| r.n = 2);
    broken(&|r| r.n = 1);
    broken(&|r| r.own = 3);
    broken(&|r| r.own = usize::MAX);
    broken(&|r| (r.weights[3], r.kept.present[3], r.present[3]) = (1, 1, 1));
    broken(&|r| (r.weights[7], r.kept.present[7], r.present[7]) = (65535, 65535, 65535));
    broken(&|r| (r.weights, r.kept.present, r.present) = ([0; 8], [0; 8], [0; 8]));
    broken(&|r| r.present[0] = 41);
    broken(&|r| r.present[3] = 1);
    broken(&|r| (r.weights[0], r.kept.present[0]) = (41, 41));
    broken(&|r| r.codes[5] = 121);
    broken(&|r| r.codes[5] = 130);
    broken(&|r| r.codes[5] = 0);
    broken(&|r| r.codes[0] = 1);
    broken(&|r| r.codes[63] = u32::MAX);
    broken(&|r| r.codes.swap(5, 6));
    broken(&|r| r.settled = 3);
    broken(&|r| r.settled = 1025);
    broken(&|r| r.settled = u64::MAX);
    broken(&|r| r.ballots[0].len = 33);
    broken(&|r| r.ballots[0].len = usize::MAX);
    broken(&|r| r.ballots[0].len = 0);
    broken(&|r| r.ballots[2].cells[31] = 1);
    broken(&|r| r.ballots[3] = ballot(&[A]));
    broken(&|r| r.ballots[7].cells[0] = 1);
    broken(&|r| r.ballots[7].len = 1);
    broken(&|r| r.ballots[1].cells[1] = entry(3, 0, 0));
    broken(&|r| r.ballots[1].cells[1] = entry(0, 64, 0));
    broken(&|r| r.ballots[1].cells[1] = entry(0, 67, 1));
    broken(&|r| r.ballots[1].cells[1] = entry(0, 0, 10_000));
    broken(&|r| r.ballots[2] = ballot(&[D; 11]));
    broken(&|r| r.ballots[0] = ballot(&[&in_turn(3, 0, 30)[..], &[C]].concat()));
    bad
}

#[test]
fn unsound_records_are_refused_by_every_call() {
    let settled_log = log(&[A, B]);
    let sent = message(&record(0, &WEIGHTS, &[A, B], &[]), &settled_log);
    let good = record(1, &WEIGHTS, &[A, B], &[(0, &[A]), (1, &[B, D])]);
    assert!(sound(&good, &settled_log));
    let mut pairs: Vec<_> = unsound().into_iter().map(|record| (record, settled_log.clone())).collect();
    pairs.push((good, settled_log[..1023].to_vec()));
    pairs.push((good, vec![]));
    pairs.push((good, log(&[A, entry(3, 0, 0)])));
    for (bad, lent) in pairs {
        let mut log = lent.clone();
        let mut output = [9; 8000];
        assert!(!sound(&bad, &log));
        assert_eq!(issue(bad, &log, 64, 0), (UNSOUND, bad));
        assert_eq!(settled(&bad, &log), (UNSOUND, &[][..]));
        assert_eq!(settled_codes(&bad, &log), (UNSOUND, [0; 64]));
        assert_eq!(settled_frame(&bad, &log, 64), (UNSOUND, None));
        assert_eq!(tentative_frame(&bad, &log, 5), (UNSOUND, None));
        assert_eq!(elect(bad, &mut log), (UNSOUND, 0, bad));
        assert_eq!(elect_step(bad, &mut log), (UNSOUND, 0, bad));
        assert_eq!(send(&bad, &log, &mut output), (UNSOUND, 0));
        assert_eq!(send(&bad, &log, &mut []), (UNSOUND, 0));
        assert_eq!(take(bad, &mut log, &sent), (UNSOUND, bad));
        assert_eq!(take(bad, &mut log, &[]), (UNSOUND, bad));
        assert_eq!((log, output), (lent, [9; 8000]));
    }
}

#[test]
fn tails_and_lengths() {
    for (settled, tail, sound_here) in
        [(1023, 1, true), (1023, 2, false), (1024, 0, true), (1024, 1, false), (992, 32, true), (993, 32, false)]
    {
        let office = record(0, &[1], &long_log(settled), &[(0, &long_tail(tail))]);
        assert_eq!(sound(&office, &log(&long_log(settled))), sound_here, "{settled} {tail}");
    }
    for (settled, tail, number) in [
        (0, 31, DONE),
        (0, 32, PART_FULL),
        (991, 31, DONE),
        (991, 32, PART_FULL),
        (992, 31, DONE),
        (992, 32, LOG_FULL),
        (993, 30, DONE),
        (993, 31, LOG_FULL),
        (993, 32, UNSOUND),
        (1024, 0, LOG_FULL),
        (1023, 0, DONE),
    ] {
        let office = record(0, &[1], &long_log(settled), &[(0, &long_tail(tail))]);
        let (given, after) = issue(office, &log(&long_log(settled)), 63, 9999);
        assert_eq!(given, number, "{settled} {tail}");
        assert_eq!(after.ballots[0].len, tail + usize::from(number == DONE));
    }
}

#[test]
fn a_full_log_is_said_before_a_full_part() {
    // One office: its part is the whole tail. Request (iv)'s numbers, with 11 where 4 stood.
    let lent = log(&long_log(LOG));
    for settled in 0..=1024_usize {
        let office = record(0, &[1], &lent[..settled], &[]);
        for tail in 0..=32.min(1024 - settled) {
            let mut office = office;
            office.ballots[0] = ballot(&long_tail(tail));
            let number = if settled + tail == 1024 { 5 } else { 11 * u32::from(tail == 32) };
            assert_eq!(issue(office, &lent, 64, 1).0, number, "{settled} {tail}");
        }
    }
    // An improper entry is said first.
    let full = record(0, &[1], &lent[..992], &[(0, &long_tail(32))]);
    for (line, code) in [(65, 1), (64, 0), (0, 10_000)] {
        assert_eq!(issue(full, &lent, line, code), (NO_ENTRY, full));
    }
}

#[test]
fn lines_and_codes() {
    let office = record(2, &WEIGHTS, &[], &[]);
    for (line, code, number) in [
        (63, 9999, DONE),
        (64, 0, NO_ENTRY),
        (0, 10_000, NO_ENTRY),
        (u32::MAX, 0, NO_ENTRY),
        (0, u32::MAX, NO_ENTRY),
        (1 << 16, 1 << 24, NO_ENTRY),
    ] {
        assert_eq!(issue(office, &log(&[]), line, code).0, number, "{line} {code}");
    }
    // A full part and a wrong line: the smaller number.
    let full = record(0, &[1], &[], &[(0, &long_tail(32))]);
    assert_eq!(issue(full, &log(&[]), 64, 0), (NO_ENTRY, full));
    assert_eq!(issue(office, &log(&[]), 63, 9999).1.ballots[2], ballot(&[0x023F_270F]));
}

#[test]
fn frames() {
    let settled_log = log(&[A, B, C]);
    let office = record(1, &WEIGHTS, &[A, B, C], &[(0, &[D]), (1, &[entry(1, 6, 1), entry(1, 6, 2), entry(0, 63, 0)])]);
    assert_eq!(settled(&office, &settled_log), (DONE, &[A, B, C][..]));
    for (line, now, soon) in [(5, Some(140), Some(140)), (6, None, Some(2)), (63, None, Some(0)), (0, None, None)] {
        assert_eq!(settled_frame(&office, &settled_log, line), (DONE, now));
        assert_eq!(tentative_frame(&office, &settled_log, line), (DONE, soon));
    }
    for line in [64, 256 + 5, u32::MAX] {
        assert_eq!(settled_frame(&office, &settled_log, line), (NO_ENTRY, None));
        assert_eq!(tentative_frame(&office, &settled_log, line), (NO_ENTRY, None));
    }
}

#[test]
fn electing_up_to_the_end_of_the_log() {
    let mut kept = log(&long_log(992));
    let (number, count, after) = elect(record(0, &[1], &long_log(992), &[(0, &long_tail(32))]), &mut kept);
    let whole = [long_log(992), long_tail(32)].concat();
    assert_eq!((number, count, after, &kept), (DONE, 32, record(0, &[1], &whole, &[]), &whole));
}

#[test]
fn outputs() {
    let office = record(1, &WEIGHTS, &[A, B], &[(0, &[A]), (1, &[B, D])]);
    let settled_log = log(&[A, B]);
    let sent = message(&office, &settled_log);
    let by_hand = [
        0x53, 0x48, 1, 3, 0, 40, 0, 35, 0, 25, 0, 0, 0, 0, 0, 0, 0, 2, 0, 0, 0, 0, 0, 0, 0, 0, 0x4C, 0x47, 0, 5, 0,
        120, 0x4C, 0x47, 1, 5, 0, 130, 0x42, 0x41, 0, 1, 0, 5, 0, 120, 0x42, 0x41, 1, 2, 1, 5, 0, 130, 0, 6, 0, 7,
        0x45, 0x4E,
    ];
    assert_eq!(sent, by_hand);
    let mut short = vec![9; sent.len() - 1];
    assert_eq!(send(&office, &settled_log, &mut short), (OUTPUT_SHORT, 0));
    assert!(short.iter().all(|&byte| byte == 9));
    let mut long = vec![9; sent.len() + 5];
    assert_eq!(send(&office, &settled_log, &mut long), (DONE, sent.len()));
    assert_eq!((&long[..sent.len()], &long[sent.len()..]), (&sent[..], &[9; 5][..]));
}

#[test]
fn the_longest_message() {
    let tail = in_turn(8, 5000, 32);
    let ballots: Vec<(usize, &[u32])> = (0..8).map(|office| (office, &tail[..])).collect();
    let office = record(3, &[65535; 8], &long_log(992), &ballots);
    let sent = message(&office, &log(&long_log(992)));
    assert_eq!(sent.len(), 7046);
    let mut kept = log(&[]);
    let (number, after) = take(record(0, &[65535; 8], &[], &[]), &mut kept, &sent);
    assert_eq!((number, after), (DONE, Record { own: 0, ..office }));
    assert_eq!(kept[..992], long_log(992)[..]);
}
