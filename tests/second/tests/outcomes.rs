//! What became of an edit: document 01's cases, every boundary, and each clause of the refusals.

mod common;

use common::*;
use second::calls::issue;
use second::elect::elect;
use second::outcome::{outcome, Outcome};
use second::record::*;
use second::samples::{in_turn, Sample};

/// What words of the buffer are that no call has written.
const FILL: u32 = 0xA5A5_A5A5;

/// Settled, pending and lost, and the entries written to a buffer of this many words; the words behind them are as they
/// were.
fn told_into(words: usize, before: &Record, after: &Sample) -> (u32, [usize; 3], Vec<u32>) {
    let mut rest = vec![FILL; words];
    let (number, Outcome { settled, pending, lost }) = outcome(before, &after.record, &after.log, &mut rest);
    let unwritten = rest.split_off((pending + lost).min(words));
    assert!(unwritten.iter().all(|&word| word == FILL));
    (number, [settled, pending, lost], rest)
}

/// The same with room for every tail.
fn told(before: &Record, after: &Sample) -> ([usize; 3], Vec<u32>) {
    let (number, counts, rest) = told_into(TAIL + 1, before, after);
    assert_eq!(number, DONE);
    (counts, rest)
}

/// The office after an election.
fn elected(office: &Sample) -> Sample {
    let Sample { record, mut log } = office.clone();
    let (number, _, record) = elect(record, &mut log);
    assert_eq!(number, DONE);
    Sample { record, log }
}

/// The office after a message of the sender.
fn taken(office: &Sample, sender: &Sample) -> Sample {
    let Sample { record, mut log } = office.clone();
    let (number, _, record) = second::take::take(record, &mut log, &sender.message());
    assert_eq!(number, DONE);
    Sample { record, log }
}

/// What an election at an office makes of its own entries.
fn by_election(own: usize, weights: &[u16], ballots: &[(usize, &[u32])]) -> ([usize; 3], Vec<u32>) {
    let before = Sample::new(own, weights, &[], ballots);
    told(&before.record, &elected(&before))
}

#[test]
fn the_paper_s_elections() {
    assert_eq!(by_election(0, &WEIGHTS, &[(0, &[A])]), ([0, 1, 0], vec![A]), "A");
    assert_eq!(by_election(0, &WEIGHTS, &[(0, &[A]), (2, &[A])]), ([1, 0, 0], vec![]), "B");
    let d: [(usize, &[u32]); 3] = [(0, &[A]), (1, &[B]), (2, &[C])];
    assert_eq!(by_election(0, &WEIGHTS, &d), ([1, 0, 0], vec![]), "D at office 0");
    assert_eq!(by_election(1, &WEIGHTS, &d), ([0, 0, 1], vec![B]), "D at office 1");
    assert_eq!(by_election(2, &WEIGHTS, &d), ([0, 0, 1], vec![C]), "D at office 2");
    let g: [(usize, &[u32]); 2] = [(0, &[A, D]), (2, &[A, D])];
    assert_eq!(by_election(0, &WEIGHTS, &g), ([2, 0, 0], vec![]), "G at office 0");
    assert_eq!(by_election(2, &WEIGHTS, &g), ([0, 0, 0], vec![]), "G at office 2, which has adopted both");
    let h: [(usize, &[u32]); 3] = [(0, &[A, D]), (1, &[A]), (2, &[C])];
    assert_eq!(by_election(0, &[40, 30, 30], &h), ([1, 1, 0], vec![D]), "H at office 0");
    assert_eq!(by_election(1, &[40, 30, 30], &h), ([0, 0, 0], vec![]), "H at office 1");
    assert_eq!(by_election(2, &[40, 30, 30], &h), ([0, 0, 1], vec![C]), "H at office 2");
}

#[test]
fn i_a_take_loses_an_edit() {
    let before = Sample::new(1, &WEIGHTS, &[], &[(1, &[B])]);
    let after = taken(&before, &Sample::new(2, &WEIGHTS, &[A], &[]));
    assert_eq!(told(&before.record, &after), ([0, 0, 1], vec![B]));
    assert_eq!(told(&after.record, &after), ([0, 0, 0], vec![]));
}

#[test]
fn another_line_takes_the_place() {
    // Office 1's edit of line 6 loses to office 0's of line 5, and issued again it settles.
    let (edit, again) = (entry(1, 6, 7), Sample::new(1, &[40, 60], &[A], &[]));
    let before = Sample::new(1, &[40, 60], &[], &[(1, &[edit])]);
    assert_eq!(told(&before.record, &taken(&before, &Sample::new(0, &[40, 60], &[A], &[]))), ([0, 0, 1], vec![edit]));
    let (number, record) = issue(again.record, &again.log, 6, 7);
    assert_eq!(number, DONE);
    assert_eq!(told(&record, &elected(&Sample { record, log: again.log })), ([1, 0, 0], vec![]));
}

/// The offices of the tests below: an only one, so that all 32 entries may be its own.
fn alone(settled: &[u32], tail: &[u32]) -> Sample {
    Sample::new(0, &[1], settled, &[(0, tail)])
}

#[test]
fn tails_of_every_length() {
    for length in 0..=TAIL {
        let tail = long_tail(length);
        let before = alone(&[], &tail).record;
        assert_eq!(told(&before, &alone(&[], &tail)), ([0, length, 0], tail.clone()), "all pending");
        assert_eq!(told(&before, &alone(&tail, &[])), ([length, 0, 0], vec![]), "all settled");
        assert_eq!(told(&before, &alone(&[], &[])), ([0, 0, length], tail.clone()), "all lost, the log as it was");
        let other = entry(0, 9, 9);
        assert_eq!(told(&before, &alone(&[other], &[])), ([0, 0, length], tail.clone()), "all lost to another");
        for split in 0..=length {
            let (front, back) = tail.split_at(split);
            assert_eq!(told(&before, &alone(front, back)), ([split, length - split, 0], back.to_vec()));
            let log = [front, &[other]].concat();
            assert_eq!(told(&before, &alone(&log, &[])), ([split, 0, length - split], back.to_vec()));
        }
    }
}

#[test]
fn a_part_of_each() {
    // No call leaves pending and lost entries; two of them may, and any two records can be handed in.
    let tail = long_tail(8);
    let before = alone(&[A], &tail);
    for (settled, pending) in (0..=8).flat_map(|settled| (settled..=8).map(move |kept| (settled, kept - settled))) {
        let log = [&[A], &tail[..settled]].concat();
        let path = &tail[settled..settled + pending];
        let after = Sample::new(0, &[1], &log, &[(0, path)]);
        let lost = 8 - settled - pending;
        assert_eq!(told(&before.record, &after), ([settled, pending, lost], tail[settled..].to_vec()));
    }
}

#[test]
fn the_log_grown_past_the_tail() {
    let tail = long_tail(3);
    let before = alone(&[A], &tail).record;
    let settled = [&[A][..], &tail, &long_log(40)].concat();
    assert_eq!(told(&before, &alone(&settled, &[])), ([3, 0, 0], vec![]));
    assert_eq!(told(&before, &alone(&settled, &long_tail(32))), ([3, 0, 0], vec![]));
    let others = [&[A][..], &long_log(40)].concat();
    assert_eq!(told(&before, &alone(&others, &[])), ([0, 0, 3], tail.clone()));
    // The same entries at other places are others.
    let later = [&[A, D][..], &tail].concat();
    assert_eq!(told(&before, &alone(&later, &[])), ([0, 0, 3], tail.clone()));
    assert_eq!(told(&before, &alone(&[A, D], &tail)), ([0, 0, 3], tail));
}

#[test]
fn a_longer_own_tail_keeps_all() {
    let tail = long_tail(3);
    let before = alone(&[], &tail).record;
    assert_eq!(told(&before, &alone(&[], &long_tail(9))), ([0, 3, 0], tail.clone()));
    assert_eq!(told(&before, &alone(&tail[..1], &long_tail(9)[1..])), ([1, 2, 0], tail[1..].to_vec()));
}

#[test]
fn adopted_entries_are_not_told() {
    // Entries of three offices in turn, of which office 1 has every third.
    let tail = in_turn(3, 0, 30);
    let own: Vec<u32> = tail.iter().copied().skip(1).step_by(3).collect();
    let office = |settled: &[u32], tail: &[u32]| Sample::new(1, &WEIGHTS, settled, &[(1, tail)]);
    let before = office(&[], &tail).record;
    for split in 0..=30 {
        let settled = (split + 1) / 3;
        let (front, back) = tail.split_at(split);
        assert_eq!(told(&before, &office(front, back)), ([settled, 10 - settled, 0], own[settled..].to_vec()));
        assert_eq!(told(&before, &office(front, &[])), ([settled, 0, 10 - settled], own[settled..].to_vec()));
    }
    let none = office(&[], &[A, D, A]).record;
    assert_eq!(told(&none, &office(&[], &[])), ([0, 0, 0], vec![]), "all of them adopted, and gone");
}

#[test]
fn moves_of_weight_are_entries() {
    let handed_on = entry(1, 64, 35);
    let before = Sample::new(1, &WEIGHTS, &[], &[(1, &[handed_on, B])]);
    assert_eq!(told(&before.record, &Sample::new(1, &WEIGHTS, &[handed_on], &[(1, &[B])])), ([1, 1, 0], vec![B]));
    assert_eq!(told(&before.record, &Sample::new(1, &WEIGHTS, &[A], &[])), ([0, 0, 2], vec![handed_on, B]));
}

#[test]
fn a_buffer_just_long_enough() {
    let tail = long_tail(TAIL);
    let before = alone(&[], &tail).record;
    for (settled, pending) in [(0, 32), (0, 0), (31, 1), (31, 0), (32, 0), (16, 16), (16, 0), (8, 16)] {
        let after = alone(&tail[..settled], &tail[settled..settled + pending]);
        let needed = TAIL - settled;
        let done = (DONE, [settled, pending, needed - pending], tail[settled..].to_vec());
        assert_eq!(told_into(needed, &before, &after), done);
        assert_eq!(told_into(needed + 1, &before, &after), done);
        if needed > 0 {
            assert_eq!(told_into(needed - 1, &before, &after), (OUTPUT_SHORT, [0; 3], vec![]));
            assert_eq!(told_into(0, &before, &after), (OUTPUT_SHORT, [0; 3], vec![]));
        }
    }
}

#[test]
fn a_fold_between() {
    let (settled, tail) = (long_log(100), long_tail(4));
    let before = alone(&settled, &tail);
    for count in [0, 1, 99, 100] {
        let after = before.clone().without(count);
        assert_eq!(told(&before.record, &after), ([0, 4, 0], tail.clone()), "a fold changes no tail");
        assert_eq!(told(&after.record, &after), ([0, 4, 0], tail.clone()));
    }
    // Grown, and then folded up to the length before: all that is looked at is still there.
    let grown = alone(&[&settled[..], &tail[..2]].concat(), &[]);
    assert_eq!(told(&before.record, &grown.clone().without(100)), ([2, 0, 2], tail[2..].to_vec()));
    // One entry more, and it is not.
    assert_eq!(told_into(TAIL, &before.record, &grown.without(101)), (UNSOUND, [0; 3], vec![]));
}

#[test]
fn far_behind_dropped_entries() {
    let dropped = LENGTH - 40;
    let kept = Kept { dropped, counts: [dropped, 0, 0, 0, 0, 0, 0, 0], ..Kept::nothing([1, 0, 0, 0, 0, 0, 0, 0]) };
    let office = |settled: &[u32], tail: &[u32]| alone(settled, tail).behind(kept);
    let tail = long_tail(8);
    let before = office(&long_log(32), &tail).record;
    let all = [&long_log(32)[..], &tail].concat();
    assert_eq!(told(&before, &office(&all, &[])), ([8, 0, 0], vec![]));
    assert_eq!(told(&before, &office(&all[..35], &tail[3..])), ([3, 5, 0], tail[3..].to_vec()));
}

/// Wants the call refused with 1, also where the buffer is too short.
fn refused(what: &str, before: &Record, after: &Sample) {
    for words in [0, TAIL] {
        assert_eq!(told_into(words, before, after), (UNSOUND, [0; 3], vec![]), "{what}");
    }
}

#[test]
fn one_for_the_record_after() {
    let before = Sample::new(1, &WEIGHTS, &[], &[(1, &[B])]);
    let after = Sample::new(1, &WEIGHTS, &[A], &[(0, &[D])]);
    assert_eq!(told(&before.record, &after), ([0, 0, 1], vec![B]));
    let but = |change: &dyn Fn(&mut Sample)| {
        let mut other = after.clone();
        change(&mut other);
        other
    };
    refused("a short log", &before.record, &but(&|after| after.log.truncate(1023)));
    refused("no entry in the log", &before.record, &but(&|after| after.log[0] = u32::MAX));
    refused("codes", &before.record, &but(&|after| after.record.codes[63] = 1));
    refused("present weights", &before.record, &but(&|after| after.record.present[0] -= 1));
    refused("a noted length", &before.record, &but(&|after| after.record.noted[0] = 2));
    refused("a cell past a tail", &before.record, &but(&|after| after.record.ballots[2].cells[31] = 1));
    refused("kept counts", &before.record, &but(&|after| after.record.kept.counts[0] = 1));
}

#[test]
fn one_for_the_record_before() {
    let before = Sample::new(1, &WEIGHTS, &[A], &[(1, &[B])]).record;
    let after = Sample::new(1, &WEIGHTS, &[A, B], &[]);
    assert_eq!(told(&before, &after), ([1, 0, 0], vec![]));
    refused("n", &Record { n: 2, ..before }, &after);
    refused("own office", &Record { own: 0, ..before }, &after);
    refused("a founding weight", &Record { weights: [40, 35, 24, 0, 0, 0, 0, 0], ..before }, &after);
    refused("a weight past n", &Record { weights: [40, 35, 25, 1, 0, 0, 0, 0], ..before }, &after);
    refused("more settled than after", &Record { settled: 3, ..before }, &after);
    refused("less settled than is dropped", &before, &after.clone().without(2));
    let but = |office: usize, ballot: Ballot| {
        let mut other = before;
        other.ballots[office] = ballot;
        other
    };
    refused("a tail of 33", &but(2, Ballot { len: TAIL + 1, ..Ballot::NONE }), &after);
    refused("a cell past the tail", &but(1, Ballot { len: 0, ..ballot(&[B]) }), &after);
    refused("a cell past another tail", &but(0, Ballot { len: 0, ..ballot(&[B]) }), &after);
    refused("no entry", &but(0, ballot(&[entry(3, 0, 0)])), &after);
    refused("a ballot past n", &but(3, ballot(&[A])), &after);
    refused("more than its part", &but(2, ballot(&[A; 11])), &after);
    assert_eq!(told(&but(2, ballot(&[A; 10])), &after), ([1, 0, 0], vec![]));
}

#[test]
fn one_for_a_tail_past_the_limits() {
    let after = alone(&long_log(1010), &[]);
    let before = alone(&long_log(1000), &long_tail(24)).record;
    assert_eq!(told(&before, &after).0, [0, 0, 24]);
    refused("a path of 1025", &alone(&long_log(1000), &long_tail(25)).record, &after);
    assert_eq!(told(&alone(&long_log(1000), &long_tail(25)).without(1).record, &after).0, [0, 0, 25]);
}

#[test]
fn what_is_not_looked_at() {
    // Of the record before, the summary, what is kept and what was noted tell nothing here, save the dropped count.
    let before = Sample::new(1, &WEIGHTS, &[A], &[(1, &[B])]).record;
    let after = Sample::new(1, &WEIGHTS, &[A, B], &[]);
    for other in [
        Record { present: [0; OFFICES], ..before },
        Record { codes: [9; LINES as usize], ..before },
        Record { noted: [7; OFFICES], ..before },
        Record { kept: Kept { counts: [9; OFFICES], codes: [u32::MAX; 64], ..before.kept }, ..before },
        Record { kept: Kept { dropped: 1, ..before.kept }, ..before },
    ] {
        assert_eq!(told(&other, &after), ([1, 0, 0], vec![]));
    }
    refused("more dropped than settled", &Record { kept: Kept { dropped: 2, ..before.kept }, ..before }, &after);
}

#[test]
fn more_than_1024_undropped_before() {
    // The length before is within that after, but what it says was not dropped has no room in a log.
    let kept = Kept { dropped: 2000, counts: [2000, 0, 0, 0, 0, 0, 0, 0], ..Kept::nothing([1, 0, 0, 0, 0, 0, 0, 0]) };
    let after = alone(&[A, D], &[]).behind(kept);
    let mut before = alone(&[], &[D]).record;
    (before.settled, before.kept.dropped) = (2001, 978);
    assert_eq!(told(&before, &after), ([1, 0, 0], vec![]));
    before.kept.dropped = 977;
    refused("a path of 1025", &before, &after);
    before.ballots[0] = Ballot::NONE;
    assert_eq!(told(&before, &after), ([0, 0, 0], vec![]));
    before.kept.dropped = 976;
    refused("1025 of them", &before, &after);
}
