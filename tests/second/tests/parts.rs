//! A fair part of the unsettled tail: document 02's request (v), worked by hand.

mod common;

use common::*;
use second::calls::issue;
use second::elect::elect;
use second::message::{read, send};
use second::random::Random;
use second::record::*;
use second::samples::{in_turn, Family, Sample};

/// 32 / n, rounded down.
const PARTS: [(usize, usize); 8] = [(1, 32), (2, 16), (3, 10), (4, 8), (5, 6), (6, 5), (7, 4), (8, 4)];

/// The office's record with this own tail over an empty log, all weights 1.
fn office(n: usize, own: usize, tail: &[u32]) -> Record {
    record(own, &vec![1; n], &[], &[(own, tail)])
}

/// Whether a record with this tail is sound, and a message with it read: the one exactly if the other.
fn allowed(n: usize, tail: &[u32]) -> bool {
    let sample = Sample::new(0, &vec![1; n], &[], &[(n - 1, tail)]);
    let sound = sound(&sample.record, &sample.log);
    assert_eq!(read(&sample.spelled()).is_some(), sound);
    sound
}

#[test]
fn the_part_and_one_past_it() {
    for (n, part) in PARTS {
        assert_eq!(second::record::part(n), part);
        for busy in 0..n {
            let (edit, moved) = (entry(busy, 5, 1), entry(busy, 64, 1));
            let others: Vec<u32> = in_turn(n, 0, n * part)
                .into_iter()
                .filter(|&word| office_of(word) != busy)
                .take(31 - part.min(31))
                .collect();
            for mine in [edit, moved] {
                assert!(allowed(n, &vec![mine; part]));
                // Together, behind the others, before them, and scattered.
                let scattered = |times: usize| -> Vec<u32> {
                    let mut mine = vec![mine; times].into_iter();
                    let mut all: Vec<u32> =
                        others.iter().flat_map(|&word| [Some(word), mine.next()]).flatten().collect();
                    all.extend(mine);
                    all
                };
                for times in [part, part + 1] {
                    let good = times == part;
                    if times + others.len() <= 32 {
                        assert_eq!(allowed(n, &[&others[..], &vec![mine; times]].concat()), good, "{n} {busy}");
                        assert_eq!(allowed(n, &[&vec![mine; times], &others[..]].concat()), good, "{n} {busy}");
                        assert_eq!(allowed(n, &scattered(times)), good, "{n} {busy}");
                    }
                }
                if part < 32 {
                    assert!(!allowed(n, &vec![mine; part + 1]));
                }
            }
        }
        // The longest tail there is.
        assert!(allowed(n, &in_turn(n, 0, n * part)));
        if n * part < 32 {
            assert!((0..n).all(|busy| !allowed(n, &[&in_turn(n, 0, n * part)[..], &[entry(busy, 0, 0)]].concat())));
        }
    }
}

#[test]
fn the_messages_own_n_gives_the_part() {
    // Ten entries of one office: within the part of three offices, past that of four.
    let receiver = record(1, &WEIGHTS, &[], &[]);
    for (n, count, number) in
        [(3, 10, DONE), (3, 11, NO_MESSAGE), (4, 8, 8), (4, 9, NO_MESSAGE), (2, 16, 8), (2, 17, 7)]
    {
        let weights = [40, 35, 25, 0];
        let sent = Sample::new(0, &weights[..n], &[], &[(0, &vec![A; count])]).spelled();
        assert_eq!(take(receiver, &mut log(&[]), &sent).0, number, "{n} {count}");
    }
}

#[test]
fn the_busy_office_is_refused_while_another_still_adds() {
    for (n, part) in PARTS {
        let mut tail = vec![];
        for own in 0..n {
            for at in 0..part {
                let (number, after) = issue(office(n, own, &tail), &log(&[]), 5, at as u32);
                assert_eq!(number, DONE, "{n} {own} {at}");
                tail.push(entry(own, 5, at as u32));
                assert_eq!(after, office(n, own, &tail));
            }
            for line in [0, 5, 64] {
                let full = office(n, own, &tail);
                assert_eq!(issue(full, &log(&[]), line, 1), (PART_FULL, full));
                assert_eq!(issue(full, &log(&[]), line, 10_000), (NO_ENTRY, full));
            }
        }
        assert_eq!(tail.len(), n * part);
    }
}

#[test]
fn the_tail_alone_is_counted() {
    // Ten of its entries are settled, and ten of its entries stand in another's ballot.
    let settled = [B; 10];
    let busy = record(1, &WEIGHTS, &settled, &[(0, &[B; 10]), (1, &[B; 9])]);
    assert_eq!(issue(busy, &log(&settled), 5, 1).0, DONE);
    let full = record(1, &WEIGHTS, &settled, &[(0, &[B; 10]), (1, &[B; 10])]);
    assert_eq!(issue(full, &log(&settled), 5, 1), (PART_FULL, full));
    // What is settled makes room.
    let mut kept = log(&settled);
    let (_, count, after) = elect(full, &mut kept);
    assert_eq!((count, issue(after, &kept, 5, 1).0), (10, DONE));
}

#[test]
fn five_comes_first() {
    for (n, part) in PARTS {
        let settled = long_log(1024 - part);
        let mine = vec![entry(n - 1, 5, 1); part];
        let full = record(n - 1, &vec![1; n], &settled, &[(n - 1, &mine)]);
        assert_eq!(issue(full, &log(&settled), 5, 1), (LOG_FULL, full));
        let room = record(n - 1, &vec![1; n], &settled[1..], &[(n - 1, &mine)]);
        assert_eq!(issue(room, &log(&settled[1..]), 5, 1), (PART_FULL, room));
    }
}

#[test]
fn an_office_below_its_part_meets_5_alone_and_every_sent_message_is_read() {
    let mut random = Random::new(6);
    let mut seen = [0; 12];
    for _ in 0..30_000 {
        let family = Family::new(&mut random);
        let own = family.office(&mut random);
        let Sample { record, log } = family.sample(&mut random, own);
        let mut output = vec![0; 8000];
        let (number, length) = send(&record, &log, &mut output);
        assert!(number == DONE && read(&output[..length]).is_some());
        let tail = record.ballots[own].tail();
        let mine = tail.iter().filter(|&&word| office_of(word) == own).count();
        let (number, after) = issue(record, &log, 64, 1);
        let full = record.held() + tail.len() == LOG || record.settled + tail.len() as u64 == LENGTH;
        assert_eq!(number, if full { 5 } else { 11 * u32::from(mine == 32 / record.n) });
        assert!(sound(&after, &log));
        seen[number as usize] += 1;
    }
    assert!(seen[0] > 1000 && seen[5] > 500 && seen[11] > 500, "{seen:?}");
}
