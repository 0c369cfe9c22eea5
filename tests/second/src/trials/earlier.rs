//! Lines as of an earlier place: codes, words read, refusals, and random ones.

use super::boundaries::{A, B, C, D, WEIGHTS};
use super::Trials;
use crate::random::Random;
use crate::record::{entry, Record, LOG};
use crate::samples::{break_one, Family, Sample};

/// Writes the trials of earlier places, this many of them at random.
pub(super) fn write(trials: &mut Trials, seed: u64, count: usize) {
    places(trials);
    every_line(trials);
    long(trials);
    refusals(trials);
    let mut random = Random::new(seed);
    for _ in 0..count {
        any(trials, &mut random);
    }
}

/// Edits of few lines, one of them twice in a row, one to 0, and moves between them.
const PATH: [u32; 10] =
    [A, entry(0, 64, 1), D, B, entry(1, 66, 2), entry(2, 63, 0), C, C, entry(0, 65, 3), entry(1, 0, 9999)];

/// Asks for the lines as of the place.
fn ask(trials: &mut Trials, lines: &[u8], p: u64) {
    if trials.state().message != lines {
        trials.message(lines);
    }
    trials.say(&format!("Q {p}"));
}

/// Few lines, in any order, some of them twice or with no edit, as of every place and one past the last.
fn places(trials: &mut Trials) {
    trials.begin();
    trials.sample(&Sample::new(1, &WEIGHTS, &PATH, &[(1, &[entry(1, 5, 1), entry(1, 7, 7)])]));
    let cases: [&[u8]; 14] = [
        &[],
        &[5],
        &[6],
        &[63],
        &[0],
        &[7],
        &[5, 6],
        &[6, 5, 6],
        &[5, 7],
        &[5, 5, 5],
        &[0, 5, 6, 63],
        &[63, 6, 5, 0],
        &[5, 64],
        &[255, 5],
    ];
    for lines in cases {
        for p in 0..=PATH.len() + 1 {
            ask(trials, lines, p as u64);
        }
    }
}

/// 63, 64 and 65 lines, and one line that often; all lines edited, all but one, or none.
fn every_line(trials: &mut Trials) {
    let all: Vec<u32> = (0..64).map(|line| entry(0, 63 - line, 100 + line)).collect();
    let lines: Vec<u8> = (0..65).map(|line| line % 64).collect();
    trials.begin();
    for settled in [&all[..], &all[1..], &all[..63], &[]] {
        trials.sample(&Sample::new(0, &WEIGHTS, settled, &[]));
        for named in [&lines[..63], &lines[..64], &lines[1..65], &lines, &[63; 64], &[0; 64], &[0; 65], &[64; 65]] {
            for p in [0, 1, settled.len(), settled.len() + 1] {
                ask(trials, named, p as u64);
            }
        }
    }
}

/// A full log: the first entry alone has the line, or the last, or none.
fn long(trials: &mut Trials) {
    let mut settled = vec![D; LOG];
    (settled[0], settled[LOG - 1]) = (A, entry(2, 63, 1));
    trials.begin();
    trials.sample(&Sample::new(2, &WEIGHTS, &settled, &[]));
    for lines in [&[][..], &[5], &[63], &[6], &[7], &[6, 63], &[5, 63], &[5, 6, 63, 7]] {
        for p in [0, 1, 2, 1023, 1024, 1025] {
            ask(trials, lines, p);
        }
    }
}

/// Causes together; places far past the end; an unsound record.
fn refusals(trials: &mut Trials) {
    trials.begin();
    for (own, length) in [(1, 1024), (3, 1024), (1, 1023)] {
        let mut sample = Sample::new(own, &WEIGHTS, &PATH, &[]);
        sample.log.truncate(length);
        trials.sample(&sample);
        for lines in [&[5][..], &[64], &[5; 65], &[[5; 64].as_slice(), &[64]].concat(), &[]] {
            for p in [0, 10, 11, 1024, u64::MAX] {
                ask(trials, lines, p);
            }
        }
    }
}

/// A random record, seldom unsound, and random lines and places.
fn any(trials: &mut Trials, random: &mut Random) {
    let family = Family::new(random);
    let own = family.office(random);
    let mut sample = family.sample(random, own);
    if random.percent(10) {
        break_one(random, &mut sample);
    }
    trials.begin();
    trials.sample(&sample);
    for _ in 0..random.within(1, 5) {
        let count = random.pick(&[0, 1, 1, 2, 3, 5, 64, 65]);
        let lines: Vec<u8> = (0..count).map(|_| random.pick(&[0, 1, 5, 5, 62, 63])).collect();
        let mut lines: Vec<u8> =
            lines.into_iter().map(|line| if random.percent(5) { line ^ 2 } else { line }).collect();
        if count > 0 && random.percent(5) {
            lines[random.below(count)] = random.pick(&[64, 65, 255]);
        }
        ask(trials, &lines, place(random, &sample.record));
    }
}

/// A place around the ends of what is settled and not dropped, or inside it.
fn place(random: &mut Random, record: &Record) -> u64 {
    let (dropped, settled) = (record.kept.dropped, record.settled);
    let inside = dropped.wrapping_add(random.below(record.held().saturating_add(1)) as u64);
    match random.below(8) {
        0 => random.pick(&[0, 1, dropped.wrapping_sub(1)]),
        1 => random.pick(&[dropped, dropped.wrapping_add(1)]),
        2 => settled.wrapping_add(1),
        3 | 4 => settled,
        5 => settled.saturating_sub(1),
        _ => inside,
    }
}
