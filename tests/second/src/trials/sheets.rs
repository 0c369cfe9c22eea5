//! Household sheets: pooled totals, each clause of the layout broken singly, and random ones.

use super::boundaries::{A, B, C, D, WEIGHTS};
use super::Trials;
use crate::random::Random;
use crate::record::entry;
use crate::samples::{any_households, break_one, damaged_households, Family, Sample};
use crate::sheet::household;

/// Most households of a random sheet, so that a message has room for them.
const MOST: usize = 40;

/// Writes the trials of sheets, this many of them at random.
pub(super) fn write(trials: &mut Trials, seed: u64, count: usize) {
    pooled(trials);
    every_line(trials);
    layout(trials);
    lines(trials);
    unsound(trials);
    let mut random = Random::new(seed);
    for _ in 0..count {
        any(trials, &mut random);
    }
}

/// A record whose lines 5, 6, 7 and 63 have codes, two of them the same and one of them 0; the own tail has others.
fn office() -> Sample {
    let settled = [A, D, entry(1, 7, 130), entry(2, 63, 0), B, C, B];
    Sample::new(1, &WEIGHTS, &settled, &[(1, &[entry(1, 5, 9), entry(1, 6, 130), entry(1, 8, 1)])])
}

/// The sheet of these households, lines and weights.
fn sheet(trials: &mut Trials, households: &[(u8, u32)]) {
    let bytes: Vec<u8> = households.iter().flat_map(|&(line, weight)| household(line, weight)).collect();
    trials.message(&bytes);
    trials.say("H");
}

/// None, one, weights of 0 and as large as can be, lines with the same code, with code 0 and with no edit yet, in any
/// order.
fn pooled(trials: &mut Trials) {
    trials.begin();
    trials.sample(&office());
    let cases: [&[(u8, u32)]; 16] = [
        &[],
        &[(5, 1)],
        &[(5, 0)],
        &[(0, 0)],
        &[(63, 3)],
        &[(62, 3), (63, 4)],
        &[(5, 1), (7, 2)],
        &[(7, 2), (6, 3), (5, 1)],
        &[(6, 1), (6, 256), (6, 65_536), (6, 16_777_216)],
        &[(5, u32::MAX), (7, u32::MAX)],
        &[(5, u32::MAX), (5, u32::MAX), (5, 2)],
        &[(0, 5), (5, 7), (0, 9)],
        &[(8, 1), (9, 2), (63, 4), (0, 8)],
        &[(5, 0), (6, 0), (7, 0), (63, 0)],
        &[(6, 1), (5, 0), (63, 2)],
        &[(1, 1), (2, 1), (3, 1), (4, 1), (5, 1), (6, 1), (7, 1), (8, 1)],
    ];
    for case in cases {
        sheet(trials, case);
    }
    sheet(trials, &[(5, u32::MAX); 1000]);
    trials.say("T");
}

/// Every line has a code of its own, falling with the line, and a household: 64 rows; then every other line alone.
fn every_line(trials: &mut Trials) {
    let settled: Vec<u32> = (0..64).map(|line| entry(0, line, 9999 - line)).collect();
    trials.begin();
    trials.sample(&Sample::new(0, &WEIGHTS, &settled, &[]));
    let all: Vec<(u8, u32)> = (0..64).map(|line| (line, 1 << (line / 2))).collect();
    sheet(trials, &all);
    let even: Vec<(u8, u32)> = all.iter().copied().filter(|(line, _)| line % 2 == 0).rev().collect();
    sheet(trials, &even);
    for &household in &all {
        sheet(trials, &[household]);
    }
    trials.sample(&Sample::new(0, &WEIGHTS, &[], &[]));
    sheet(trials, &all);
}

/// Cut at every length, a byte more, and each byte of two households changed.
fn layout(trials: &mut Trials) {
    trials.begin();
    trials.sample(&office());
    let bytes = [household(5, 0x4852_4852), household(63, 0x0102_0304), household(0, 7)].concat();
    trials.message(&bytes);
    for (at, &byte) in bytes.iter().enumerate().take(14) {
        for other in [byte ^ 1, byte ^ 0x80, 0, 0x48, 0x52, 255] {
            trials.overwrite(at, other);
            trials.say("H");
        }
        trials.overwrite(at, byte);
    }
    trials.say("H");
    for length in (0..bytes.len()).rev() {
        trials.cut(length);
        trials.say("H");
    }
    for more in [&[0][..], &[0x48], &[0x48, 0x52], &[0x48, 0x52, 5, 0, 0, 0]] {
        trials.message(&[&bytes[..], more].concat());
        trials.say("H");
    }
}

/// Every line that a byte can name.
fn lines(trials: &mut Trials) {
    trials.begin();
    trials.sample(&office());
    trials.message(&household(0, 77));
    for line in 0..=255 {
        trials.overwrite(2, line);
        trials.say("H");
    }
}

/// An unsound record, with proper households and with others.
fn unsound(trials: &mut Trials) {
    for households in [household(5, 1).to_vec(), household(64, 1).to_vec(), vec![]] {
        trials.begin();
        trials.message(&households);
        trials.say("H");
        let mut sample = office();
        trials.sample(&sample);
        trials.say("H");
        sample.record.codes[5] ^= 1;
        trials.sample(&sample);
        trials.say("H");
        sample = office();
        sample.log.truncate(1023);
        trials.sample(&sample);
        trials.say("H");
    }
}

/// A random record, seldom unsound, with random households, at times damaged.
fn any(trials: &mut Trials, random: &mut Random) {
    let family = Family::new(random);
    let own = family.office(random);
    let mut sample = family.sample(random, own);
    if random.percent(10) {
        break_one(random, &mut sample);
    }
    let count = random.below(MOST);
    let bytes = any_households(random, count);
    let bytes = if random.percent(40) { damaged_households(random, bytes) } else { bytes };
    trials.begin();
    trials.sample(&sample);
    trials.message(&bytes);
    trials.say("H");
}
