//! Forecasts from weights within bounds: every case around a limit, and random ones.

use super::boundaries::{A, B, C, D, WEIGHTS};
use super::Trials;
use crate::random::Random;
use crate::record::{entry, OFFICES};
use crate::samples::{any_bounds, break_one, Family, Sample};

/// Writes the trials of forecasts, this many records of them at random.
pub(super) fn write(trials: &mut Trials, seed: u64, count: usize) {
    three(trials);
    ties(trials);
    limits(trials);
    refusals(trials);
    let mut random = Random::new(seed);
    for _ in 0..count {
        any(trials, &mut random);
    }
}

/// Asks for the forecast within bounds of as many offices as are given, zero for the others.
fn ask(trials: &mut Trials, lowest: &[u16], highest: &[u16]) {
    let eight = |given: &[u16]| (0..OFFICES).map(|office| given.get(office).copied().unwrap_or(0).into()).collect();
    let (lowest, highest): (Vec<u64>, Vec<u64>) = (eight(lowest), eight(highest));
    trials.set('B', lowest.into_iter().chain(highest));
}

/// Three offices over five ballots, with bounds that meet, and with some that let the votes change.
fn three(trials: &mut Trials) {
    let tails: [&[u32]; 5] = [&[], &[A], &[B, A], &[C], &[D]];
    trials.begin();
    for place in 0..125 {
        let ballots = [(0, tails[place / 25]), (1, tails[place / 5 % 5]), (2, tails[place % 5])];
        trials.sample(&Sample::new(0, &WEIGHTS, &[], &ballots));
        ask(trials, &WEIGHTS, &WEIGHTS);
        ask(trials, &[40, 30, 25], &[40, 35, 39]);
        ask(trials, &[65, 0, 0], &[70, 35, 29]);
    }
}

/// Level at the bound: decided by the counts of the log, then by value.
fn ties(trials: &mut Trials) {
    trials.begin();
    for settled in [&[][..], &[A], &[B], &[A, B], &[entry(0, 65, 1)], &[B, C, B]] {
        for (first, second) in [(A, B), (B, A), (A, D), (D, A)] {
            trials.sample(&Sample::new(2, &[50, 50, 0], settled, &[(0, &[first]), (1, &[second])]));
            for (low, high) in [(50, 50), (50, 49), (51, 50), (49, 50), (50, 51)] {
                ask(trials, &[low, 0, 0], &[60.max(low), high, 0]);
                ask(trials, &[0, low, 0], &[high, 60.max(low), 0]);
                ask(trials, &[low, 0, 0], &[60.max(low), high - 20, 20]);
            }
        }
    }
}

/// All bounds from 0 to 65535, all zero, one office alone, eight offices of as much as can be; bounds past n.
fn limits(trials: &mut Trials) {
    let max = u16::MAX;
    trials.begin();
    for n in 1..=OFFICES {
        let weights = vec![1; n];
        let all: Vec<(usize, &[u32])> = (0..n).map(|office| (office, &[A][..])).collect();
        for ballots in [&all[..], &all[1..], &all[..1], &all[..n / 2 + 1], &[]] {
            trials.sample(&Sample::new(0, &weights, &[], ballots));
            ask(trials, &[], &vec![max; n]);
            ask(trials, &[], &[]);
            ask(trials, &vec![1; n], &vec![max; n]);
            ask(trials, &vec![max; n], &vec![max; n]);
            ask(trials, &vec![1; n], &vec![1; n]);
            // From place n on nothing is looked at.
            let mut past = vec![1; n];
            past.resize(OFFICES, 9);
            ask(trials, &past, &vec![1; n]);
            ask(trials, &vec![1; n], &past);
        }
    }
}

/// A lowest above its highest at each place; an unsound record.
fn refusals(trials: &mut Trials) {
    trials.begin();
    for own in [1, 3] {
        trials.sample(&Sample::new(own, &WEIGHTS, &[], &[(0, &[A]), (1, &[A])]));
        for office in 0..OFFICES {
            let mut lowest = [40, 35, 25, 0, 0, 0, 0, 0];
            lowest[office] += 1;
            ask(trials, &lowest, &WEIGHTS);
            ask(trials, &WEIGHTS, &lowest);
        }
    }
}

/// A random record, seldom unsound, and random bounds.
fn any(trials: &mut Trials, random: &mut Random) {
    let family = Family::new(random);
    let own = family.office(random);
    let mut sample = family.sample(random, own);
    let bounds: Vec<_> = (0..random.within(1, 6)).map(|_| any_bounds(random, &sample.record)).collect();
    if random.percent(10) {
        break_one(random, &mut sample);
    }
    trials.begin();
    trials.sample(&sample);
    for (lowest, highest) in bounds {
        ask(trials, &lowest, &highest);
    }
}
