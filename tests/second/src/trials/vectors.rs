//! Version vectors: written, read back, damaged, and random ones.

use super::boundaries::{A, B, C, D, WEIGHTS};
use super::Trials;
use crate::archive::COUNT_SIZE;
use crate::random::Random;
use crate::record::{entry, Record, LOG, OFFICES};
use crate::samples::{any_vector, break_one, in_turn, Family, Sample};

/// Writes the trials of vectors, this many of them at random.
pub(super) fn write(trials: &mut Trials, seed: u64, count: usize) {
    (1..=OFFICES).for_each(|n| written(trials, n));
    standings(trials);
    damaged(trials);
    limits(trials);
    unsound(trials);
    let mut random = Random::new(seed);
    for _ in 0..count {
        any(trials, &mut random);
    }
}

/// Compares with the vector of these counts.
fn compare(trials: &mut Trials, counts: &[u64]) {
    let bytes: Vec<u8> = counts.iter().flat_map(|count| count.to_be_bytes()).collect();
    trials.message(&bytes);
    trials.say("C");
}

/// Vectors of n offices, into outputs around their length, and each of them read back.
fn written(trials: &mut Trials, n: usize) {
    let path = in_turn(n, 100, 3 * n + 5);
    let ballots = [(0, &path[5..]), (n - 1, &path[5..6]), (n / 2, &path[5..7])];
    let sample = Sample::new(0, &vec![1; n], &path[..5], &ballots);
    let length = COUNT_SIZE * n * (n + 1);
    trials.begin();
    trials.sample(&sample);
    for room in [0, 1, length / 2, length - 8, length - 1, length, length + 1, length + 30] {
        trials.output(room);
        trials.say("W");
    }
    let vectors = trials.state().output.clone();
    for vector in vectors[..length].chunks(COUNT_SIZE * n) {
        trials.message(vector);
        trials.say("C");
    }
}

/// Vectors around the counts of the log and of paths that go on in several ways; an office with no ballot has the log.
fn standings(trials: &mut Trials) {
    trials.begin();
    let settled = [A, B, entry(0, 64, 1)];
    trials.sample(&Sample::new(1, &WEIGHTS, &settled, &[(0, &[D, C]), (1, &[D, B, D])]));
    for first in 1..=5 {
        for second in 0..=3 {
            for third in 0..=2 {
                compare(trials, &[first, second, third]);
            }
        }
    }
    trials.sample(&Sample::new(1, &WEIGHTS, &[], &[]));
    for counts in [[0, 0, 0], [0, 0, 1], [1, 0, 0]] {
        compare(trials, &counts);
    }
}

/// Cut at every length, with bytes or counts more, and each byte changed.
fn damaged(trials: &mut Trials) {
    trials.begin();
    trials.sample(&Sample::new(1, &WEIGHTS, &[A, B, C], &[(1, &[D])]));
    let bytes = [2_u64, 1, 1].map(u64::to_be_bytes).concat();
    trials.message(&bytes);
    for (at, &byte) in bytes.iter().enumerate() {
        for other in [0, 1, 2, 3, 4, 5, 128, 255] {
            trials.overwrite(at, other);
            trials.say("C");
        }
        trials.overwrite(at, byte);
    }
    for length in (0..bytes.len()).rev() {
        trials.cut(length);
        trials.say("C");
    }
    for more in [&[0][..], &[0, 0, 0], &[0; 4], &[0; 8], &[0; 40]] {
        trials.message(&[&bytes[..], more].concat());
        trials.say("C");
    }
}

/// Counts around 1024, which is no limit, and as large as can be, at a full log and at an empty one.
fn limits(trials: &mut Trials) {
    trials.begin();
    for settled in [vec![], vec![B; LOG - 1], vec![B; LOG]] {
        trials.sample(&Sample::new(0, &WEIGHTS, &settled, &[]));
        for count in [0, 1, 1023, 1024, 1025, 65_536, 16_777_216, 1 << 32, 1 << 63, u64::MAX] {
            compare(trials, &[0, count, 0]);
            compare(trials, &[count, 1024, 0]);
        }
    }
    trials.sample(&Sample::new(0, &WEIGHTS, &vec![B; LOG - 10], &[(0, &[B; 10]), (2, &[C; 3])]));
    compare(trials, &[0, 1024, 0]);
    compare(trials, &[0, 1014, 3]);
    trials.output(96);
    trials.say("W");
}

/// Unsound records, with proper vectors and room, and without.
fn unsound(trials: &mut Trials) {
    let whole = Sample::new(1, &WEIGHTS, &[A, B], &[(1, &[D])]);
    for record in [Record { own: 3, ..whole.record }, Record { n: 2, ..whole.record }, Record::ZERO, whole.record] {
        trials.begin();
        trials.sample(&Sample { record, ..whole.clone() });
        for room in [0, 96] {
            trials.output(room);
            trials.say("W");
        }
        compare(trials, &[1, 1, 0]);
        compare(trials, &[1, 1]);
    }
}

/// A random record, seldom unsound; its vectors written into some room, and random vectors near them compared.
fn any(trials: &mut Trials, random: &mut Random) {
    let family = Family::new(random);
    let own = family.office(random);
    let mut sample = family.sample(random, own);
    let vectors: Vec<Vec<u8>> = (0..random.within(1, 4)).map(|_| any_vector(random, &sample)).collect();
    let length = COUNT_SIZE * sample.record.n * (sample.record.n + 1);
    if random.percent(10) {
        break_one(random, &mut sample);
    }
    trials.begin();
    trials.sample(&sample);
    trials.output(random.pick(&[length, length, length + 3, length - 1]));
    trials.say("W");
    for vector in vectors {
        trials.message(&vector);
        trials.say("C");
    }
}
