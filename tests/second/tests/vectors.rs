//! Version vectors for the archive: document 02's request (xi), worked by hand, and its law over generated histories.

mod common;

use common::*;
use second::archive::{compare_vector, write_vectors, Standing, PATHS};
use second::generate::{script, KINDS};
use second::lines::each_line;
use second::random::Random;
use second::record::*;
use second::rehearsal::World;
use second::samples::{any_vector, Family, Sample};
use Standing::{After, Before, Beside, Equal};

/// The bytes of a vector.
fn vector(counts: &[u64]) -> Vec<u8> {
    counts.iter().flat_map(|count| count.to_be_bytes()).collect()
}

#[test]
fn written_vectors() {
    // The log a, b, c; then 0:d, 1 with none, 2:d b.
    let office = record(1, &WEIGHTS, &[A, B, C], &[(0, &[D]), (2, &[D, B])]);
    let expected = [vector(&[1, 1, 1]), vector(&[2, 1, 1]), vector(&[1, 1, 1]), vector(&[2, 2, 1])].concat();
    let mut output = vec![9; 108];
    assert_eq!(write_vectors(&office, &log(&[A, B, C]), &mut output), (DONE, 96));
    assert_eq!((&output[..96], &output[96..]), (&expected[..], &[9; 12][..]));
    let mut short = vec![9; 95];
    assert_eq!(write_vectors(&office, &log(&[A, B, C]), &mut short), (OUTPUT_SHORT, 0));
    assert_eq!(short, [9; 95]);
    assert_eq!(write_vectors(&Record { own: 3, ..office }, &log(&[A, B, C]), &mut short), (UNSOUND, 0));
    // A count past 255.
    let long = record(0, &[1], &long_log(1000), &[(0, &long_tail(24))]);
    assert_eq!(write_vectors(&long, &log(&long_log(1000)), &mut output), (DONE, 16));
    assert_eq!(output[..16], [0, 0, 0, 0, 0, 0, 3, 232, 0, 0, 0, 0, 0, 0, 4, 0]);
}

#[test]
fn standings() {
    // Log a, b: 1 1 0. Paths: 0: a b d, 2 1 0; 1: the log; 2: a b d c, 2 1 1.
    let office = record(1, &WEIGHTS, &[A, B], &[(0, &[D]), (2, &[D, C])]);
    for (counts, log_stands, first, second, third) in [
        ([1, 1, 0], Equal, After, Equal, After),
        ([2, 1, 0], Before, Equal, Before, After),
        ([2, 1, 1], Before, Before, Before, Equal),
        ([0, 0, 0], After, After, After, After),
        ([1, 0, 1], Beside, Beside, Beside, After),
        ([1, 2, 0], Before, Beside, Before, Beside),
        ([0, 2, 0], Beside, Beside, Beside, Beside),
        ([1024, 1024, 1024], Before, Before, Before, Before),
        ([u64::MAX, u64::MAX, u64::MAX], Before, Before, Before, Before),
        ([1 << 32, 1, 0], Before, Before, Before, Beside),
    ] {
        let (number, standings) = compare_vector(&office, &log(&[A, B]), &vector(&counts));
        assert_eq!((number, &standings[..4]), (DONE, &[log_stands, first, second, third][..]), "{counts:?}");
        assert_eq!(standings[4..], [Beside; 5]);
    }
}

#[test]
fn what_is_refused() {
    let office = record(1, &WEIGHTS, &[A, B], &[]);
    let given = |bytes: &[u8]| compare_vector(&office, &log(&[A, B]), bytes);
    let refused = (NO_VECTOR, [Beside; PATHS]);
    assert_eq!(given(&vector(&[1, 1, 1025])).0, DONE);
    assert_eq!(given(&vector(&[1 << 63, 1, u64::MAX])).0, DONE);
    assert_eq!(given(&vector(&[1, 1])), refused);
    assert_eq!(given(&vector(&[1, 1, 0, 0])), refused);
    assert_eq!(given(&[]), refused);
    assert_eq!(given(&vector(&[1, 1, 0])[..23]), refused);
    assert_eq!(given(&vector(&[1, 1, 0])[..12]), refused);
    assert_eq!(compare_vector(&office, &log(&[A, B])[..1023], &[]), (UNSOUND, [Beside; PATHS]));
}

/// The log and then each office's path.
fn paths(record: &Record, log: &[u32]) -> Vec<Vec<u32>> {
    let settled = &log[..record.held()];
    let tails = record.ballots[..record.n].iter().map(|ballot| [settled, ballot.tail()].concat());
    std::iter::once(settled.to_vec()).chain(tails).collect()
}

/// Entries of each office, one by one.
fn counts(path: &[u32], n: usize) -> Vec<u64> {
    (0..n as u32).map(|office| path.iter().filter(|&&word| word / 16777216 == office).count() as u64).collect()
}

/// Whether each of its counts is at most the other's.
fn at_most(one: &[u64], other: &[u64]) -> bool {
    one.iter().zip(other).all(|(one, other)| one <= other)
}

#[test]
fn vectors_are_what_the_request_says() {
    let mut random = Random::new(1);
    let mut seen = [0; 4];
    for _ in 0..20_000 {
        let family = Family::new(&mut random);
        let own = family.office(&mut random);
        let sample = family.sample(&mut random, own);
        let Sample { record, log } = &sample;
        let n = record.n;
        let bytes = any_vector(&mut random, &sample);
        let given: Vec<u64> = bytes.chunks(8).map(|part| part.iter().fold(0, |a, &b| 256 * a + u64::from(b))).collect();
        let (number, standings) = compare_vector(record, log, &bytes);
        let kept = |counts: Vec<u64>| counts.iter().zip(record.kept.counts).map(|(a, b)| a + b).collect();
        let all: Vec<Vec<u64>> = paths(record, log).iter().map(|path| kept(counts(path, n))).collect();
        if bytes.len() != 8 * n {
            assert_eq!((number, standings), (NO_VECTOR, [Beside; PATHS]));
            continue;
        }
        for (counts, standing) in all.iter().zip(standings) {
            let expected = match (at_most(counts, &given), at_most(&given, counts)) {
                (true, true) => Equal,
                (true, false) => Before,
                (false, true) => After,
                (false, false) => Beside,
            };
            assert_eq!(standing, expected);
            seen[standing as usize] += 1;
        }
        // Reading back what was written answers equal for what it was written from.
        let mut output = vec![0; 8 * n * (n + 1)];
        assert_eq!(write_vectors(record, log, &mut output), (DONE, output.len()));
        for (place, vector) in output.chunks(8 * n).enumerate() {
            assert_eq!(compare_vector(record, log, vector).1[place], Equal);
        }
    }
    assert!(seen.iter().all(|&times| times > 1000), "{seen:?}");
}

/// Checks the law at every office: a path is a beginning of another exactly if each of its counts is at most the other's.
fn counts_decide(world: &World, beside: &mut usize) {
    for office in &world.offices {
        let paths = paths(&office.record, &office.log);
        for one in &paths {
            for other in &paths {
                let (fewer, begins) = (at_most(&counts(one, 8), &counts(other, 8)), other.starts_with(one));
                assert_eq!(fewer, begins);
                *beside += usize::from(!begins && !one.starts_with(other));
            }
        }
    }
}

#[test]
fn in_an_office_of_the_world_counts_decide() {
    let mut beside = 0;
    for kind in KINDS {
        for seed in 0..3 {
            let mut world = World::default();
            each_line(&script(kind, seed, 600).unwrap()[..], |line| {
                world.answer(line, &mut vec![]);
                counts_decide(&world, &mut beside);
                Ok(())
            })
            .unwrap();
        }
    }
    assert!(beside > 1000, "{beside}");
}

#[test]
fn across_two_offices_counts_do_not_decide() {
    // Office 2 hears of office 0's edit a. Office 1 settles b alone; office 0 takes that log, loses its ballot, and edits
    // again with b in view: 1 0 0 at office 2 is at most 1 1 0 at office 0, and a is no beginning of b, d.
    let mut world = World::default();
    for line in ["f 3 20 60 20", "i 0 5 120", "s 0 0", "t 2 0", "i 1 5 130", "e 1", "s 1 1", "t 0 1", "i 0 6 7"] {
        world.answer(line.as_bytes(), &mut vec![]);
    }
    let path = |k: usize| paths(&world.offices[k].record, &world.offices[k].log)[1].clone();
    assert_eq!((path(2), path(0)), (vec![A], vec![B, D]));
    assert!(at_most(&counts(&path(2), 3), &counts(&path(0), 3)) && !path(0).starts_with(&path(2)));
}
