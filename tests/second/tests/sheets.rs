//! The household sheet: document 02's request (vii), worked by hand and against its sentences.

mod common;

use common::*;
use second::random::Random;
use second::record::*;
use second::samples::{any_households, damaged_households, Family, Sample};
use second::sheet::{household, sheet, Row, HOUSEHOLDS};

/// The bytes of these households, lines and weights.
fn bytes(households: &[(u8, u32)]) -> Vec<u8> {
    households.iter().flat_map(|&(line, weight)| household(line, weight)).collect()
}

/// The sheet over this settled log, classes and totals.
fn given(settled: &[u32], households: &[u8]) -> (u32, Vec<(Option<u32>, u64)>) {
    let office = record(1, &WEIGHTS, settled, &[(1, &[entry(1, 5, 9), entry(1, 6, 9)])]);
    let (number, rows) = sheet(&office, &log(settled), households);
    (number, rows.into_iter().map(|Row { class, total }| (class, total)).collect())
}

#[test]
fn the_layout() {
    assert_eq!(household(5, 0x0102_0304), [0x48, 0x52, 5, 1, 2, 3, 4]);
}

#[test]
fn weights_are_pooled_under_the_settled_code() {
    let settled = [A, D, entry(1, 7, 120), entry(2, 63, 9999), entry(1, 8, 0), entry(2, 9, 0), entry(2, 9, 7)];
    for (households, rows) in [
        (&[][..], &[][..]),
        (&[(5, 1)], &[(Some(120), 1)]),
        (&[(5, 0)], &[(Some(120), 0)]),
        (&[(5, 1), (7, 2), (5, 3)], &[(Some(120), 6)]),
        (&[(63, 1), (5, 2), (6, 3)], &[(Some(7), 3), (Some(120), 2), (Some(9999), 1)]),
        (&[(5, u32::MAX), (7, u32::MAX), (5, 1)], &[(Some(120), 0x1_FFFF_FFFF)]),
        // Uncoded first, if there are any, and apart from class 0.
        (&[(0, 0)], &[(None, 0)]),
        (&[(8, 5), (9, 4)], &[(Some(0), 5), (Some(7), 4)]),
        (&[(8, 5), (0, 3), (62, 1), (6, 2), (9, 4)], &[(None, 4), (Some(0), 5), (Some(7), 6)]),
    ] {
        assert_eq!(given(&settled, &bytes(households)), (DONE, rows.to_vec()));
    }
}

#[test]
fn what_is_refused() {
    let whole = bytes(&[(5, 1), (63, 2)]);
    assert_eq!(given(&[A], &whole).0, DONE);
    for length in (1..whole.len()).filter(|length| length % 7 != 0) {
        assert_eq!(given(&[A], &whole[..length]), (NO_HOUSEHOLDS, vec![]), "cut to {length}");
    }
    for (at, byte) in [(0, 0x49), (1, 0x53), (7, 0x52), (8, 0x48), (2, 64), (9, 64), (9, 255)] {
        let mut other = whole.clone();
        other[at] = byte;
        assert_eq!(given(&[A], &other), (NO_HOUSEHOLDS, vec![]), "byte {at} made {byte}");
    }
    let unsound = Record { n: 0, ..record(1, &WEIGHTS, &[], &[]) };
    for households in [&whole[..], &[], &[1]] {
        assert_eq!(sheet(&unsound, &log(&[]), households), (UNSOUND, vec![]));
    }
    assert_eq!(sheet(&record(1, &WEIGHTS, &[], &[]), &log(&[])[..1023], &whole), (UNSOUND, vec![]));
}

#[test]
fn a_million_households_and_one_more() {
    let mut all = household(5, u32::MAX).repeat(HOUSEHOLDS);
    assert_eq!(given(&[A], &all), (DONE, vec![(Some(120), 1_000_000 * 0xFFFF_FFFF)]));
    all.extend(household(5, 0));
    assert_eq!(given(&[A], &all), (NO_HOUSEHOLDS, vec![]));
}

/// The households, if the bytes are of the layout: lines and weights.
fn read(bytes: &[u8]) -> Option<Vec<(u32, u64)>> {
    let one = |part: &[u8]| match part {
        [0x48, 0x52, line, weight @ ..] if *line <= 63 && weight.len() == 4 => {
            Some((u32::from(*line), weight.iter().fold(0, |number, &byte| 256 * number + u64::from(byte))))
        }
        _ => None,
    };
    bytes.chunks(7).map(one).collect()
}

#[test]
fn sheets_are_what_the_request_says() {
    let mut random = Random::new(1);
    let (mut done, mut refused) = (0, 0);
    for _ in 0..20_000 {
        let family = Family::new(&mut random);
        let own = family.office(&mut random);
        let Sample { record, log } = family.sample(&mut random, own);
        let count = random.below(60);
        let households = any_households(&mut random, count);
        let damaged = random.percent(50);
        let households = if damaged { damaged_households(&mut random, households) } else { households };
        let (number, rows) = sheet(&record, &log, &households);
        let Some(read) = read(&households) else {
            assert_eq!((number, rows), (NO_HOUSEHOLDS, vec![]));
            refused += 1;
            continue;
        };
        done += 1;
        let class = |line: u32| {
            let settled = log[..record.held()].iter();
            let last = settled.rev().find(|&&word| word / 65536 % 256 == line).map(|word| word % 65536);
            last.or(coded(record.kept.codes[line as usize]))
        };
        let mut classes: Vec<Option<u32>> = read.iter().map(|&(line, _)| class(line)).collect();
        classes.sort_unstable();
        classes.dedup();
        let total =
            |of: Option<u32>| read.iter().filter(|&&(line, _)| class(line) == of).map(|&(_, weight)| weight).sum();
        let expected: Vec<Row> = classes.iter().map(|&class| Row { class, total: total(class) }).collect();
        assert_eq!((number, &rows), (DONE, &expected));
        assert_eq!(rows.iter().map(|row| row.total).sum::<u64>(), read.iter().map(|&(_, weight)| weight).sum());
    }
    assert!(done > 8000 && refused > 5000, "{done} {refused}");
}
