//! Versions, layouts, and what is refused.

use super::{check_sum, sealed, VERSION};
use crate::{Office, Unreadable, LINES, OFFICES, TAIL};

/// Where the parts begin among an office's numbers.
const LENGTHS: usize = 2;
const WEIGHTS: usize = LENGTHS + 4;
const PRESENT: usize = WEIGHTS + OFFICES;
const CODES: usize = PRESENT + OFFICES;
const KEPT: usize = CODES + LINES as usize;
const KEPT_CODES: usize = KEPT + OFFICES;
const COUNTS: usize = KEPT_CODES + LINES as usize;
const NOTED: usize = COUNTS + 2 * OFFICES;
const BALLOTS: usize = NOTED + 2 * OFFICES;
const SETTLED: usize = BALLOTS + OFFICES * (1 + TAIL);

/// An office with a settled edit, a settled move and a ballot; nothing is dropped.
fn office() -> Office {
    let mut office = Office::found(1, &[40, 60, 0]).unwrap();
    office.issue(5, 130).unwrap();
    office.move_weight(2, 10).unwrap();
    assert_eq!(office.elect().grown, 2);
    office.issue(6, 7).unwrap();
    office
}

/// The same office with one entry dropped: the others were heard of after its first.
fn folded() -> Office {
    let mut office = office();
    let mut others = [0, 2].map(|own| Office::found(own, &[40, 60, 0]).unwrap());
    let mut early = Office::found(1, &[40, 60, 0]).unwrap();
    early.issue(5, 130).unwrap();
    early.elect();
    for other in &mut others {
        other.take(&early.message()).unwrap();
        office.take(&other.message()).unwrap();
    }
    assert_eq!((office.fold().dropped, office.settled().len()), (1, 1));
    office
}

/// The bytes that version 1 wrote, of an office with a settled edit and a ballot.
fn of_version_1() -> Vec<u8> {
    let mut numbers = vec![3, 1, 1, 40, 60];
    numbers.resize(3 + OFFICES + OFFICES * (1 + TAIL), 0);
    numbers[3 + OFFICES + 1 + TAIL..][..2].copy_from_slice(&[1, 0x0106_0007]);
    numbers.push(0x0105_0082);
    sealed(1, &numbers)
}

/// The numbers that version 4 wrote of the office: without what is kept and noted, and a length of 32 bits.
fn of_version_4() -> Vec<u32> {
    let mut numbers = numbers(&office());
    numbers.drain(KEPT..BALLOTS);
    numbers.drain(LENGTHS + 2..WEIGHTS);
    numbers.remove(LENGTHS);
    numbers
}

/// Where the codes stood in versions 3 and 4, which had one number fewer than four for the lengths.
const EARLIER_CODES: std::ops::Range<usize> = CODES - 3..KEPT - 3;

/// The numbers that version 2 wrote of the office: without the codes.
fn of_version_2() -> Vec<u32> {
    let mut numbers = of_version_4();
    numbers.drain(EARLIER_CODES);
    numbers
}

/// The numbers that version 3 wrote of the office: a line's code as it is, 0 for no edit yet too.
fn of_version_3() -> Vec<u32> {
    let mut numbers = of_version_4();
    numbers[EARLIER_CODES].iter_mut().for_each(|code| *code = code.saturating_sub(1));
    numbers
}

/// The numbers of the office's bytes, without mark, version and check sum.
fn numbers(office: &Office) -> Vec<u32> {
    let bytes = office.to_bytes();
    bytes[8..bytes.len() - 4].chunks_exact(4).map(|four| u32::from_be_bytes(four.try_into().unwrap())).collect()
}

#[test]
fn the_check_sum_is_the_common_one() {
    assert_eq!(check_sum(b"123456789"), 0xCBF4_3926);
}

/// The check sum of the bytes between the version and their own.
fn layout(bytes: &[u8]) -> u32 {
    check_sum(&bytes[8..bytes.len() - 4])
}

/// Where this fails the layout has changed, and the version has to, too.
#[test]
fn a_version_is_one_layout() {
    assert_eq!((VERSION, layout(&folded().to_bytes())), (5, 0x307D_93EA));
}

#[test]
fn bytes_of_earlier_versions_are_refused_by_name() {
    let earlier = [
        (of_version_1(), 0xCA83_B039, "version 1 (fixed weights)"),
        (sealed(2, &of_version_2()), 0xA8BB_308B, "version 2 (present weights)"),
        (sealed(3, &of_version_3()), 0xACAA_5213, "version 3 (settled codes)"),
        (sealed(4, &of_version_4()), 0xBA6D_49B4, "version 4 (uncoded lines)"),
    ];
    for (version, (bytes, wanted, name)) in (1..).zip(earlier) {
        assert_eq!(layout(&bytes), wanted);
        let refused = Office::from_bytes(&bytes).unwrap_err();
        assert_eq!(refused, Unreadable::OtherVersion(version));
        let sentence = format!("no office read: the bytes are of {name}; read is version 5 (dropped entries)");
        assert_eq!(refused.to_string(), sentence);
    }
}

#[test]
fn other_versions_are_refused() {
    for version in [0, 1, 2, 3, 4, VERSION + 1, u32::MAX] {
        let bytes = sealed(version, &numbers(&office()));
        assert_eq!(Office::from_bytes(&bytes), Err(Unreadable::OtherVersion(version)));
    }
    assert_eq!(Office::from_bytes(&sealed(VERSION, &numbers(&office()))), Ok(office()));
}

#[test]
fn whole_bytes_of_no_sound_office_are_refused() {
    let changes = [
        [(0, 9), (1, 3), (LENGTHS + 1, 1025), (LENGTHS, u32::MAX)],
        [(LENGTHS + 3, u32::MAX), (LENGTHS + 3, 3), (LENGTHS + 2, 1), (LENGTHS, 1)],
        [(KEPT, 41), (KEPT + 3, 1), (KEPT_CODES + 5, 1), (KEPT_CODES, 1)],
        [(COUNTS + 3, 1), (COUNTS, 1), (NOTED + 1, 3), (NOTED, 1)],
        [(NOTED + 3, 1), (NOTED + 7, 1), (NOTED + 15, 1), (COUNTS + 15, 1)],
        [(WEIGHTS, 65_536), (WEIGHTS, 41), (PRESENT, 65_536), (PRESENT, 41)],
        [(PRESENT + 1, 60), (PRESENT + 2, 0), (PRESENT + 3, 1), (PRESENT + 7, u32::MAX)],
        [(BALLOTS, 33), (BALLOTS + 1, 1), (SETTLED, 1 << 27), (SETTLED + 1, 0x0142_000B)],
        [(CODES + 5, 0), (CODES + 5, 65_536 + 131), (CODES + 6, 8), (SETTLED, 0x0105_0083)],
    ];
    for (place, number) in changes.concat() {
        let mut numbers = numbers(&office());
        numbers[place] = number;
        assert_eq!(Office::from_bytes(&sealed(VERSION, &numbers)), Err(Unreadable::Unsound), "{place}");
    }
}

#[test]
fn an_office_with_more_than_a_part_in_a_tail_is_not_sound() {
    let with_tail = |length: usize| {
        let mut numbers = numbers(&office());
        let own = BALLOTS + 1 + TAIL;
        numbers[own] = length as u32;
        numbers[own + 1..][..length].fill(0x0106_0007);
        Office::from_bytes(&sealed(VERSION, &numbers))
    };
    assert_eq!(with_tail(10).unwrap().pending().len(), 10); // 32 / 3, rounded down
    for length in [11, TAIL] {
        assert_eq!(with_tail(length), Err(Unreadable::Unsound));
    }
}

#[test]
fn what_is_kept_of_dropped_entries_is_refused_outside_its_limits() {
    let with = |place: usize, number: u32| {
        let mut numbers = numbers(&folded());
        numbers[place] = number;
        Office::from_bytes(&sealed(VERSION, &numbers))
    };
    assert_eq!(with(0, 3), Ok(folded()));
    for (place, number) in [
        (LENGTHS + 3, 0),
        (LENGTHS + 3, 2),
        (COUNTS + 1, 1),
        (COUNTS + 3, 0),
        (COUNTS + 2, 1),
        (KEPT, 41),
        (KEPT_CODES + 5, 10_001),
        (NOTED + 1, 3),
        (NOTED, 1),
    ] {
        assert!(with(place, number).is_err(), "{place} {number}");
    }
    assert!(with(NOTED + 1, 2).is_ok()); // the whole own length
}

#[test]
fn a_code_that_is_off_by_one_is_refused() {
    for place in CODES..KEPT {
        for change in [1, u32::MAX] {
            let mut numbers = numbers(&office());
            numbers[place] = numbers[place].wrapping_add(change);
            assert_eq!(Office::from_bytes(&sealed(VERSION, &numbers)), Err(Unreadable::Unsound), "{place}");
        }
    }
}

#[test]
fn too_many_and_too_few_numbers_are_refused() {
    let numbers = numbers(&office());
    for length in 0..numbers.len() {
        assert_eq!(Office::from_bytes(&sealed(VERSION, &numbers[..length])), Err(Unreadable::Damaged));
    }
    let more = [&numbers[..], &[0]].concat();
    assert_eq!(Office::from_bytes(&sealed(VERSION, &more)), Err(Unreadable::Damaged));
}
