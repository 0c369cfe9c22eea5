//! The settled frame whole: always the 64 single ones, and always what the settled log says.

#[path = "../examples/service/dice.rs"]
mod dice;

use dice::Dice;
use joukerpan::{Entry, EntryKind, Office, Refused, LINES, TAIL};

type Frame = [Option<u32>; LINES as usize];

const WEIGHTS: [u16; 3] = [40, 35, 25];
const NONE: Frame = [None; LINES as usize];

/// The settled frame line by line.
fn single_lines(office: &Office) -> Frame {
    let mut lines = 0..LINES;
    NONE.map(|_| office.settled_frame(lines.next().unwrap()).unwrap())
}

/// The codes that a log gives, by the sentences of document 01 and requests (ii) and (ix).
fn codes_of(log: &[u32]) -> Frame {
    let mut codes = NONE;
    for entry in log.iter().map(|&word| Entry::from(word)) {
        if let EntryKind::Edit { line, code } = entry.kind() {
            codes[usize::from(line)] = Some(code.into());
        }
    }
    codes
}

/// The frame, once it is the same in all three ways.
fn frame(office: &Office) -> Frame {
    let frame = office.frame();
    assert_eq!(frame, single_lines(office));
    assert_eq!(frame, codes_of(office.settled()));
    assert_eq!(frame.map(|code| code.map_or(0, |code| code + 1)), office.record().summary.codes);
    frame
}

/// A frame with these codes alone.
fn with(codes: &[(usize, u32)]) -> Frame {
    let mut frame = NONE;
    codes.iter().for_each(|&(line, code)| frame[line] = Some(code));
    frame
}

#[test]
fn edits_show_once_they_are_settled() {
    let [mut zero, mut one, mut two] = [0, 1, 2].map(|own| Office::found(own, &WEIGHTS).unwrap());
    assert_eq!(frame(&zero), NONE);
    zero.issue(5, 120).unwrap();
    zero.issue(63, 9999).unwrap();
    assert_eq!((frame(&zero), zero.tentative_frame(63)), (NONE, Ok(Some(9999))));

    two.take(&zero.message()).unwrap();
    assert_eq!((frame(&two), two.tentative_frame(63)), (NONE, Ok(Some(9999)))); // heard, not settled
    assert_eq!(two.elect().grown, 2);
    assert_eq!(frame(&two), with(&[(5, 120), (63, 9999)]));

    one.issue(5, 130).unwrap();
    one.take(&two.message()).unwrap(); // its own edit is lost
    assert_eq!(frame(&one), frame(&two));
    assert_eq!(frame(&zero), NONE);
}

#[test]
fn the_last_edit_of_a_line_counts() {
    let mut office = Office::found(0, &[1]).unwrap();
    for code in [120, 9999, 1, 0, 256, 0] {
        office.issue(0, code).unwrap();
        office.issue(1, 7).unwrap();
        assert_eq!(office.elect().grown, 2);
        assert_eq!(frame(&office), with(&[(0, code), (1, 7)]));
    }
    office.issue(0, 5).unwrap();
    office.issue(0, 6).unwrap();
    assert_eq!(office.elect().grown, 2);
    assert_eq!(frame(&office), with(&[(0, 6), (1, 7)]));
}

#[test]
fn code_0_is_a_code_like_another() {
    let mut office = Office::found(0, &[1]).unwrap();
    assert_eq!((office.settled_frame(5), office.tentative_frame(5)), (Ok(None), Ok(None)));
    office.issue(5, 0).unwrap();
    assert_eq!((office.settled_frame(5), office.tentative_frame(5)), (Ok(None), Ok(Some(0))));
    assert_eq!(office.elect().grown, 1);
    assert_eq!((office.settled_frame(5), office.tentative_frame(5)), (Ok(Some(0)), Ok(Some(0))));
    assert_eq!((frame(&office), office.tentative_frame(6)), (with(&[(5, 0)]), Ok(None)));

    let (mut record, log) = office.into_parts();
    record.summary.codes[5] = 0; // no edit yet, which is not what the log says
    assert_eq!(Office::from_parts(record, log), Err(Refused::Unsound));
}

#[test]
fn a_move_sets_no_code() {
    let mut office = Office::found(0, &[60, 40]).unwrap();
    office.issue(0, 120).unwrap();
    office.elect();
    for to in [0, 1] {
        for weight in [1, 5, 9999] {
            office.move_weight(to, weight).unwrap(); // it takes effect or it does not
            assert_eq!(office.elect().grown, 1);
            assert_eq!((frame(&office), office.tentative_frame(to as u32 + 1)), (with(&[(0, 120)]), Ok(None)));
        }
    }
    let mut one = Office::found(1, &[60, 40]).unwrap();
    one.take(&office.message()).unwrap();
    assert_eq!((frame(&one), one.present()), (frame(&office), office.present()));
}

#[test]
fn every_line_of_a_full_log() {
    let mut office = Office::found(0, &[1]).unwrap();
    for place in 0..1024 {
        office.issue(place % LINES, place).unwrap();
        assert_eq!(office.elect().grown, 1);
    }
    assert!((960..1024).map(Some).eq(frame(&office)));
    assert_eq!(office.issue(0, 1), Err(Refused::LogFull));
    assert!((960..1024).map(Some).eq(frame(&office)));
    assert_eq!(frame(&Office::from_bytes(&office.to_bytes()).unwrap()), frame(&office));
}

#[test]
fn a_code_that_does_not_follow_from_the_log_is_refused() {
    let mut office = Office::found(0, &[1]).unwrap();
    (0..LINES).step_by(2).for_each(|line| office.issue(line, line).unwrap());
    office.elect();
    for line in 0..LINES as usize {
        for change in [1, u32::MAX, 65_536] {
            let (mut record, log) = office.clone().into_parts();
            record.summary.codes[line] = record.summary.codes[line].wrapping_add(change);
            assert_eq!(Office::from_parts(record, log), Err(Refused::Unsound), "{line}");
        }
    }
}

#[test]
fn the_frame_is_kept_in_every_history() {
    let mut dice = Dice(17);
    let (mut by_takes, mut by_elections, mut alike) = (0, 0, 0);
    for _ in 0..80 {
        let weights: Vec<u16> = (0..2 + dice.below(3)).map(|_| 1 + dice.below(9) as u16).collect();
        let n = weights.len();
        let mut offices: Vec<Office> = (0..n).map(|own| Office::found(own, &weights).unwrap()).collect();
        let mut sent = vec![offices[0].message()];
        for _ in 0..80 {
            let office = &mut offices[dice.below(n)];
            let before = frame(office);
            if dice.below(3) == 0 && office.pending().len() < TAIL / n {
                match dice.below(3) {
                    0 => office.move_weight(dice.below(n), 1 + dice.below(6) as u16).unwrap(),
                    _ => office.issue(dice.below(LINES as usize) as u32, dice.below(10_000) as u32).unwrap(),
                }
            }
            assert_eq!(frame(office), before, "an entry that is not settled shows");
            let taken = office.take(&sent[dice.below(sent.len())]);
            assert!(matches!(taken, Ok(_) | Err(Refused::OwnMessage)));
            let between = frame(office);
            by_takes += usize::from(between != before);
            office.elect();
            by_elections += usize::from(frame(office) != between);
            sent.push(office.message());
        }
        for (a, b) in [(0, 1), (0, n - 1)].map(|(a, b)| (&offices[a], &offices[b])) {
            assert!(a.settled() != b.settled() || a.frame() == b.frame());
            alike += usize::from(a.settled() == b.settled() && a.frame() != NONE);
        }
    }
    assert!(by_takes > 200 && by_elections > 200 && alike > 20, "{by_takes} {by_elections} {alike}");
}
