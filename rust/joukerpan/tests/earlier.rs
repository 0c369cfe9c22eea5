//! The frame as of an earlier place: always what the first entries of the log say, by the shortest run that says it.

#[path = "../examples/service/dice.rs"]
mod dice;

use dice::Dice;
use joukerpan::{Entry, EntryKind, Office, Refused, LINES, LOG};

/// The line that an entry is an edit of, and its code.
fn edit(word: u32) -> Option<(u32, u32)> {
    match Entry::from(word).kind() {
        EntryKind::Edit { line, code } => Some((line.into(), code.into())),
        _ => None,
    }
}

/// What the first p entries say of the lines, by the sentences of requests (ix) and (x).
fn edits(first: &[u32], lines: &[u32]) -> Vec<Option<u32>> {
    let last = |line| first.iter().rev().filter_map(|&word| edit(word)).find(|&(of, _)| of == line);
    lines.iter().map(|&line| last(line).map(|(_, code)| code)).collect()
}

/// The length of the shortest run at the end of the first p entries that has an edit for each line, or p.
fn shortest(first: &[u32], lines: &[u32]) -> usize {
    let has = |run: &[u32], line| run.iter().any(|&word| edit(word).is_some_and(|(of, _)| of == line));
    let p = first.len();
    (0..=p).find(|r| lines.iter().all(|&line| has(&first[p - r..], line))).unwrap_or(p)
}

/// The answer is that of the log, for every p given.
fn agrees(office: &Office, places: impl IntoIterator<Item = usize>, lines: &[u32]) {
    for p in places {
        let answer = office.frame_at(p as u64, lines).unwrap();
        let first = &office.settled()[..p];
        assert_eq!(answer.edits(), edits(first, lines), "{p} {lines:?}");
        assert_eq!(answer.words(), shortest(first, lines), "{p} {lines:?}");
    }
}

/// An office alone that settles what it issues, up to the length given: edits, and moves of weight between them.
fn settled(length: usize, dice: &mut Dice) -> Office {
    let mut office = Office::found(0, &[9, 0]).unwrap();
    while office.settled().len() < length {
        match dice.below(4) {
            0 => office.move_weight(1, 9999).unwrap(),
            _ => office.issue(dice.below(60) as u32, dice.below(3) as u32).unwrap(),
        };
        office.elect();
    }
    office
}

#[test]
fn the_first_entries_say_it() {
    let mut dice = Dice(25);
    let office = settled(200, &mut dice);
    let all: Vec<u32> = (0..LINES).collect();
    agrees(&office, 0..=200, &[]);
    agrees(&office, 0..=200, &[7]);
    agrees(&office, 0..=200, &[7, 3, 7, 7, 59]);
    agrees(&office, 0..=200, &[63]); // never edited
    agrees(&office, 0..=200, &all[..60]);
    agrees(&office, 0..=200, &all);
    agrees(&office, 0..=200, &[7; 64]);
}

#[test]
fn at_the_settled_length_it_is_the_settled_frame() {
    let mut dice = Dice(26);
    let office = settled(LOG, &mut dice);
    let all: Vec<u32> = (0..LINES).collect();
    assert_eq!(office.frame_at(LOG as u64, &all).unwrap().edits(), office.frame());
    agrees(&office, [0, 1, 2, 511, 1023, 1024], &all);
    agrees(&office, [0, 1, 2, 511, 1023, 1024], &[5]);
}

#[test]
fn refused_in_order() {
    let mut dice = Dice(27);
    let office = settled(10, &mut dice);
    assert!(office.frame_at(10, &[0; 64]).is_ok());
    assert_eq!(office.frame_at(11, &[0]), Err(Refused::NoPlace));
    assert_eq!(office.frame_at(u64::MAX, &[]), Err(Refused::NoPlace));
    assert_eq!(office.frame_at(10, &[0; 65]), Err(Refused::NoPlace));
    assert_eq!(office.frame_at(10, &[64]), Err(Refused::NoEntry));
    assert_eq!(office.frame_at(11, &[0, u32::MAX]), Err(Refused::NoEntry)); // 3 before 13
    let mut many = [0; 1000];
    many[999] = 64;
    assert_eq!(office.frame_at(11, &many), Err(Refused::NoEntry)); // also among more than 64
    assert_eq!(office.frame_at(0, &[5]).unwrap().edits(), [None]);
}
