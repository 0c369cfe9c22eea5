//! The calls against the papers' sentences on plain lists, over random records and messages.

mod common;

use common::lists::{lists, Effect, Lists};
use second::calls::{issue, settled, settled_codes, settled_frame, tentative_frame};
use second::elect::elect;
use second::fold::fold;
use second::message::read;
use second::random::Random;
use second::record::{sound, Ballot, Record};
use second::samples::{break_one, Family, Sample};
use second::take::take;

/// The places that are compared from the last shared place back to the first: up to and including the first difference
/// met, every shared place if none differs.
fn places_from_the_end(theirs: &[u32], ours: &[u32]) -> usize {
    let shared = theirs.len().min(ours.len());
    let mut places = 0;
    while places < shared {
        places += 1;
        if theirs[shared - places] != ours[shared - places] {
            break;
        }
    }
    places
}

/// How the paper's code is stored: 0 for no edit yet, one more than the code otherwise.
fn stored(code: Option<u32>) -> u32 {
    match code {
        None => 0,
        Some(code) => code + 1,
    }
}

/// Whether all the words past the settled ones are as they were.
fn rest_kept(before: &Sample, after: &Sample) -> bool {
    let held = after.record.held();
    before.log.len() == after.log.len() && before.log[held..] == after.log[held..]
}

#[test]
fn takes_are_what_the_paper_says() {
    let mut random = Random::new(1);
    let mut numbers = [0; 18];
    for _ in 0..60_000 {
        let family = Family::new(&mut random);
        let (own, from) = (family.office(&mut random), family.office(&mut random));
        let before = family.sample(&mut random, own);
        let sender = family.sample(&mut random, from);
        let message = sender.message();
        assert_eq!(message, lists(&sender).message());
        let mut after = before.clone();
        let (number, places, record) = take(after.record, &mut after.log, &message);
        after.record = record;
        let mut expected = lists(&before);
        let compared = match expected.aligned(&lists(&sender)) {
            Ok((ours, theirs)) if matches!(number, 0 | 10) => places_from_the_end(&theirs.log, &ours.log),
            _ => 0,
        };
        assert_eq!(places, compared);
        assert_eq!(number, expected.take(&lists(&sender)));
        assert_eq!(lists(&after), expected);
        assert!(sound(&after.record, &after.log) && rest_kept(&before, &after));
        numbers[number as usize] += 1;
        if number != 0 {
            assert_eq!(after, before);
        }
    }
    assert!(numbers[0] > 10_000 && [9, 10, 16, 17].iter().all(|&number| numbers[number] > 1000), "{numbers:?}");
}

#[test]
fn folds_are_what_the_paper_says() {
    let mut random = Random::new(6);
    let mut done = 0;
    for _ in 0..60_000 {
        let family = Family::new(&mut random);
        let own = family.office(&mut random);
        let before = family.sample(&mut random, own);
        let mut after = before.clone();
        let (number, count, record) = fold(after.record, &mut after.log);
        after.record = record;
        let mut expected = lists(&before);
        assert_eq!((number, count), (0, expected.fold()));
        assert_eq!(lists(&after), expected);
        assert!(sound(&after.record, &after.log) && rest_kept(&before, &after));
        assert_eq!(settled_codes(&after.record, &after.log), settled_codes(&before.record, &before.log));
        assert_eq!((record.present, record.settled), (before.record.present, before.record.settled));
        assert_eq!(fold(record, &mut after.log), (0, 0, record));
        done += usize::from(count > 0);
    }
    assert!(done > 5000, "{done}");
}

#[test]
fn elections_are_what_the_paper_says() {
    let mut random = Random::new(2);
    for _ in 0..60_000 {
        let family = Family::new(&mut random);
        let own = family.office(&mut random);
        let before = family.sample(&mut random, own);
        let mut after = before.clone();
        let (number, count, record) = elect(after.record, &mut after.log);
        after.record = record;
        let mut expected = lists(&before);
        assert_eq!((number, count), (0, expected.elect()));
        assert_eq!(lists(&after), expected);
        assert!(sound(&after.record, &after.log) && rest_kept(&before, &after));
    }
}

#[test]
fn issues_and_frames_are_what_the_paper_says() {
    let mut random = Random::new(3);
    for _ in 0..20_000 {
        let family = Family::new(&mut random);
        let own = family.office(&mut random);
        let before = family.sample(&mut random, own);
        let Sample { record, log } = &before;
        let model = lists(&before);
        let line = random.pick(&[0, 1, 5, 62, 63]);
        let (edited, code) = random.pick(&[(line, 77), (64, 1), (64 + own as u32, 9999)]);
        let frames = model.frames(line);
        assert_eq!(settled_frame(record, log, line), (0, frames.0));
        assert_eq!(tentative_frame(record, log, line), (0, frames.1));
        assert_eq!(settled(record, log), (0, &model.log[..]));
        assert_eq!(settled_codes(record, log), (0, std::array::from_fn(|line| stored(model.frames(line as u32).0))));
        let (number, after) = issue(*record, log, edited, code);
        let length = model.tails[own].len();
        let part = issued_by(own as u32, &model.tails[own]) == 32 / record.n;
        let full = model.log.len() + length == 1024 || model.length() + length as u64 == 1 << 63;
        let expected = if full { 5 } else { 11 * u32::from(part) };
        assert_eq!(number, expected);
        let mut tail = model.tails[own].clone();
        if number == 0 {
            tail.push(own as u32 * 16777216 + edited * 65536 + code);
        }
        let mut wanted = *record;
        wanted.ballots[own] = Ballot::of(&tail);
        assert_eq!(after, wanted);
    }
}

/// Whether the word is an entry among n offices: an edit, or a move to one of them.
fn proper(e: u32, n: usize) -> bool {
    let (office, line, code) = (e / 16777216, e / 65536 % 256, e % 65536);
    let move_of_weight = (64..64 + n as u32).contains(&line) && (1..=9999).contains(&code);
    office < n as u32 && (line <= 63 && code <= 9999 || move_of_weight)
}

/// How many of the entries the office issued.
fn issued_by(office: u32, entries: &[u32]) -> usize {
    entries.iter().filter(|&&e| e / 16777216 == office).count()
}

/// "In any tail at most 32 / n entries, rounded down, may come from one office."
fn fair(tail: &[u32], n: usize) -> bool {
    (0..n as u32).all(|office| issued_by(office, tail) <= 32 / n)
}

/// "Kept counts add up to the dropped count, kept weights to the total (with nothing dropped they are the founding
/// weights, and no code is kept), all kept values within their limits, and no noted length passes the record's own."
fn kept_by_sentences(record: &Record) -> bool {
    let Record { n, own, weights, kept, noted, settled, .. } = *record;
    let sum = |numbers: &[u64]| numbers.iter().map(|&number| u128::from(number)).sum::<u128>();
    let total = |weights: [u16; 8]| sum(&weights.map(u64::from));
    let mut good = sum(&kept.counts) == u128::from(kept.dropped) && total(kept.present) == total(weights);
    good &= (n..8).all(|office| kept.counts[office] == 0 && kept.present[office] == 0);
    good &= kept.codes.iter().all(|&number| number <= 10_000);
    good &= kept.dropped > 0 || kept.present == weights && kept.codes == [0; 64];
    good && (0..8).all(|office| noted[office] <= if office == own || office >= n { 0 } else { settled })
}

/// Soundness, sentence by sentence.
fn sound_by_sentences(sample: &Sample) -> bool {
    let Record { n, own, weights, kept, present, settled, codes, ballots, .. } = sample.record;
    if !(1..=8).contains(&n) || own >= n || sample.log.len() < 1024 || !kept_by_sentences(&sample.record) {
        return false;
    }
    let (whole, held) = (u128::from(settled), i128::from(settled) - i128::from(kept.dropped));
    if !(0..=1024).contains(&held) || whole > 1 << 63 {
        return false;
    }
    let total: u64 = weights.iter().map(|&weight| u64::from(weight)).sum();
    let mut good = total >= 1 && (n..8).all(|office| weights[office] == 0);
    good &= (0..held as usize).all(|at| proper(sample.log[at], n));
    for (office, ballot) in ballots.iter().enumerate() {
        good &= ballot.len <= 32 && (office < n || ballot.len == 0);
        good &= ballot.len as i128 + held <= 1024 && ballot.len as u128 + whole <= 1 << 63;
        good &= (0..32).all(|at| if at < ballot.len { proper(ballot.cells[at], n) } else { ballot.cells[at] == 0 });
        good = good && fair(&ballot.cells[..ballot.len], n);
    }
    let follow = || {
        let Effect { weights: mut expected, codes: last, .. } = lists(sample).effect();
        expected.resize(8, 0);
        expected == present.map(u64::from) && (0..64).all(|line| codes[line] == stored(last[line]))
    };
    good && follow()
}

#[test]
fn soundness_is_what_the_paper_says() {
    let mut random = Random::new(4);
    let mut broken = 0;
    for _ in 0..30_000 {
        let family = Family::new(&mut random);
        let own = family.office(&mut random);
        let mut sample = family.sample(&mut random, own);
        assert!(sound(&sample.record, &sample.log) && sound_by_sentences(&sample));
        break_one(&mut random, &mut sample);
        assert_eq!(sound(&sample.record, &sample.log), sound_by_sentences(&sample));
        broken += usize::from(!sound_by_sentences(&sample));
    }
    assert!(broken > 25_000, "{broken}");
}

/// The record that bytes spell if each field is believed, and whether all of it is within the limits.
fn believed(bytes: &[u8]) -> Option<Lists> {
    let number = |at: usize, size: usize| -> Option<u64> {
        bytes.get(at..at + size)?.iter().try_fold(0, |number, &byte| Some(number * 256 + u64::from(byte)))
    };
    let n = number(3, 1)? as usize;
    let weights = (0..n).map(|k| number(4 + 2 * k, 2)).collect::<Option<_>>()?;
    let (whole, dropped) = (number(4 + 2 * n, 8)?, number(12 + 2 * n, 8)?);
    let settled = whole.checked_sub(dropped).filter(|&held| held <= 1024)? as usize;
    let mut at = 20 + 2 * n;
    let log = (0..settled).map(|k| Some(number(at + 6 * k + 2, 4)? as u32)).collect::<Option<_>>()?;
    at += 6 * settled;
    let mut tails = vec![vec![]; n];
    while at + 2 < bytes.len() {
        let (office, length) = (number(at + 2, 1)? as usize, number(at + 3, 1)? as usize);
        *tails.get_mut(office)? =
            (0..length).map(|k| Some(number(at + 4 + 4 * k, 4)? as u32)).collect::<Option<_>>()?;
        at += 4 + 4 * length;
    }
    let nothing = Effect { weights: vec![], codes: vec![], counts: vec![] };
    let own = number(2, 1)? as usize;
    let lists = Lists { own, weights, dropped, kept: nothing, noted: vec![], log, tails };
    let proper = |&e: &u32| proper(e, n);
    let good = (1..=8).contains(&n)
        && lists.own < n
        && lists.log.iter().all(proper)
        && lists.tails.iter().all(|tail| u128::from(whole) + tail.len() as u128 <= 1 << 63)
        && lists.tails.iter().all(|tail| tail.len() <= 32 && settled + tail.len() <= 1024 && tail.iter().all(proper))
        && lists.tails.iter().all(|tail| fair(tail, n));
    good.then_some(lists)
}

#[test]
fn a_message_is_read_if_it_is_what_would_be_written() {
    let mut random = Random::new(5);
    let mut read_changed = 0;
    for _ in 0..60_000 {
        let family = Family::new(&mut random);
        let own = family.office(&mut random);
        let whole = family.sample(&mut random, own).message();
        let mut bytes = whole.clone();
        for _ in 0..random.below(3) {
            let at = random.below(bytes.len());
            match random.below(6) {
                0 => bytes.truncate(at),
                1 => drop(bytes.remove(at)),
                2 => bytes.insert(at, 0),
                3 => bytes[at] ^= 1 << random.below(8),
                _ => bytes[at] = random.below(256) as u8,
            }
            if bytes.is_empty() {
                break;
            }
        }
        let expected = believed(&bytes).filter(|lists| lists.message() == bytes);
        assert_eq!(read(&bytes).is_some(), expected.is_some());
        read_changed += usize::from(expected.is_some() && bytes != whole);
    }
    assert!(read_changed > 2000, "{read_changed}");
}
