//! Folding the old part of the log: document 02's request (xiv), worked by hand.

mod common;

use common::*;
use second::archive::write_vectors;
use second::calls::*;
use second::earlier::earlier;
use second::elect::elect;
use second::fold::fold;
use second::forecast::forecast;
use second::message::send;
use second::record::*;
use second::samples::Sample;
use second::sheet::{household, sheet};

/// The paper's entries, then a move of 5 from office 1 to office 0.
const PATH: [u32; 5] = [A, D, B, C, entry(1, 64, 5)];

/// An office of three that has settled the first of these entries and dropped some of them.
fn at(own: usize, dropped: usize, settled: usize) -> Sample {
    Sample::new(own, &WEIGHTS, &PATH[..settled], &[]).without(dropped)
}

/// Takes the message of one office at another: number, places compared, and the receiver after it.
fn taken(receiver: &Sample, sender: &Sample) -> (u32, usize, Sample) {
    let Sample { record, mut log } = receiver.clone();
    let (number, places, record) = second::take::take(record, &mut log, &sender.message());
    (number, places, Sample { record, log })
}

/// Folds: how many went, and the office after it.
fn folded(office: &Sample) -> (u64, Sample) {
    let Sample { record, mut log } = office.clone();
    let (number, count, record) = fold(record, &mut log);
    assert_eq!(number, DONE);
    (count, Sample { record, log })
}

#[test]
fn the_part_that_every_office_is_known_to_have_is_dropped() {
    let office = at(1, 0, 5);
    for (zero, two, count) in [(0, 0, 0), (5, 0, 0), (0, 5, 0), (1, 5, 1), (5, 3, 3), (4, 4, 4), (5, 5, 5)] {
        let (went, after) = folded(&office.clone().noting(&[(0, zero), (2, two)]));
        assert_eq!(went, count);
        let gone = count as usize;
        assert_eq!(after, office.clone().noting(&[(0, zero), (2, two)]).without(gone));
        assert_eq!(settled(&after.record, &after.log), (DONE, &PATH[gone..]));
        assert_eq!((after.record.settled, after.record.kept.dropped), (5, count));
        assert_eq!(folded(&after), (0, after));
    }
    // Dropped by a take before: a noted length may be below the dropped count.
    assert_eq!(folded(&at(1, 3, 5).noting(&[(0, 2), (2, 5)])).0, 0);
    assert_eq!(folded(&at(1, 3, 5).noting(&[(0, 4), (2, 5)])).0, 1);
    // An office alone has heard of all.
    assert_eq!(folded(&Sample::new(0, &[1], &[A, D], &[])).0, 2);
}

#[test]
fn what_is_kept_is_what_the_dropped_entries_did() {
    let after = at(1, 5, 5).record.kept;
    assert_eq!((after.dropped, after.counts), (5, [2, 2, 1, 0, 0, 0, 0, 0]));
    assert_eq!(after.present, [45, 30, 25, 0, 0, 0, 0, 0]);
    let mut codes = [0; 64];
    (codes[5], codes[6]) = (141, 8);
    assert_eq!(after.codes, codes);
    assert_eq!(at(1, 0, 5).record.kept, Kept::nothing([40, 35, 25, 0, 0, 0, 0, 0]));
    // In two pieces as in one.
    assert_eq!(at(1, 2, 5).without(3).record, at(1, 5, 5).record);
}

#[test]
fn words_past_the_rest_keep_their_contents() {
    let Sample { record, log } = at(1, 0, 5).noting(&[(0, 2), (2, 2)]);
    let mut lent = log.clone();
    assert_eq!(fold(record, &mut lent).1, 2);
    assert_eq!(lent[..5], [B, C, PATH[4], C, PATH[4]]);
    assert_eq!(lent[5..], log[5..]);
}

#[test]
fn nothing_that_is_read_changes() {
    let households: Vec<u8> = (0..64).flat_map(|line| household(line, 1 << (line / 2))).collect();
    let whole = at(1, 0, 5);
    for gone in 0..=5 {
        let office = at(1, gone, 5);
        let both = [&whole, &office];
        let alike = |read: &dyn Fn(&Sample) -> String| assert_eq!(read(both[0]), read(both[1]));
        alike(&|office| format!("{:?}", settled_codes(&office.record, &office.log)));
        alike(&|office| format!("{:?}", tentative_frame(&office.record, &office.log, 5)));
        alike(&|office| format!("{:?}", sheet(&office.record, &office.log, &households)));
        alike(&|office| format!("{:?}", forecast(&office.record, &office.log, [1; 8], [2; 8])));
        alike(&|office| {
            let mut output = [0; 96];
            format!("{:?} {output:?}", write_vectors(&office.record, &office.log, &mut output))
        });
        assert_eq!(office.record.present, whole.record.present);
    }
}

#[test]
fn the_message_has_both_lengths_and_undropped_entries_only() {
    let sent = at(1, 3, 5).message();
    let by_hand = [
        0x53, 0x48, 1, 3, 0, 40, 0, 35, 0, 25, 0, 0, 0, 0, 0, 0, 0, 5, 0, 0, 0, 0, 0, 0, 0, 3, 0x4C, 0x47, 2, 5, 0,
        140, 0x4C, 0x47, 1, 64, 0, 5, 0x45, 0x4E,
    ];
    assert_eq!(sent, by_hand);
    let Sample { record, log } = at(1, 5, 5);
    assert_eq!(send(&record, &log, &mut [0; 28]), (DONE, 28));
    assert_eq!(send(&record, &log, &mut [0; 27]), (OUTPUT_SHORT, 0));
}

#[test]
fn a_take_drops_what_the_sender_had_dropped() {
    for (theirs, length) in [(0, 0), (0, 5), (2, 3), (3, 3), (3, 5), (5, 5)] {
        for (ours, settled) in [(0, 3), (0, 5), (1, 4), (3, 3), (3, 5), (5, 5)] {
            let (sender, receiver) = (at(0, theirs, length), at(1, ours, settled));
            let (number, places, after) = taken(&receiver, &sender);
            let wanted = if theirs > settled { 16 } else { 17 * u32::from(length < ours) };
            assert_eq!(number, wanted, "{theirs} {length} {ours} {settled}");
            if number != DONE {
                assert_eq!((places, after), (0, receiver));
                continue;
            }
            assert_eq!(places, length.min(settled) - theirs.max(ours));
            let wanted = at(1, theirs.max(ours), length.max(settled)).noting(&[(0, length as u64)]);
            assert_eq!(after.record, wanted.record);
            let held = after.record.held();
            assert_eq!(after.log[..held], wanted.log[..held]);
        }
    }
}

#[test]
fn numbers_16_and_17_and_their_place() {
    let receiver = at(1, 2, 4);
    // Equality is accepted, one past it is not.
    assert_eq!(taken(&receiver, &at(0, 4, 5)).0, DONE);
    assert_eq!(taken(&receiver, &at(0, 5, 5)), (BEGINS_PAST, 0, receiver.clone()));
    assert_eq!(taken(&receiver, &at(0, 0, 2)).0, DONE);
    assert_eq!(taken(&receiver, &at(0, 0, 1)), (ENDS_INSIDE, 0, receiver.clone()));
    // After 7, 8 and 9.
    let mut log = receiver.log.clone();
    let past = at(0, 5, 5).message();
    assert_eq!(take(receiver.record, &mut log, &past[..past.len() - 1]).0, NO_MESSAGE);
    assert_eq!(taken(&receiver, &at(1, 5, 5)).0, OWN_MESSAGE);
    let other = Sample::new(0, &[40, 35, 26], &PATH, &[]).without(5);
    assert_eq!(taken(&receiver, &other).0, OTHER_WEIGHTS);
    // A difference in a part that one of them has dropped isn't met; in the part that both still have it is.
    for (place, number, places) in [(0, DONE, 2), (1, DONE, 2), (2, LOGS_PART, 2), (3, LOGS_PART, 1)] {
        let mut path = PATH;
        path[place] = entry(2, 9, 9);
        let sender = Sample::new(0, &WEIGHTS, &path[..4], &[]);
        let (given, compared, _) = taken(&receiver, &sender);
        assert_eq!((given, compared), (number, places), "{place}");
    }
}

#[test]
fn lengths_are_noted_and_never_lowered() {
    let mut office = at(1, 0, 2);
    for (sender, settled, noted) in [(0, 1, [1, 0, 0]), (2, 3, [1, 0, 3]), (0, 5, [5, 0, 3]), (0, 2, [5, 0, 3])] {
        let (number, _, after) = taken(&office, &at(sender, 0, settled));
        assert_eq!((number, &after.record.noted[..3]), (DONE, &noted[..]));
        office = after;
    }
    let before = office.clone();
    assert_eq!(taken(&office, &Sample::new(2, &WEIGHTS, &[B, B, B, B, B, B], &[])), (LOGS_PART, 1, before));
}

#[test]
fn ties_count_dropped_entries() {
    // Office 0 has two entries, both dropped, and office 1 none: level, b wins.
    let tied = |dropped: usize| {
        let sample = Sample::new(0, &[50, 50, 0], &[A, D], &[(0, &[A]), (1, &[B])]).without(dropped);
        let (mut log, held) = (sample.log.clone(), sample.record.held());
        let (number, count, _) = elect(sample.record, &mut log);
        assert_eq!((number, count), (DONE, 1));
        assert_eq!(forecast(&sample.record, &sample.log, [50; 8], [50; 8]).1, None); // office 2 may have 50
        let equal = [50, 50, 0, 0, 0, 0, 0, 0];
        assert_eq!(forecast(&sample.record, &sample.log, equal, equal).1, Some(B));
        log[held]
    };
    assert_eq!([0, 1, 2].map(tied), [B; 3]);
}

#[test]
fn earlier_places_stop_at_the_dropped_part() {
    let Sample { record, log } = at(1, 2, 5);
    let given = |p, lines: &[u32]| {
        let (number, words, codes) = earlier(&record, &log, p, lines);
        (number, words, codes[..lines.len().min(64)].iter().map(|&code| coded(code)).collect::<Vec<_>>())
    };
    assert_eq!(given(5, &[5]), (DONE, 2, vec![Some(140)]));
    assert_eq!(given(3, &[5, 6]), (DONE, 1, vec![Some(130), Some(7)]));
    assert_eq!(given(2, &[5, 6, 7]), (DONE, 0, vec![Some(120), Some(7), None]));
    assert_eq!(given(5, &[6]), (DONE, 3, vec![Some(7)]));
    assert_eq!(given(2, &[]), (DONE, 0, vec![]));
    assert_eq!((given(1, &[5]), given(1, &[])), ((NO_PLACE, 0, vec![None]), (NO_PLACE, 0, vec![])));
    assert_eq!((given(1, &[64]).0, given(6, &[5]).0), (NO_ENTRY, NO_PLACE));
}

#[test]
fn an_issue_meets_5_at_1024_undropped_entries_and_at_2_to_the_63() {
    let kept =
        |dropped| Kept { dropped, counts: [dropped, 0, 0, 0, 0, 0, 0, 0], ..Kept::nothing([1, 0, 0, 0, 0, 0, 0, 0]) };
    let long = |dropped, held| Sample::new(0, &[1], &long_log(held), &[]).behind(kept(dropped));
    for (dropped, held, number) in [
        (0, 1024, LOG_FULL),
        (1, 1024, LOG_FULL),
        (1, 1023, DONE),
        (1 << 40, 1024, LOG_FULL),
        (LENGTH - 1, 0, DONE),
        (LENGTH, 0, LOG_FULL),
        (LENGTH - 5, 5, LOG_FULL),
        (LENGTH - 5, 4, DONE),
        (LENGTH - 5, 6, UNSOUND),
        (LENGTH + 1, 0, UNSOUND),
        (1, 1025, UNSOUND),
    ] {
        let Sample { record, log } = long(dropped, held);
        assert_eq!(issue(record, &log, 5, 120).0, number, "{dropped} {held}");
    }
    let Sample { mut record, log } = long(LENGTH - 3, 1);
    for number in [DONE, DONE, LOG_FULL] {
        let (given, after) = issue(record, &log, 5, 120);
        assert_eq!(given, number);
        record = after;
    }
    assert_eq!(issue(record, &log, 64, 0).0, NO_ENTRY);
}
