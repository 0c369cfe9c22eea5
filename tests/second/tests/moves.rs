//! Votes that move between offices: document 02's request (i), worked by hand.

mod common;

use common::*;
use second::calls::*;
use second::elect::elect;
use second::record::*;

/// A move of weight from one office to another.
fn move_entry(from: usize, to: u32, code: u32) -> u32 {
    entry(from, 64 + to, code)
}

/// Eight weights, those past the given ones zero.
fn eight(given: &[u16]) -> [u16; OFFICES] {
    std::array::from_fn(|office| given.get(office).copied().unwrap_or(0))
}

/// A record with these founding and present weights.
fn moved(own: usize, weights: &[u16], present: &[u16], settled: &[u32], ballots: &[(usize, &[u32])]) -> Record {
    Record { present: eight(present), ..record(own, weights, settled, ballots) }
}

/// Elects from an empty log: the settled log, and the record.
fn elected(weights: &[u16], ballots: &[(usize, &[u32])]) -> (Vec<u32>, Record) {
    let mut log = log(&[]);
    let (number, count, after) = elect(record(0, weights, &[], ballots), &mut log);
    assert_eq!(number, DONE);
    assert!(sound(&after, &log) && after.weights == eight(weights));
    (log[..count].to_vec(), after)
}

#[test]
fn a_move_is_an_edit_of_a_line_past_the_frame() {
    assert_eq!(move_entry(2, 1, 300), 0x0241_012C);
    for n in 1..=8 {
        let office = record(n - 1, &vec![1; n], &[], &[]);
        for line in [63, 64, 63 + n as u32, 64 + n as u32, 71, 72, 255, 256 + 64, u32::MAX] {
            for code in [0, 1, 9999, 10_000, 65_537] {
                let edit = line <= 63 && code <= 9999;
                let weight = (64..64 + n as u32).contains(&line) && (1..=9999).contains(&code);
                let number = if edit || weight { DONE } else { NO_ENTRY };
                let (given, after) = issue(office, &log(&[]), line, code);
                assert_eq!(given, number, "{n} {line} {code}");
                let tail = [(n as u32 - 1) << 24 | line << 16 | code];
                assert_eq!(after.ballots[n - 1], ballot(if number == DONE { &tail } else { &[] }));
            }
        }
    }
}

#[test]
fn a_move_is_made_when_settled_and_only_then() {
    let office = record(0, &WEIGHTS, &[], &[(1, &[A])]);
    let (number, issued) = issue(office, &log(&[]), 65, 15);
    assert_eq!((number, issued.present), (DONE, eight(&WEIGHTS)));
    assert_eq!(issued.ballots[0], ballot(&[move_entry(0, 1, 15)]));
    let (settled, after) = elected(&WEIGHTS, &[(0, &[move_entry(0, 1, 15)]), (1, &[move_entry(0, 1, 15)])]);
    assert_eq!(settled, [move_entry(0, 1, 15)]);
    assert_eq!(after, moved(0, &WEIGHTS, &[25, 50, 25], &settled, &[]));
}

#[test]
fn what_a_move_does() {
    for (weights, word, present) in [
        ([40, 35, 25], move_entry(0, 1, 40), [0, 75, 25]),
        ([40, 35, 25], move_entry(0, 1, 41), [40, 35, 25]),
        ([40, 35, 25], move_entry(0, 1, 1), [39, 36, 25]),
        ([40, 35, 25], move_entry(0, 0, 1), [40, 35, 25]),
        ([40, 35, 25], move_entry(0, 0, 40), [40, 35, 25]),
        ([40, 35, 25], move_entry(2, 0, 25), [65, 35, 0]),
        ([40, 65495, 0], move_entry(0, 1, 40), [0, 65535, 0]),
        ([40, 65496, 0], move_entry(0, 1, 40), [40, 65496, 0]),
        ([65535, 55536, 0], move_entry(0, 1, 9999), [55536, 65535, 0]),
        ([65535, 55537, 0], move_entry(0, 1, 9999), [65535, 55537, 0]),
        ([9998, 0, 7], move_entry(0, 1, 9999), [9998, 0, 7]),
        ([65535, 65535, 65535], move_entry(0, 1, 1), [65535, 65535, 65535]),
    ] {
        let (settled, after) = elected(&weights, &[(0, &[word]), (1, &[word]), (2, &[word])]);
        assert_eq!((settled, after), (vec![word], moved(0, &weights, &present, &[word], &[])));
        let sent = message(&moved(0, &weights, &present, &[word], &[]), &log(&[word]));
        let mut kept = log(&[]);
        let (number, after) = take(record(1, &weights, &[], &[(1, &[word, D])]), &mut kept, &sent);
        assert_eq!((number, after, kept), (DONE, moved(1, &weights, &present, &[word], &[(1, &[D])]), log(&[word])));
    }
}

#[test]
fn each_step_uses_the_weights_at_its_log() {
    // Two moves: the second has what the first brought; in the other order it is short.
    let two = [move_entry(0, 1, 30), move_entry(1, 2, 65)];
    let all = |tail: &'static [u32]| [(0, tail), (1, tail), (2, tail)];
    assert_eq!(elected(&WEIGHTS, &[(0, &two), (1, &two), (2, &two)]).1.present, eight(&[10, 0, 90]));
    assert_eq!(elected(&WEIGHTS, &all(&[0x0142_0041, 0x0041_001E])).1.present, eight(&[10, 65, 25]));
    // 65 settle the move; then office 0 alone has 65 above the unheard 35.
    let handed = move_entry(2, 0, 25);
    let (settled, after) = elected(&WEIGHTS, &[(0, &[handed, A]), (2, &[handed])]);
    assert_eq!((settled, after), (vec![handed, A], moved(0, &WEIGHTS, &[65, 35, 0], &[handed, A], &[])));
    // With 65 before and 25 after, the entry behind the move stays.
    let given = move_entry(0, 1, 40);
    let (settled, after) = elected(&WEIGHTS, &[(0, &[given, A]), (2, &[given, A])]);
    assert_eq!(settled, [given]);
    assert_eq!(after, moved(0, &WEIGHTS, &[0, 75, 25], &[given], &[(0, &[A]), (2, &[A])]));
}

#[test]
fn a_move_that_costs_its_issuer_the_next_tie() {
    // Office 0 votes for b and office 1 for c; neither's office has an entry, so that b has a tie.
    let after = |word| elected(&[50, 50, 0], &[(0, &[word, B]), (1, &[word, C]), (2, &[word, C])]).0;
    assert_eq!(after(move_entry(0, 1, 1)), [move_entry(0, 1, 1), C]);
    assert_eq!(after(move_entry(0, 0, 1)), [move_entry(0, 0, 1), B]);
    assert_eq!(after(move_entry(0, 1, 51)), [move_entry(0, 1, 51), B]);
    // With an entry of its own behind the move it has lost the tie by that entry already.
    let after = |word| elected(&[50, 50], &[(0, &[word, A]), (1, &[word, B])]).0;
    assert_eq!(after(move_entry(0, 0, 1)), [move_entry(0, 0, 1), B]);
    assert_eq!(after(move_entry(1, 0, 1)), [move_entry(1, 0, 1), A]);
}

#[test]
fn moved_weight_is_unheard_where_it_is_now() {
    let word = move_entry(1, 2, 1);
    // 50 = 49 + 1: level with U added, and office 0's entry has the lower value.
    let (settled, after) = elected(&[50, 50, 0], &[(0, &[word, A]), (1, &[word, B])]);
    assert_eq!((settled, after.present), (vec![word, A], eight(&[50, 49, 1])));
    // 50 is not above 49 + 2.
    let word = move_entry(1, 2, 2);
    assert_eq!(elected(&[50, 51, 0], &[(0, &[word, A]), (1, &[word, B])]).0, [word]);
}

#[test]
fn present_weights_that_do_not_follow_are_unsound() {
    let settled = log(&[move_entry(0, 1, 15), D]);
    let good = moved(1, &WEIGHTS, &[25, 50, 25], &settled[..2], &[(1, &[B])]);
    assert!(sound(&good, &settled));
    for present in [[40, 35, 25], [26, 50, 25], [24, 50, 25], [25, 51, 24], [24, 50, 26], [0, 0, 0], [25, 50, 24]] {
        let bad = Record { present: eight(&present), ..good };
        assert!(!sound(&bad, &settled), "{present:?}");
        assert_eq!(elect(bad, &mut settled.clone()), (UNSOUND, 0, bad));
    }
    for office in 3..8 {
        let mut bad = good;
        bad.present[office] = 1;
        assert!(!sound(&bad, &settled));
    }
    assert!(sound(&moved(1, &WEIGHTS, &[25, 50, 25], &settled[..1], &[]), &settled));
    assert!(!sound(&moved(1, &WEIGHTS, &[25, 50, 25], &[], &[]), &settled));
    assert!(!sound(&good, &log(&[move_entry(0, 1, 14), D])));
    assert!(!sound(&good, &log(&[move_entry(0, 3, 15), D])));
    assert!(!sound(&moved(1, &WEIGHTS, &WEIGHTS, &[move_entry(0, 1, 0)], &[]), &log(&[move_entry(0, 1, 0)])));
    assert!(!sound(&moved(1, &WEIGHTS, &WEIGHTS, &[], &[(1, &[move_entry(1, 0, 0)])]), &log(&[])));
    assert!(!sound(&moved(1, &WEIGHTS, &WEIGHTS, &[], &[(1, &[move_entry(1, 3, 1)])]), &log(&[])));
    assert!(sound(&moved(1, &WEIGHTS, &WEIGHTS, &[], &[(1, &[move_entry(1, 2, 9999)])]), &log(&[])));
}

#[test]
fn messages_carry_the_founding_weights() {
    let settled = [move_entry(0, 1, 15)];
    let office = moved(0, &WEIGHTS, &[25, 50, 25], &settled, &[]);
    let sent = message(&office, &log(&settled));
    let with = |weights: [u8; 3]| {
        let [a, b, c] = weights;
        let lengths = [0, 0, 0, 0, 0, 0, 0, 1, 0, 0, 0, 0, 0, 0, 0, 0];
        [&[0x53, 0x48, 0, 3, 0, a, 0, b, 0, c], &lengths[..], &[0x4C, 0x47, 0, 65, 0, 15, 0x45, 0x4E]].concat()
    };
    assert_eq!(sent, with([40, 35, 25]));
    // A receiver that has not settled the move has other present weights and accepts it.
    let (number, after) = take(record(2, &WEIGHTS, &[], &[]), &mut log(&[]), &sent);
    assert_eq!((number, after), (DONE, Record { own: 2, ..office }));
    // So does one that has settled more.
    let more = [settled[0], move_entry(1, 2, 50)];
    let ahead = moved(2, &WEIGHTS, &[25, 0, 75], &more, &[]);
    assert_eq!(take(ahead, &mut log(&more), &sent), (DONE, ahead));
    // The present weights in its place are others.
    let before = Record { own: 2, ..office };
    assert_eq!(take(before, &mut log(&settled), &with([25, 50, 25])), (OTHER_WEIGHTS, before));
}

#[test]
fn a_message_has_moves_under_its_own_n() {
    let receiver = record(1, &WEIGHTS, &[], &[]);
    let given = |n: u8, line: u8, code: u8| {
        let mut sent = vec![0x53, 0x48, 0, n];
        (0..n).for_each(|office| sent.extend([0, [40, 35, 25, 0, 0, 0, 0, 0][usize::from(office)]]));
        sent.extend([0; 16]);
        sent.extend([0x42, 0x41, 0, 1, 0, line, 0, code, 0x45, 0x4E]);
        take(receiver, &mut log(&[]), &sent).0
    };
    for n in 1..=8 {
        let known = if n == 3 { DONE } else { OTHER_WEIGHTS };
        assert_eq!((given(n, 63, 0), given(n, 64, 1), given(n, 63 + n, 1)), (known, known, known), "{n}");
        assert_eq!((given(n, 64, 0), given(n, 63 + n, 0), given(n, 64 + n, 1)), (7, 7, 7), "{n}");
    }
}

#[test]
fn moves_change_no_code() {
    let settled = log(&[A, move_entry(0, 0, 7), move_entry(1, 2, 9)]);
    let office = moved(1, &WEIGHTS, &[40, 26, 34], &settled[..3], &[(1, &[move_entry(1, 0, 8)])]);
    for line in 0..64 {
        let code = (line == 5).then_some(120);
        assert_eq!(settled_frame(&office, &settled, line), (DONE, code));
        assert_eq!(tentative_frame(&office, &settled, line), (DONE, code));
    }
    for line in [64, 65, 66, 67] {
        assert_eq!(settled_frame(&office, &settled, line), (NO_ENTRY, None));
        assert_eq!(tentative_frame(&office, &settled, line), (NO_ENTRY, None));
    }
}

#[test]
fn a_thousand_moves() {
    // There and back 511 times, and there once more.
    let settled: Vec<u32> =
        (0..1023).map(|at| if at % 2 == 0 { move_entry(0, 1, 40) } else { move_entry(1, 0, 40) }).collect();
    assert!(sound(&moved(0, &WEIGHTS, &[0, 75, 25], &settled, &[]), &log(&settled)));
    assert!(sound(&moved(0, &WEIGHTS, &WEIGHTS, &settled[..1022], &[]), &log(&settled)));
    assert!(!sound(&moved(0, &WEIGHTS, &WEIGHTS, &settled, &[]), &log(&settled)));
    let ones = vec![move_entry(0, 2, 1); 1024];
    assert!(sound(&moved(1, &[1025, 0, 0], &[1, 0, 1024], &ones, &[]), &ones));
    assert!(sound(&moved(1, &[1000, 0, 0], &[0, 0, 1000], &ones, &[]), &ones));
}
