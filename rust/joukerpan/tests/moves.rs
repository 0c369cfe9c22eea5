//! Votes that move between offices: what a move does, when it does nothing, and that all offices agree on the weights.

#[path = "../examples/service/dice.rs"]
mod dice;

use dice::Dice;
use joukerpan::{Ballot, Entry, EntryKind, Office, Refused, LINES, TAIL};

const WEIGHTS: [u16; 3] = [40, 35, 25];

fn offices() -> [Office; 3] {
    [0, 1, 2].map(|own| Office::found(own, &WEIGHTS).unwrap())
}

/// The office takes the other's message, then elects.
fn hears(office: &mut Office, from: &Office) -> u64 {
    office.take(&from.message()).unwrap();
    office.elect().grown
}

/// A move's entry.
fn a_move(office: u8, to: u8, weight: u16) -> Entry {
    Entry { office, line: 64 + to, code: weight }
}

/// Office 0 of these weights with an empty log, each other office's ballot known.
fn with_ballots(weights: &[u16], ballots: &[&[Entry]]) -> Office {
    let (mut record, log) = Office::found(0, weights).unwrap().into_parts();
    for (Ballot { len, cells }, tail) in record.ballots.iter_mut().zip(ballots) {
        *len = tail.len();
        cells.iter_mut().zip(*tail).for_each(|(cell, entry)| *cell = entry.value());
    }
    Office::from_parts(record, log).unwrap()
}

/// The weights that a log gives, by the sentence of request (i).
fn weights_after(founding: &[u16], log: &[u32]) -> Vec<u16> {
    let mut weights: Vec<u32> = founding.iter().map(|&weight| weight.into()).collect();
    for entry in log.iter().map(|&word| Entry::from(word)) {
        if let EntryKind::Move { to, weight } = entry.kind() {
            let (from, to, weight) = (usize::from(entry.office), usize::from(to), u32::from(weight));
            if from != to && weights[from] >= weight && weights[to] + weight <= 65_535 {
                weights[from] -= weight;
                weights[to] += weight;
            }
        }
    }
    weights.into_iter().map(|weight| weight.try_into().unwrap()).collect()
}

#[test]
fn an_office_hands_its_weight_on_before_it_closes() {
    let [mut zero, mut one, mut two] = offices();
    two.issue(7, 300).unwrap();
    two.move_weight(0, 25).unwrap();
    assert_eq!(two.pending(), [Entry { office: 2, line: 7, code: 300 }, a_move(2, 0, 25)]);
    assert_eq!(hears(&mut zero, &two), 2); // 65 above the unheard 35
    assert_eq!((zero.present(), zero.settled_frame(7)), (&[65, 35, 0][..], Ok(Some(300))));

    assert_eq!(one.present(), WEIGHTS); // it has not heard
    hears(&mut one, &zero);
    assert_eq!((one.present(), one.weights()), (zero.present(), zero.weights()));

    zero.issue(5, 120).unwrap();
    assert_eq!(zero.elect().grown, 1); // by the founding weights 40 would not be above 60
    one.issue(5, 130).unwrap();
    assert_eq!(one.elect().grown, 0); // 35 is not above 65

    hears(&mut two, &zero);
    two.issue(6, 1).unwrap(); // with no weight left it edits still,
    assert_eq!((two.elect().grown, two.present()), (0, &[65, 35, 0][..]));
    assert_eq!(hears(&mut zero, &two), 1); // and wins by the votes of others
    two.move_weight(1, 1).unwrap();
    hears(&mut two, &zero);
    assert_eq!(hears(&mut zero, &two), 1); // a move of what it has not: settled,
    assert_eq!(zero.present(), [65, 35, 0]); // and of no effect
}

#[test]
fn a_move_takes_effect_or_changes_nothing() {
    for (weights, to, weight, after) in [
        ([60, 40], 1, 1, [59, 41]),
        ([60, 40], 1, 60, [0, 100]),
        ([60, 40], 1, 61, [60, 40]), // one more than there is
        ([60, 40], 0, 10, [60, 40]), // to itself
        ([60_000, 55_536], 1, 9999, [50_001, 65_535]),
        ([60_000, 55_537], 1, 9999, [60_000, 55_537]), // one more than an office can have
        ([65_535, 0], 1, 9999, [55_536, 9999]),
    ] {
        let mut office = Office::found(0, &weights).unwrap();
        office.move_weight(to, weight).unwrap();
        assert_eq!(office.present(), weights, "not settled yet");
        assert_eq!(office.elect().grown, 1);
        assert_eq!((office.present(), office.weights()), (&after[..], &weights[..]));
        assert_eq!(Office::from_bytes(&office.to_bytes()), Ok(office));
    }
}

#[test]
fn each_step_of_an_election_counts_by_the_weights_before_it() {
    let (m, d) = (a_move(2, 0, 25), Entry { office: 0, line: 6, code: 7 });
    let mut office = with_ballots(&WEIGHTS, &[&[m, d], &[], &[m]]);
    assert_eq!(office.elect().grown, 2); // d has 65 above 35, and had 40
    assert_eq!(office.present(), [65, 35, 0]);

    let mut office = with_ballots(&WEIGHTS, &[&[d, m], &[], &[d]]);
    assert_eq!(office.elect().grown, 1); // the other way about m has 40, not above 60
    assert_eq!(office.present(), WEIGHTS);

    let (there, back) = (a_move(0, 1, 30), a_move(1, 2, 65));
    let mut office = with_ballots(&WEIGHTS, &[&[there, back], &[there, back], &[]]);
    assert_eq!(office.elect().grown, 2); // the second moves what the first one brought
    assert_eq!(office.present(), [10, 0, 90]);
}

#[test]
fn a_move_costs_its_office_the_next_tie() {
    let (m, [a, b]) = (a_move(0, 1, 1), [0, 1].map(|office| Entry { office, line: 5, code: 120 }));
    let mut office = with_ballots(&[50, 50], &[&[m, a], &[m, b]]);
    assert_eq!(office.elect().grown, 2);
    assert_eq!((office.settled()[1], office.present()), (b.value(), &[49, 51][..]));
    let mut office = with_ballots(&[50, 50], &[&[a], &[b]]);
    assert_eq!((office.elect().grown, office.settled()[0]), (1, a.value()));
}

#[test]
fn messages_carry_the_founding_weights() {
    let mut zero = Office::found(0, &[60, 40]).unwrap();
    zero.move_weight(1, 35).unwrap();
    assert_eq!((zero.elect().grown, zero.present()), (1, &[25, 75][..]));
    assert_eq!(zero.message()[..8], [0x53, 0x48, 0, 2, 0, 60, 0, 40]);

    let mut one = Office::found(1, &[60, 40]).unwrap();
    assert!(one.take(&zero.message()).is_ok());
    assert_eq!(one.present(), [25, 75]);
    let other = Office::found(0, &[25, 75]).unwrap();
    assert_eq!(one.take(&other.message()), Err(Refused::OtherOffices));
}

#[test]
fn the_limits_of_a_move() {
    for n in 1..=8 {
        let last = LINES + n as u32 - 1;
        for line in [0, 63, 64, last, last + 1, 71, 72, 127, 128, 255, 256, 64 << 8, u32::MAX] {
            let mut office = Office::found(0, &vec![1; n]).unwrap();
            for code in [0, 1, 9999, 10_000, 65_535, 65_536, u32::MAX] {
                let proper = code <= 9999 && (line < LINES || line <= last && code > 0);
                let issued = office.issue(line, code);
                assert_eq!(issued, if proper { Ok(()) } else { Err(Refused::NoEntry) }, "{n} {line} {code}");
            }
            assert_eq!(office.tentative_frame(line).is_ok(), line < LINES);
            assert_eq!(office.settled_frame(line).is_ok(), line < LINES);
        }
    }
    let mut office = Office::found(1, &WEIGHTS).unwrap();
    for (to, weight) in [(3, 1), (8, 1), (usize::MAX, 1), (usize::MAX - 63, 1), (0, 0), (0, 10_000), (0, u16::MAX)] {
        assert_eq!(office.move_weight(to, weight), Err(Refused::NoEntry));
    }
    assert!(office.pending().is_empty());
}

#[test]
fn a_move_changes_no_frame() {
    let mut office = Office::found(0, &[1]).unwrap();
    office.issue(0, 120).unwrap();
    office.move_weight(0, 7).unwrap();
    let frame: Vec<Option<u32>> = (0..LINES).map(|line| (line == 0).then_some(120)).collect();
    for _ in 0..2 {
        assert_eq!((0..LINES).map(|line| office.tentative_frame(line).unwrap()).collect::<Vec<_>>(), frame);
        office.elect();
    }
    assert_eq!((0..LINES).map(|line| office.settled_frame(line).unwrap()).collect::<Vec<_>>(), frame);
}

#[test]
fn a_move_can_lose() {
    let [mut zero, mut one, mut two] = offices();
    one.move_weight(2, 35).unwrap();
    zero.issue(5, 120).unwrap();
    hears(&mut two, &zero);
    assert_eq!(one.take(&two.message()).unwrap().lost, [a_move(1, 2, 35)]);
    assert_eq!((one.present(), one.pending()), (&WEIGHTS[..], vec![]));
}

#[test]
fn offices_with_equal_logs_have_equal_weights() {
    let mut dice = Dice(16);
    let (mut moved, mut alike, mut apart) = (0, 0, 0);
    for _ in 0..150 {
        let weights: Vec<u16> = (0..2 + dice.below(3)).map(|_| 1 + dice.below(9) as u16).collect();
        let n = weights.len();
        let mut offices: Vec<Office> = (0..n).map(|own| Office::found(own, &weights).unwrap()).collect();
        let mut sent = vec![offices[0].message()];
        for _ in 0..120 {
            let office = &mut offices[dice.below(n)];
            if dice.below(3) == 0 && office.pending().len() < TAIL / n {
                match dice.below(2) {
                    0 => office.move_weight(dice.below(n), 1 + dice.below(6) as u16).unwrap(),
                    _ => office.issue(dice.below(4) as u32, dice.below(3) as u32).unwrap(),
                }
            }
            let before = office.present().to_vec();
            assert!(matches!(office.take(&sent[dice.below(sent.len())]), Ok(_) | Err(Refused::OwnMessage)));
            office.elect();
            assert_eq!(office.present(), weights_after(&weights, office.settled()));
            assert_eq!(office.present().iter().sum::<u16>(), weights.iter().sum());
            moved += usize::from(office.present() != before);
            sent.push(office.message());
        }
        for [a, b] in [[0, 1], [0, n - 1], [n - 2, n - 1]].map(|pair| pair.map(|own| &offices[own])) {
            assert!(a.settled() != b.settled() || a.present() == b.present());
            alike += usize::from(a.own() != b.own() && a.settled() == b.settled() && a.present() != weights);
            apart += usize::from(a.present() != b.present());
        }
    }
    assert!(moved > 500 && alike > 50 && apart > 10, "{moved} {alike} {apart}");
}
