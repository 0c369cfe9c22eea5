//! What became of an edit: pending, settled or lost.

#[path = "../examples/service/dice.rs"]
mod dice;
#[path = "../examples/service/lost.rs"]
mod lost;

use dice::Dice;
use joukerpan::{Entry, Office, Outcome, Refused, TAIL};
use lost::hear;

const WEIGHTS: [u16; 3] = [40, 35, 25];

fn offices() -> [Office; 3] {
    [0, 1, 2].map(|own| Office::found(own, &WEIGHTS).unwrap())
}

/// The entries that the office has lost by taking the other's message and electing.
fn hears(office: &mut Office, from: &Office) -> Vec<Entry> {
    hear(office, &from.message()).unwrap().lost
}

/// An entry of an office.
fn edit(office: u8, line: u8, code: u16) -> Entry {
    Entry { office, line, code }
}

#[test]
fn an_office_says_what_it_was_founded_as() {
    for own in 0..3 {
        let office = Office::found(own, &WEIGHTS).unwrap();
        assert_eq!((office.own(), office.offices()), (own, 3));
        assert_eq!((office.weights(), office.present()), (&WEIGHTS[..], &WEIGHTS[..]));
        assert!(office.pending().is_empty());
    }
    assert_eq!(Office::found(7, &[1; 8]).unwrap().weights(), [1; 8]);
    assert_eq!(Office::found(7, &[1; 8]).unwrap().present(), [1; 8]);
}

#[test]
fn an_adopted_entry_is_not_an_own_edit() {
    let [mut zero, _, mut two] = offices();
    zero.issue(5, 120).unwrap();
    two.take(&zero.message()).unwrap();
    assert_eq!(two.tentative_frame(5), Ok(Some(120)));
    assert!(two.pending().is_empty());
    two.issue(6, 7).unwrap();
    assert_eq!(two.pending(), [edit(2, 6, 7)]);
}

#[test]
fn an_edit_that_settles_is_not_lost() {
    let [mut zero, _, mut two] = offices();
    zero.issue(5, 120).unwrap();
    zero.issue(5, 120).unwrap();
    assert_eq!(zero.pending().len(), 2);
    assert!(hears(&mut two, &zero).is_empty());
    assert!(hears(&mut zero, &two).is_empty());
    assert_eq!((zero.pending().len(), zero.settled().len()), (0, 2));
}

#[test]
fn a_rival_on_another_line_takes_the_place() {
    let [mut zero, mut one, mut two] = offices();
    one.issue(5, 130).unwrap();
    one.issue(7, 1).unwrap();
    zero.issue(6, 7).unwrap();
    assert!(hears(&mut two, &zero).is_empty());
    assert_eq!(hears(&mut one, &two), [edit(1, 5, 130), edit(1, 7, 1)]);
    assert_eq!(one.tentative_frame(5), Ok(None));
}

#[test]
fn the_first_settles_and_the_second_is_lost() {
    let [mut zero, mut one, mut two] = offices();
    one.issue(5, 130).unwrap();
    hears(&mut two, &one); // 60 above 40: settled at office 2
    assert_eq!(two.settled().len(), 1);
    hears(&mut zero, &two);
    zero.issue(6, 7).unwrap(); // office 0 edits with 130 in view,
    one.issue(7, 1).unwrap(); // and so does office 1
    hears(&mut two, &zero);
    assert_eq!(hears(&mut one, &two), [edit(1, 7, 1)]);
    assert_eq!(
        (one.settled_frame(5), one.settled_frame(7), one.tentative_frame(7)),
        (Ok(Some(130)), Ok(None), Ok(None))
    );
    one.issue(7, 1).unwrap(); // made again, now with office 0's edit in view
    assert!(hears(&mut two, &one).is_empty());
    assert_eq!(two.settled_frame(7), Ok(Some(1)));
}

#[test]
fn an_edit_can_lose_in_the_own_offices_election() {
    let [mut zero, mut one, mut two] = offices();
    zero.issue(5, 120).unwrap();
    one.issue(5, 130).unwrap();
    two.issue(5, 140).unwrap();
    assert!(hears(&mut one, &two).is_empty());
    assert_eq!(hears(&mut one, &zero), [edit(1, 5, 130)]);
    assert_eq!((one.settled_frame(5), one.tentative_frame(5)), (Ok(Some(120)), Ok(Some(120))));
}

#[test]
fn an_outcome_says_what_was_done() {
    let [mut zero, mut one, mut two] = offices();
    assert_eq!(zero.elect(), Outcome::default()); // nothing there, nothing changed
    zero.issue(5, 120).unwrap();
    zero.issue(6, 7).unwrap();
    let waiting = Outcome { pending: zero.pending(), ..Outcome::default() };
    assert_eq!(zero.elect(), waiting); // 40 is not above 60

    let taken = two.take(&zero.message()).unwrap();
    assert_eq!(taken, Outcome { changed: true, ..Outcome::default() }); // adopted entries are not its own
    assert_eq!(two.take(&zero.message()).unwrap(), Outcome::default()); // the same again
    assert_eq!(two.elect(), Outcome { changed: true, grown: 2, ..Outcome::default() });

    let taken = zero.take(&two.message()).unwrap();
    assert_eq!(taken, Outcome { settled: 2, changed: true, grown: 2, ..Outcome::default() });
    one.issue(7, 1).unwrap();
    let taken = one.take(&two.message()).unwrap();
    assert_eq!(taken, Outcome { lost: vec![edit(1, 7, 1)], changed: true, grown: 2, ..Outcome::default() });

    one.issue(7, 1).unwrap();
    zero.take(&one.message()).unwrap();
    let folded = Outcome { changed: true, dropped: 2, ..Outcome::default() };
    assert_eq!(zero.fold(), folded); // all three are known to have both
    assert_eq!(zero.fold(), Outcome::default());
    let taken = one.take(&zero.message()).unwrap();
    assert_eq!(taken, Outcome { pending: vec![edit(1, 7, 1)], ..folded }); // what it had dropped goes here too
}

#[test]
fn two_calls_together() {
    let mut office = Office::found(0, &[60, 40]).unwrap();
    office.issue(5, 120).unwrap();
    let before = *office.record();
    let first = office.elect();
    office.issue(6, 7).unwrap();
    let both = first.clone().then(office.elect());
    assert_eq!((both.settled, both.grown, both.changed), (2, 2, true));
    assert_eq!(office.since(&before).unwrap(), Outcome { grown: 2, ..first }); // one was pending then
    let lost = |line| Outcome { lost: vec![edit(0, line, 1)], ..Outcome::default() };
    assert_eq!(lost(1).then(lost(2)).lost, [edit(0, 1, 1), edit(0, 2, 1)]);
    let pending = Outcome { pending: vec![edit(0, 3, 1)], ..Outcome::default() };
    assert_eq!(pending.clone().then(lost(3)), lost(3));
    assert_eq!(lost(1).then(pending.clone()).pending, pending.pending);
}

#[test]
fn what_no_earlier_record_of_the_office_says() {
    let [mut zero, one, mut two] = offices();
    let founded = *zero.record();
    zero.issue(5, 120).unwrap();
    two.take(&zero.message()).unwrap();
    two.elect();
    zero.take(&two.message()).unwrap();
    assert_eq!(zero.since(&founded).unwrap().grown, 1);
    assert_eq!(zero.since(one.record()), Err(Refused::Unsound)); // another office's
    assert_eq!(Office::found(0, &WEIGHTS).unwrap().since(zero.record()), Err(Refused::Unsound)); // a later one
    assert_eq!(Office::found(0, &[40, 36, 25]).unwrap().since(&founded), Err(Refused::Unsound)); // another frame's
    let mut third = one;
    third.take(&two.message()).unwrap();
    zero.take(&third.message()).unwrap();
    assert_eq!(zero.fold().dropped, 1);
    assert_eq!(zero.since(&founded), Err(Refused::Unsound)); // what was settled since is dropped
}

/// The words of the office's own path from a place on, dropped or not: the settled log, then its own ballot.
fn own_path(office: &Office, from: u64) -> Vec<u32> {
    let own = &office.record().ballots[office.own()];
    [&office.settled()[(from - office.dropped()) as usize..], &own.cells[..own.len]].concat()
}

/// The own edits of the path before that the path after does not begin with, place by place.
fn lost_by_place(before: &Office, after: &Office) -> Vec<Entry> {
    let (old, new) = (own_path(before, after.dropped()), own_path(after, after.dropped()));
    let alike = old.iter().zip(&new).take_while(|(a, b)| a == b).count();
    let gone = old[alike..].iter().map(|&word| Entry::from(word));
    gone.filter(|entry| usize::from(entry.office) == before.own()).collect()
}

#[test]
fn what_is_lost_is_what_left_the_own_path() {
    let mut dice = Dice(15);
    let (mut settled, mut gone, mut dropped) = (0, 0, 0);
    for _ in 0..200 {
        let weights: Vec<u16> = (0..2 + dice.below(4)).map(|_| 1 + dice.below(9) as u16).collect();
        let n = weights.len();
        let mut offices: Vec<Office> = (0..n).map(|own| Office::found(own, &weights).unwrap()).collect();
        let mut sent = vec![offices[0].message()];
        for _ in 0..120 {
            let office = &mut offices[dice.below(n)];
            if dice.below(3) == 0 && office.pending().len() < TAIL / n {
                // below its part nothing stops it
                match dice.below(4) {
                    0 => office.move_weight(dice.below(n), 1 + dice.below(3) as u16).unwrap(),
                    _ => office.issue(dice.below(4) as u32, dice.below(3) as u32).unwrap(),
                }
                // equal entries again and again
            }
            let before = office.clone();
            let taken = office.take(&sent[dice.below(sent.len())]);
            assert!(matches!(taken, Ok(_) | Err(Refused::OwnMessage | Refused::EndsInside)));
            let mut outcome = taken.unwrap_or_default().then(office.elect());
            assert_eq!(outcome.lost, lost_by_place(&before, office));
            if dice.below(4) == 0 {
                outcome = outcome.then(office.fold());
            }
            assert_eq!(outcome.settled + outcome.pending.len() + outcome.lost.len(), before.pending().len());
            assert_eq!(outcome.pending, office.pending());
            assert!(outcome.pending.is_empty() || outcome.lost.is_empty());
            assert_eq!(outcome.changed, *office != before);
            assert_eq!(office.settled_length(), before.settled_length() + outcome.grown);
            assert_eq!(office.dropped(), before.dropped() + outcome.dropped);
            (settled, gone, dropped) = (settled + outcome.grown, gone + outcome.lost.len(), dropped + outcome.dropped);
            sent.push(office.message());
        }
    }
    assert!(settled > 1000 && gone > 1000 && dropped > 100, "{settled} {gone} {dropped}");
}
