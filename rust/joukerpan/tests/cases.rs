//! The paper's cases through the safe crate: the rehearsal, A to L, and each refusal.

use joukerpan::{Ballot, Entry, Office, Outcome, Record, Refused, LOG, MESSAGE_MAX, OFFICES, TAIL};

const A: Entry = Entry { office: 0, line: 5, code: 120 };
const B: Entry = Entry { office: 1, line: 5, code: 130 };
const C: Entry = Entry { office: 2, line: 5, code: 140 };
const D: Entry = Entry { office: 0, line: 6, code: 7 };
const WEIGHTS: [u16; 3] = [40, 35, 25];

/// The words of some entries.
fn words(entries: &[Entry]) -> Vec<u32> {
    entries.iter().map(|entry| entry.value()).collect()
}

/// An office with these edits settled and these ballots.
fn office(own: usize, weights: &[u16], settled: &[Entry], ballots: &[(usize, &[Entry])]) -> Office {
    let (mut record, mut log) = Office::found(own, weights).unwrap().into_parts();
    record.settled = settled.len() as u64;
    log[..settled.len()].copy_from_slice(&words(settled));
    for edit in settled {
        record.summary.codes[usize::from(edit.line)] = u32::from(edit.code) + 1;
    }
    for &(place, tail) in ballots {
        let ballot = &mut record.ballots[place];
        ballot.len = tail.len();
        ballot.cells[..tail.len()].copy_from_slice(&words(tail));
    }
    Office::from_parts(record, log).unwrap()
}

/// The office's known tail of a place.
fn tail(office: &Office, place: usize) -> Vec<Entry> {
    let Ballot { len, cells } = office.record().ballots[place];
    cells[..len].iter().map(|&word| word.into()).collect()
}

/// How many entries an election settles, and the log after it.
fn elected(weights: &[u16], ballots: &[(usize, &[Entry])]) -> (u64, Vec<u32>) {
    let mut office = office(0, weights, &[], ballots);
    (office.elect().grown, office.settled().to_vec())
}

#[test]
fn the_rehearsal() {
    let [mut zero, mut one, mut two] = [0, 1, 2].map(|own| Office::found(own, &WEIGHTS).unwrap());
    zero.issue(5, 120).unwrap();
    one.issue(5, 130).unwrap();
    let message = zero.message();
    assert_eq!(message.len(), 36);
    two.take(&message).unwrap();
    assert_eq!(two.elect().grown, 1);
    assert_eq!((two.settled_frame(5), two.tentative_frame(5)), (Ok(Some(120)), Ok(Some(120))));
    assert_eq!((one.settled_frame(5), one.tentative_frame(5)), (Ok(None), Ok(Some(130))));
}

#[test]
fn a_to_h_elect() {
    assert_eq!(elected(&WEIGHTS, &[(0, &[A])]), (0, vec![]), "A");
    assert_eq!(elected(&WEIGHTS, &[(0, &[A]), (2, &[A])]), (1, words(&[A])), "B");
    assert_eq!(elected(&WEIGHTS, &[(0, &[A]), (1, &[B])]), (0, vec![]), "C");
    assert_eq!(elected(&WEIGHTS, &[(0, &[A]), (1, &[B]), (2, &[C])]), (1, words(&[A])), "D");
    assert_eq!(elected(&[50, 50, 0], &[(0, &[A]), (1, &[B])]), (1, words(&[A])), "E");
    assert_eq!(elected(&[50, 50], &[(0, &[A])]), (0, vec![]), "F");
    assert_eq!(elected(&WEIGHTS, &[(0, &[A, D]), (2, &[A, D])]), (2, words(&[A, D])), "G");
    assert_eq!(elected(&[40, 30, 30], &[(0, &[A, D]), (1, &[A]), (2, &[C])]), (1, words(&[A])), "H");
}

#[test]
fn i_a_longer_log_resets_the_own_ballot() {
    let mut one = office(1, &WEIGHTS, &[], &[(1, &[B])]);
    one.take(&office(2, &WEIGHTS, &[A], &[]).message()).unwrap();
    let (mut wanted, log) = office(1, &WEIGHTS, &[A], &[]).into_parts();
    wanted.noted[2] = 1;
    assert_eq!(one, Office::from_parts(wanted, log).unwrap());
}

#[test]
fn j_and_k_a_shorter_log_still_counts_once() {
    let mut one = office(1, &WEIGHTS, &[A], &[]);
    let message = office(0, &WEIGHTS, &[], &[(0, &[A, D])]).message();
    one.take(&message).unwrap();
    let after = office(1, &WEIGHTS, &[A], &[(0, &[D]), (1, &[D])]);
    assert_eq!(one, after, "J");
    one.take(&message).unwrap();
    assert_eq!(one, after, "K");
}

#[test]
fn l_neither_log_begins_the_other() {
    let mut one = office(1, &WEIGHTS, &[A], &[]);
    let before = one.clone();
    let message = office(0, &WEIGHTS, &[B], &[]).message();
    assert_eq!(one.take(&message), Err(Refused::OtherLog));
    assert_eq!(one.take_with_places(&message), (Err(Refused::OtherLog), 1));
    assert_eq!(one, before);
}

#[test]
fn logs_are_compared_from_their_ends() {
    let path: Vec<Entry> = (0..LOG).map(|at| any(at % 3, at)).collect();
    let lengths = [0, 1, 2, 700, LOG - 1, LOG];
    for (own, sent) in lengths.iter().flat_map(|own| lengths.map(|sent| (*own, sent))) {
        let shared = own.min(sent);
        let one = office(1, &WEIGHTS, &path[..own], &[]);
        let message = office(0, &WEIGHTS, &path[..sent], &[]).message();
        let (taken, places) = one.clone().take_with_places(&message);
        assert_eq!((taken.unwrap().grown, places), ((sent - shared) as u64, shared), "{own} {sent}");
        let mut again = one.clone();
        again.take(&message).unwrap();
        assert_eq!(again.take_with_places(&message), (Ok(Outcome::default()), sent), "once more");
        for at in [0, shared / 2, shared.saturating_sub(1)].into_iter().filter(|&at| at < shared) {
            let mut other = path[..sent].to_vec();
            for differ in [at, 0] {
                other[differ].code = 9999; // the one nearer to the end is met
                let message = office(0, &WEIGHTS, &other, &[]).message();
                let met = (Err(Refused::OtherLog), shared - at);
                assert_eq!(one.clone().take_with_places(&message), met, "{own} {sent} {at}");
            }
        }
    }
}

#[test]
fn no_place_is_compared_on_any_other_refusal() {
    let mut one = office(1, &WEIGHTS, &[A, D], &[]);
    let message = office(0, &WEIGHTS, &[A, B], &[]).message();
    assert_eq!(one.take_with_places(&message), (Err(Refused::OtherLog), 1));
    assert_eq!(one.take_with_places(&message[1..]), (Err(Refused::NoMessage), 0));
    let message = office(0, &[40, 35, 26], &[A, B], &[]).message();
    assert_eq!(one.take_with_places(&message), (Err(Refused::OtherOffices), 0));
    let message = office(1, &WEIGHTS, &[A, B], &[]).message();
    assert_eq!(one.take_with_places(&message), (Err(Refused::OwnMessage), 0));
}

#[test]
fn a_ballot_that_merely_has_more_entries_is_not_adopted() {
    let mut one = office(1, &WEIGHTS, &[], &[(0, &[A]), (1, &[B])]);
    one.take(&office(0, &WEIGHTS, &[], &[(0, &[D, A])]).message()).unwrap();
    assert_eq!((tail(&one, 0), tail(&one, 1)), (vec![A], vec![B]));
}

#[test]
fn the_limits_of_an_issue() {
    let mut office = Office::found(1, &WEIGHTS).unwrap();
    assert_eq!(office.issue(64, 0), Err(Refused::NoEntry));
    assert_eq!(office.issue(67, 1), Err(Refused::NoEntry));
    assert_eq!(office.issue(0, 10_000), Err(Refused::NoEntry));
    assert_eq!(office.issue(u32::MAX, u32::MAX), Err(Refused::NoEntry));
    for _ in 0..10 {
        office.issue(63, 9999).unwrap(); // 32 / 3 of them, rounded down
    }
    let full = office.clone();
    assert_eq!(office.issue(63, 9999), Err(Refused::PartFull));
    assert_eq!(office.move_weight(0, 1), Err(Refused::PartFull));
    assert_eq!(office.issue(63, 10_000), Err(Refused::NoEntry));
    assert_eq!(office, full);
}

#[test]
fn the_part_of_an_office_among_one_to_eight() {
    for (offices, part) in (1..).zip([32, 16, 10, 8, 6, 5, 4, 4]) {
        let mut office = Office::found(offices - 1, &vec![1; offices]).unwrap();
        for at in 0..part {
            if at % 2 == 0 {
                office.issue(at, at).unwrap();
            } else {
                office.move_weight(0, 1).unwrap(); // a move is one of the part
            }
        }
        assert_eq!(office.issue(0, 0), Err(Refused::PartFull), "{offices}");
        assert_eq!(office.pending().len(), part as usize);
    }
}

#[test]
fn a_busy_office_waits_while_others_go_on() {
    let [mut busy, mut other] = [0, 1].map(|own| Office::found(own, &WEIGHTS).unwrap());
    for code in 0..10 {
        busy.issue(5, code).unwrap();
    }
    other.take(&busy.message()).unwrap();
    for code in 10..20 {
        other.issue(5, code).unwrap(); // behind the ten of the busy office
    }
    assert_eq!(other.issue(5, 20), Err(Refused::PartFull));
    busy.take(&other.message()).unwrap();
    assert_eq!((tail(&busy, 0).len(), busy.issue(5, 20)), (20, Err(Refused::PartFull)));
    assert_eq!(busy.elect().grown, 20); // 75 above 25
    assert_eq!(busy.issue(5, 20), Ok(()));
}

/// An entry of an office, one of many.
fn any(office: usize, at: usize) -> Entry {
    Entry { office: office as u8, line: (at % 64) as u8, code: at as u16 }
}

#[test]
fn a_tail_with_more_than_a_part_is_no_message_and_not_sound() {
    let parts: Vec<Entry> = (0..30).map(|at| any(at % 3, at)).collect();
    let sender = office(0, &WEIGHTS, &[], &[(0, &parts)]);
    let mut one = Office::found(1, &WEIGHTS).unwrap();
    one.take(&sender.message()).unwrap();
    assert_eq!(tail(&one, 1), parts);
    assert_eq!(one.issue(5, 1), Err(Refused::PartFull));

    let mut message = sender.message();
    let second = message.len() - 2 - 4 * 29; // before it the first entry's value, behind it the end mark
    message[second] = 0; // was office 1's: office 0 has eleven now, scattered over the tail
    let before = one.clone();
    assert_eq!(one.take(&message), Err(Refused::NoMessage));
    assert_eq!(one, before);

    let (mut record, log) = sender.into_parts();
    record.ballots[0].cells[1] = any(0, 1).value();
    assert_eq!(Office::from_parts(record, log), Err(Refused::Unsound));
}

#[test]
fn a_full_log() {
    let mut office = office(0, &[1], &[A; LOG - 1], &[]);
    office.issue(0, 1).unwrap();
    assert_eq!(office.issue(0, 2), Err(Refused::LogFull));
    assert_eq!(office.elect().grown, 1);
    assert_eq!((office.settled().len(), office.settled_frame(0)), (LOG, Ok(Some(1))));
    assert_eq!(office.issue(0, 2), Err(Refused::LogFull));
}

#[test]
fn a_full_log_is_told_before_a_full_part() {
    for (settled, wanted) in [(LOG - TAIL - 1, Refused::PartFull), (LOG - TAIL, Refused::LogFull)] {
        let mut office = office(0, &[1], &vec![A; settled], &[(0, &[D; TAIL])]);
        assert_eq!(office.issue(0, 1), Err(wanted));
    }
}

#[test]
fn the_longest_message() {
    let tail: Vec<Entry> = (0..TAIL).map(|at| any(at % OFFICES, at)).collect();
    let all: Vec<(usize, &[Entry])> = (0..OFFICES).map(|place| (place, &tail[..])).collect();
    let office = office(0, &[1; OFFICES], &[A; LOG - TAIL], &all);
    let mut output = [0xEE; MESSAGE_MAX];
    assert_eq!(office.send(&mut output[1..]), Err(Refused::OutputShort));
    assert!(output.iter().all(|&byte| byte == 0xEE));
    assert_eq!(office.send(&mut output).unwrap().len(), MESSAGE_MAX);
}

#[test]
fn messages_that_are_refused() {
    let mut one = office(1, &WEIGHTS, &[A], &[(1, &[D])]);
    let before = one.clone();
    let message = office(0, &WEIGHTS, &[A], &[(0, &[B])]).message();
    for length in 0..message.len() {
        assert_eq!(one.take(&message[..length]), Err(Refused::NoMessage));
    }
    assert_eq!(one.take(&[&message[..], &[0]].concat()), Err(Refused::NoMessage));
    assert_eq!(one.take(&office(0, &[40, 35, 26], &[], &[]).message()), Err(Refused::OtherOffices));
    assert_eq!(one.take(&office(0, &[40, 35], &[], &[]).message()), Err(Refused::OtherOffices));
    assert_eq!(one.take(&one.message()), Err(Refused::OwnMessage));
    assert_eq!(one, before);
}

#[test]
fn parts_that_are_not_sound() {
    let sound = office(1, &WEIGHTS, &[A], &[(1, &[D])]);
    let breaks: [fn(&mut Record); 20] = [
        |record| record.n = 9,
        |record| record.own = 3,
        |record| record.weights = [0; OFFICES],
        |record| record.summary.present[0] += 1,
        |record| record.summary.present.swap(0, 2),
        |record| record.summary.codes[5] -= 1,
        |record| record.summary.codes[5] = 0,
        |record| record.summary.codes[63] = 1,
        |record| record.summary.codes.swap(5, 6),
        |record| record.settled = 2,
        |record| record.kept.summary.present.swap(0, 1),
        |record| record.kept.summary.codes[6] = 1,
        |record| record.kept.counts[0] = 1,
        |record| (record.kept.dropped, record.kept.counts[0]) = (2, 2),
        |record| record.noted[0] = 2,
        |record| record.noted[1] = 1,
        |record| record.noted[3] = 1,
        |record| record.ballots[2].len = 33,
        |record| record.ballots[7].len = 1,
        |record| {
            record.ballots[2].len = 11;
            record.ballots[2].cells[..11].fill(A.value());
        },
    ];
    for broken in breaks {
        let (mut record, mut log) = sound.clone().into_parts();
        log[1] = 64 << 16;
        broken(&mut record);
        assert_eq!(Office::from_parts(record, log), Err(Refused::Unsound));
    }
    assert!(!joukerpan::sound(sound.record(), &[0; LOG - 1]));
}

#[test]
fn an_office_goes_to_another_thread() {
    let mut office = Office::found(0, &[1]).unwrap();
    let office = std::thread::spawn(move || {
        office.issue(5, 120).unwrap();
        office
    });
    assert_eq!(office.join().unwrap().tentative_frame(5), Ok(Some(120)));
}
