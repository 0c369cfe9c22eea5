//! What a service owes: the harm where it is not done, what is left after a disk is lost.

use joukerpan::{Office, Refused};

const WEIGHTS: [u16; 3] = [40, 35, 25];

/// Three offices founded alike; offices 0 and 1 have edited line 5.
fn rivals() -> [Office; 3] {
    let mut offices = [0, 1, 2].map(|own| Office::found(own, &WEIGHTS).unwrap());
    offices[0].issue(5, 120).unwrap();
    offices[1].issue(5, 130).unwrap();
    offices
}

/// The office takes the message, then elects.
fn hears(office: &mut Office, message: &[u8]) -> u64 {
    office.take(message).unwrap();
    office.elect().grown
}

#[test]
fn an_older_state_makes_two_offices_settle_differently() {
    let [mut zero, one, mut two] = rivals();
    let backup = two.to_bytes();
    two.take(&zero.message()).unwrap(); // office 2 votes for 120,
    let sent = two.message(); // and says so

    let mut two = Office::from_bytes(&backup).unwrap(); // the harm: it has forgotten its vote,
    assert_eq!(hears(&mut two, &one.message()), 1); // and votes for 130
    assert_eq!(hears(&mut zero, &sent), 1);
    assert_eq!((zero.settled_frame(5), two.settled_frame(5)), (Ok(Some(120)), Ok(Some(130))));

    assert_eq!(zero.take(&two.message()), Err(Refused::OtherLog));
    assert_eq!(two.take(&zero.message()), Err(Refused::OtherLog));
}

#[test]
fn two_copies_make_two_offices_settle_differently() {
    let [mut zero, mut one, two] = rivals();
    let [mut copy, mut other] = [two.clone(), two];
    copy.take(&zero.message()).unwrap();
    other.take(&one.message()).unwrap();
    assert_eq!((hears(&mut zero, &copy.message()), hears(&mut one, &other.message())), (1, 1));
    assert_eq!((zero.settled_frame(5), one.settled_frame(5)), (Ok(Some(120)), Ok(Some(130))));
}

#[test]
fn a_number_founded_again_makes_two_offices_settle_differently() {
    let [mut zero, one, mut two] = rivals();
    two.take(&zero.message()).unwrap();
    assert_eq!(hears(&mut zero, &two.message()), 1);
    let mut again = Office::found(2, &WEIGHTS).unwrap();
    assert_eq!(hears(&mut again, &one.message()), 1);
    assert_eq!((zero.settled_frame(5), again.settled_frame(5)), (Ok(Some(120)), Ok(Some(130))));
}

#[test]
fn an_altered_message_makes_two_offices_settle_differently() {
    let [mut zero, mut one, mut two] = [0, 1, 2].map(|own| Office::found(own, &WEIGHTS).unwrap());
    zero.issue(5, 120).unwrap();
    let mut message = zero.message();
    assert_eq!(hears(&mut one, &message), 1);
    let code = message.len() - 3; // before the end mark
    message[code] ^= 1;
    assert_eq!(hears(&mut two, &message), 1);
    assert_eq!((one.settled_frame(5), two.settled_frame(5)), (Ok(Some(120)), Ok(Some(121))));
    assert!(zero.take(&one.message()).is_ok());
    assert_eq!(zero.take(&two.message()), Err(Refused::OtherLog));
}

#[test]
fn the_state_of_the_last_message_keeps_them_alike() {
    let [mut zero, one, mut two] = rivals();
    two.take(&zero.message()).unwrap();
    let stored = two.to_bytes(); // before the message leaves
    let sent = two.message();

    let mut two = Office::from_bytes(&stored).unwrap();
    assert_eq!(hears(&mut two, &one.message()), 1);
    assert_eq!(hears(&mut zero, &sent), 1);
    assert_eq!((zero.settled_frame(5), two.settled_frame(5)), (Ok(Some(120)), Ok(Some(120))));
}

#[test]
fn a_call_that_was_neither_sent_nor_shown_may_be_forgotten() {
    let [zero, mut one, mut two] = rivals();
    let stored = two.to_bytes();
    two.take(&zero.message()).unwrap(); // killed here: this message came never

    let mut two = Office::from_bytes(&stored).unwrap();
    assert_eq!(hears(&mut two, &one.message()), 1);
    assert_eq!(hears(&mut one, &two.message()), 0);
    assert_eq!((one.settled(), one.settled_frame(5)), (two.settled(), Ok(Some(130))));
}

#[test]
fn after_a_loss_the_others_go_on_and_can_stand_still() {
    let [mut zero, mut one, _lost] = rivals();
    assert_eq!(hears(&mut zero, &one.message()), 0); // 40 is not above 35 + 25: the silent office decides
    assert_eq!(hears(&mut one, &zero.message()), 0);

    let [mut zero, mut one, _lost] = [0, 1, 2].map(|own| Office::found(own, &WEIGHTS).unwrap());
    zero.issue(5, 120).unwrap();
    assert_eq!(hears(&mut one, &zero.message()), 1); // 75 above 25: not contested, settled

    let [mut zero, mut one, _lost] = [0, 1, 2].map(|own| Office::found(own, &[30, 20, 50]).unwrap());
    zero.issue(5, 120).unwrap();
    assert_eq!(hears(&mut one, &zero.message()), 0); // 50 is not above 50: half the weight is silent
}

#[test]
fn an_office_that_has_handed_its_weight_on_may_fall_silent() {
    let [mut zero, mut one, mut two] = [0, 1, 2].map(|own| Office::found(own, &WEIGHTS).unwrap());
    two.move_weight(0, 25).unwrap();
    assert_eq!(hears(&mut zero, &two.message()), 1);
    one.take(&zero.message()).unwrap(); // and office 2 makes no call any more

    zero.issue(5, 120).unwrap();
    one.issue(5, 130).unwrap();
    assert_eq!(hears(&mut one, &zero.message()), 1); // 65 above 35, and nothing is unheard
    assert_eq!((one.settled_frame(5), one.present()), (Ok(Some(120)), &[65, 35, 0][..]));
}

#[test]
fn a_reader_takes_and_neither_elects_nor_sends() {
    let [mut zero, one, mut two] = rivals();
    two.take(&zero.message()).unwrap();
    assert_eq!(hears(&mut zero, &two.message()), 1);

    let mut reader = Office::found(2, &WEIGHTS).unwrap(); // office 2's disk is lost
    reader.take(&one.message()).unwrap(); // an election here would settle 130
    assert_eq!(reader.settled_frame(5), Ok(None));
    reader.take(&zero.message()).unwrap();
    assert_eq!((reader.settled(), reader.settled_frame(5)), (zero.settled(), Ok(Some(120))));
}

#[test]
fn a_new_frame_with_doubled_weights_refuses_the_old_ones_messages() {
    let [zero, one, _] = rivals();
    let mut founded = [0, 1, 2].map(|own| Office::found(own, &WEIGHTS.map(|weight| 2 * weight)).unwrap());
    assert_eq!(founded[2].take(&zero.message()), Err(Refused::OtherOffices));
    assert_eq!(founded[0].take(&one.message()), Err(Refused::OtherOffices));

    let mut same = Office::found(2, &WEIGHTS).unwrap(); // with the same weights nothing tells them apart
    assert!(same.take(&zero.message()).is_ok());
}

#[test]
fn a_new_frame_goes_on_with_the_present_weights() {
    let mut zero = Office::found(0, &[60, 40]).unwrap();
    zero.move_weight(1, 20).unwrap();
    zero.elect();
    assert_eq!(zero.present(), [40, 60]);
    zero.move_weight(1, 20).unwrap();
    assert_eq!(zero.elect().grown, 0); // now office 1 decides
    let doubled: Vec<u16> = zero.present().iter().map(|weight| 2 * weight).collect();
    let mut one = Office::found(1, &doubled).unwrap();
    assert_eq!(one.take(&zero.message()), Err(Refused::OtherOffices));
    one.issue(5, 130).unwrap();
    assert_eq!(one.elect().grown, 1); // 120 above 80
}
