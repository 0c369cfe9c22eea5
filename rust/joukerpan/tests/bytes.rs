//! An office as bytes: read back whole, and refused after any small accident.

use joukerpan::{Office, Unreadable, LOG};

/// An office with settled entries, a move among them, an own ballot and another's.
fn office() -> Office {
    let mut one = Office::found(1, &[40, 35, 25]).unwrap();
    let mut zero = Office::found(0, &[40, 35, 25]).unwrap();
    zero.issue(5, 120).unwrap();
    zero.move_weight(2, 15).unwrap();
    one.take(&zero.message()).unwrap();
    assert_eq!(one.elect().grown, 2);
    assert_eq!(one.present(), [25, 35, 40]);
    one.issue(63, 9999).unwrap();
    zero.issue(6, 7).unwrap();
    one.take(&zero.message()).unwrap();
    one
}

#[test]
fn what_is_stored_is_read_back() {
    for office in [office(), Office::found(0, &[1]).unwrap(), Office::found(7, &[65_535; 8]).unwrap()] {
        let bytes = office.to_bytes();
        assert_eq!(bytes.len(), 1828 + 4 * office.settled().len());
        assert_eq!(Office::from_bytes(&bytes), Ok(office));
    }
}

#[test]
fn a_full_log_is_read_back() {
    let mut office = Office::found(0, &[1]).unwrap();
    for code in 0..LOG as u32 {
        office.issue(code % 64, code).unwrap();
        office.elect();
    }
    assert_eq!(Office::from_bytes(&office.to_bytes()), Ok(office));
}

#[test]
fn a_folded_office_is_read_back() {
    let mut office = Office::found(0, &[1]).unwrap();
    for code in 0..3 * LOG as u32 {
        office.issue(code % 64, code).unwrap();
        office.elect();
        if code % 1000 == 999 {
            assert_eq!(office.fold().dropped, 1000);
        }
    }
    assert_eq!((office.settled_length(), office.dropped(), office.settled().len()), (3072, 3000, 72));
    assert_eq!(office.to_bytes().len(), 1828 + 4 * 72);
    assert_eq!(Office::from_bytes(&office.to_bytes()), Ok(office));
}

#[test]
fn words_past_the_settled_ones_are_not_stored() {
    let (record, mut log) = office().into_parts();
    log[record.settled as usize..].fill(u32::MAX);
    assert_eq!(Office::from_parts(record, log).unwrap().to_bytes(), office().to_bytes());
}

#[test]
fn a_bit_changed_is_refused() {
    let bytes = office().to_bytes();
    for place in 0..bytes.len() {
        let mut changed = bytes.clone();
        changed[place] ^= 1 << (place % 8);
        let wanted = if place < 4 { Unreadable::NoOffice } else { Unreadable::Damaged };
        assert_eq!(Office::from_bytes(&changed), Err(wanted), "{place}");
    }
}

#[test]
fn bytes_cut_or_added_to_are_refused() {
    let bytes = office().to_bytes();
    for length in 0..bytes.len() {
        let wanted = if length < 4 { Unreadable::NoOffice } else { Unreadable::Damaged };
        assert_eq!(Office::from_bytes(&bytes[..length]), Err(wanted), "{length}");
        let zeros = [&bytes[..length], &vec![0; bytes.len() - length]].concat();
        assert!(Office::from_bytes(&zeros).is_err(), "{length}");
    }
    assert_eq!(Office::from_bytes(&[&bytes[..], &[0]].concat()), Err(Unreadable::Damaged));
}
