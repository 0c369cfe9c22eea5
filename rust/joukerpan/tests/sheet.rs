//! The household sheet: class totals by the sentences of requests (vii) and (ix), and bytes that are no households.

#[path = "../examples/service/dice.rs"]
mod dice;

use std::collections::BTreeMap;

use dice::Dice;
use joukerpan::{Household, Office, Refused, Row, HOUSEHOLD, HOUSEHOLDS};

/// An office that has settled some codes, several lines under one; line 62 is edited and not settled.
fn office(dice: &mut Dice) -> Office {
    let mut office = Office::found(0, &[1]).unwrap();
    for _ in 0..40 {
        office.issue(dice.below(62) as u32, dice.below(8) as u32 * 1111).unwrap();
        office.elect();
    }
    office.issue(62, 9999).unwrap();
    office
}

fn some_households(count: usize, dice: &mut Dice) -> Vec<Household> {
    let weight = |dice: &mut Dice| if dice.below(4) == 0 { 0 } else { dice.below(1 << 32) as u32 };
    (0..count).map(|_| Household { line: dice.below(64) as u8, weight: weight(dice) }).collect()
}

/// "Weights are pooled under the settled code of their line. The sheet lists class and 64-bit total, codes
/// rising, only codes met." The uncoded ones, "if any, are totalled first on the sheet, as uncoded".
fn sheet_of(office: &Office, households: &[Household]) -> Vec<Row> {
    let mut totals = BTreeMap::new();
    for household in households {
        let class = office.settled_frame(household.line.into()).unwrap();
        *totals.entry(class).or_insert(0) += u64::from(household.weight);
    }
    totals.into_iter().map(|(class, total)| Row { class, total }).collect()
}

#[test]
fn totals_by_settled_code() {
    let mut dice = Dice(22);
    for count in (0..200).chain([5000]) {
        let office = office(&mut dice);
        let households = some_households(count, &mut dice);
        let sheet = office.sheet(&Household::to_bytes(&households)).unwrap();
        assert_eq!(sheet.rows(), sheet_of(&office, &households));
        assert_eq!(sheet.sum(), households.iter().map(|household| u64::from(household.weight)).sum());
        assert!(sheet.iter().all(|row| sheet.total(row.class) == Some(row.total)));
        assert_eq!(sheet.total(Some(1)), None);
        assert_eq!((&sheet).into_iter().count(), sheet.rows().len());
    }
}

#[test]
fn uncoded_is_apart_from_code_0() {
    let mut office = Office::found(0, &[1]).unwrap();
    office.issue(5, 0).unwrap();
    office.issue(6, 9999).unwrap();
    office.elect();
    office.issue(7, 0).unwrap(); // pending
    let [zero, last, pending, none] = [(5, 3), (6, 4), (7, 1), (8, 0)].map(|(line, weight)| Household { line, weight });
    let sheet = |households: &[Household]| office.sheet(&Household::to_bytes(households)).unwrap();
    let row = |class, total| Row { class, total };

    let all = sheet(&[last, zero, none, pending]);
    assert_eq!(all.rows(), [row(None, 1), row(Some(0), 3), row(Some(9999), 4)]);
    assert_eq!((all.total(None), all.total(Some(0)), all.total(Some(1))), (Some(1), Some(3), None));
    assert_eq!(sheet(&[zero]).rows(), [row(Some(0), 3)]);
    assert_eq!(sheet(&[zero]).total(None), None);
    assert_eq!(sheet(&[none]).rows(), [row(None, 0)]);
    assert_eq!(sheet(&[none]).total(Some(0)), None);
}

#[test]
fn equal_settled_logs_have_equal_sheets() {
    let mut dice = Dice(23);
    let [mut zero, mut two] = [0, 2].map(|own| Office::found(own, &[40, 35, 25]).unwrap());
    zero.issue(5, 120).unwrap();
    two.take(&zero.message()).unwrap();
    let bytes = Household::to_bytes(&some_households(300, &mut dice));
    assert_eq!(zero.sheet(&bytes), two.sheet(&bytes)); // nothing is settled yet
    two.elect();
    assert_ne!(zero.sheet(&bytes), two.sheet(&bytes));
    two.issue(6, 7).unwrap(); // which the sheet does not see
    zero.take(&two.message()).unwrap();
    assert_eq!(zero.sheet(&bytes), two.sheet(&bytes));
}

#[test]
fn other_bytes_are_no_households() {
    let mut dice = Dice(24);
    let office = office(&mut dice);
    let bytes = Household::to_bytes(&some_households(20, &mut dice));
    for length in 0..=bytes.len() {
        assert_eq!(office.sheet(&bytes[..length]).is_ok(), length % HOUSEHOLD == 0);
    }
    for at in 0..bytes.len() {
        for value in 0..=255 {
            let mut damaged = bytes.clone();
            damaged[at] = value;
            let fine = match at % HOUSEHOLD {
                0 => value == 0x48,
                1 => value == 0x52,
                2 => value < 64,
                _ => true,
            };
            assert_eq!(office.sheet(&damaged).err(), (!fine).then_some(Refused::NoHouseholds));
        }
    }
}

#[test]
fn a_million_households_and_no_more() {
    let office = Office::found(0, &[1]).unwrap();
    let bytes = Household::to_bytes(&vec![Household { line: 63, weight: u32::MAX }; HOUSEHOLDS + 1]);
    assert_eq!(office.sheet(&bytes), Err(Refused::NoHouseholds));
    let sheet = office.sheet(&bytes[HOUSEHOLD..]).unwrap();
    assert_eq!(sheet.rows(), [Row { class: None, total: 4_294_967_295_000_000 }]);
}
