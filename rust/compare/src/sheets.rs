//! Household sheets of random and damaged bytes: number, rows, and the zeros behind them, compared.

use second::random::Random;
use second::record::{Record, LINES};
use second::samples::{any_households, damaged_households, Sample};
use second::sheet::{sheet, Row, HOUSEHOLDS, HOUSEHOLD_SIZE};

use crate::alike::same;
use crate::engine;
use crate::samples::Family;

/// Most households of a random sheet.
const MOST: usize = 300;
/// Households of which each truncation, each mark and each line is tried.
const FEW: usize = 4;

/// Compares the sheets; answers the number and how many rows there are.
fn compare(what: &str, record: &Record, log: &[u32], bytes: &[u8]) -> Result<(u32, usize), String> {
    let (number, mut rows) = sheet(record, log, bytes);
    let count = rows.len();
    rows.resize(LINES as usize, Row { class: None, total: 0 });
    same(what, engine::sheet(record, log, bytes), (number, count, rows))?;
    Ok((number, count))
}

/// The sheet of random households, at times damaged or any bytes.
pub fn any(random: &mut Random, record: &Record, log: &[u32]) -> Result<(u32, usize), String> {
    let count = match random.below(8) {
        0 => random.below(3),
        1 => random.below(MOST),
        _ => random.below(12),
    };
    let bytes = any_households(random, count);
    let bytes = match random.below(20) {
        0..=6 => damaged_households(random, bytes),
        7 => bytes.iter().map(|_| random.bits() as u8).collect(),
        _ => bytes,
    };
    compare(&format!("sheet of {bytes:02X?}"), record, log, &bytes)
}

/// Each truncation of some households, each value of each byte of their marks and lines, and as many households as
/// there may be and one more.
pub fn compare_layouts(random: &mut Random) -> Result<(), String> {
    let family = Family::new(random);
    let own = family.office(random);
    let Sample { record, log } = family.sample(random, own);
    let bytes = any_households(random, FEW);
    for length in 0..=bytes.len() {
        compare(&format!("sheet of {length} bytes of {bytes:02X?}"), &record, &log, &bytes[..length])?;
    }
    for at in (0..bytes.len()).filter(|at| at % HOUSEHOLD_SIZE < 3) {
        for value in 0..=u8::MAX {
            let mut other = bytes.clone();
            other[at] = value;
            compare(&format!("sheet of {other:02X?}"), &record, &log, &other)?;
        }
    }
    let many = any_households(random, HOUSEHOLDS + 1);
    for count in [HOUSEHOLDS, HOUSEHOLDS + 1] {
        compare(&format!("sheet of {count} households"), &record, &log, &many[..count * HOUSEHOLD_SIZE])?;
    }
    Ok(())
}
