//! Households and the sheet of their class totals.

use std::slice;

use joukerpan_sys as engine;
use joukerpan_sys::HOUSEHOLD;

/// One household: the line of the frame that its answer falls under, and its grossing weight.
#[derive(Clone, Copy, Debug, PartialEq, Eq, Hash)]
pub struct Household {
    /// A line of the frame, 0 to 63.
    pub line: u8,
    /// How many households it stands for.
    pub weight: u32,
}

impl Household {
    /// The bytes of these households, one record after the other, for [`Office::sheet`](crate::Office::sheet).
    ///
    /// ```
    /// use joukerpan::Household;
    ///
    /// let bytes = Household::to_bytes(&[Household { line: 5, weight: 258 }]);
    /// assert_eq!(bytes, [0x48, 0x52, 5, 0, 0, 1, 2]);
    /// ```
    pub fn to_bytes(households: &[Household]) -> Vec<u8> {
        let mut bytes = Vec::with_capacity(HOUSEHOLD * households.len());
        for household in households {
            bytes.extend([0x48, 0x52, household.line]);
            bytes.extend(household.weight.to_be_bytes());
        }
        bytes
    }
}

/// A row of a household sheet.
#[derive(Clone, Copy, Debug, PartialEq, Eq)]
pub struct Row {
    /// The class: a settled code; `None` for the households under lines that no one has coded.
    pub class: Option<u32>,
    /// The weights of the households under it; below 2^52.
    pub total: u64,
}

/// A household sheet: a row for each class met, uncoded first, then codes rising. Made by
/// [`Office::sheet`](crate::Office::sheet).
#[derive(Clone, Debug, PartialEq, Eq)]
pub struct Sheet {
    rows: Vec<Row>,
}

impl Sheet {
    /// The rows, uncoded first, then codes rising.
    pub fn rows(&self) -> &[Row] {
        &self.rows
    }

    /// The rows one by one.
    pub fn iter(&self) -> slice::Iter<'_, Row> {
        self.rows.iter()
    }

    /// The total of a class, or with `None` of the uncoded households; none where no household has it.
    pub fn total(&self, class: Option<u32>) -> Option<u64> {
        let at = self.rows.binary_search_by_key(&class, |row| row.class).ok()?;
        Some(self.rows[at].total)
    }

    /// The weights of all households together.
    pub fn sum(&self) -> u64 {
        self.iter().map(|row| row.total).sum()
    }
}

impl From<engine::Sheet> for Sheet {
    fn from(answer: engine::Sheet) -> Sheet {
        let row = |row: &engine::Row| Row { class: row.class.checked_sub(1), total: row.total }; // 0 is uncoded
        Sheet { rows: answer.rows[..answer.count].iter().map(row).collect() }
    }
}

impl<'a> IntoIterator for &'a Sheet {
    type Item = &'a Row;
    type IntoIter = slice::Iter<'a, Row>;

    fn into_iter(self) -> Self::IntoIter {
        self.iter()
    }
}
