//! Entries, one to a word of a log.

use joukerpan_sys::LINES;

/// What an office has issued: an edit of a line, or a move of weight to an office. [`Entry::kind`] tells which.
///
/// ```
/// use joukerpan::{Entry, EntryKind};
///
/// let edit = Entry { office: 1, line: 5, code: 130 };
/// assert_eq!(edit.value(), 0x0105_0082);
/// assert_eq!(Entry::from(0x0105_0082), edit);
/// assert_eq!(edit.kind(), EntryKind::Edit { line: 5, code: 130 });
///
/// let handed_on = Entry { office: 2, line: 64, code: 25 };
/// assert_eq!(handed_on.kind(), EntryKind::Move { to: 0, weight: 25 });
/// ```
#[derive(Clone, Copy, Debug, PartialEq, Eq, Hash)]
pub struct Entry {
    /// The office that issued it.
    pub office: u8,
    /// The line, 0 to 63; of a move to office j, 64 + j.
    pub line: u8,
    /// The code, 0 to 9999; of a move the weight, 1 to 9999.
    pub code: u16,
}

/// What an entry says.
#[derive(Clone, Copy, Debug, PartialEq, Eq, Hash)]
pub enum EntryKind {
    /// The line's answers are counted under the code.
    Edit {
        /// The line, 0 to 63.
        line: u8,
        /// The code, 0 to 9999.
        code: u16,
    },
    /// The entry's office gives weight to another one
    /// ([`Office::move_weight`](crate::Office::move_weight)).
    Move {
        /// The office that gets it.
        to: u8,
        /// How much, 1 to 9999.
        weight: u16,
    },
}

impl Entry {
    /// The word that holds the entry: office × 16777216 + line × 65536 + code.
    pub fn value(self) -> u32 {
        u32::from(self.office) << 24 | u32::from(self.line) << 16 | u32::from(self.code)
    }

    /// Whether it is an edit or a move, and of what.
    pub fn kind(self) -> EntryKind {
        match self.line.checked_sub(LINES as u8) {
            None => EntryKind::Edit { line: self.line, code: self.code },
            Some(to) => EntryKind::Move { to, weight: self.code },
        }
    }
}

impl From<u32> for Entry {
    /// The entry in a word of a log or of a ballot.
    fn from(value: u32) -> Entry {
        let [office, line, high, low] = value.to_be_bytes();
        Entry { office, line, code: u16::from_be_bytes([high, low]) }
    }
}
