//! Why stored bytes give no office.

use std::error::Error;
use std::fmt;

use crate::bytes::{VERSION, VERSIONS};

/// Why stored bytes give no office ([`Office::from_bytes`](crate::Office::from_bytes)).
///
/// None of them is a reason to found the office anew, or to read an older copy: see
/// [`Office`](crate::Office).
#[derive(Clone, Copy, Debug, PartialEq, Eq, Hash)]
#[non_exhaustive]
pub enum Unreadable {
    /// The bytes do not begin as a stored office does.
    NoOffice,
    /// The bytes were cut, or changed after they were written: their check sum or their length is another.
    Damaged,
    /// The bytes are whole, and an engine of another version wrote them. That engine reads them; nothing
    /// here converts them.
    OtherVersion(u32),
    /// The bytes are whole, and what they hold is not a sound record with its log. So is an office stored by
    /// an engine of before tails had parts, where one office has more than its part of a ballot; that engine
    /// reads it.
    Unsound,
}

/// A version by its number and name.
fn named(version: u32) -> String {
    match VERSIONS.get((version as usize).wrapping_sub(1)) {
        Some(name) => format!("version {version} ({name})"),
        None => format!("version {version}, which is not known here"),
    }
}

impl fmt::Display for Unreadable {
    fn fmt(&self, f: &mut fmt::Formatter<'_>) -> fmt::Result {
        f.write_str("no office read: ")?;
        match *self {
            Unreadable::NoOffice => f.write_str("the bytes do not begin as a stored office does"),
            Unreadable::Damaged => f.write_str("the bytes are damaged"),
            Unreadable::OtherVersion(version) => {
                write!(f, "the bytes are of {}; read is {}", named(version), named(VERSION))
            }
            Unreadable::Unsound => write!(f, "the bytes are whole, and their record (version {VERSION}) is not sound"),
        }
    }
}

impl Error for Unreadable {}

#[cfg(test)]
mod tests {
    use super::{Unreadable, VERSION, VERSIONS};

    #[test]
    fn a_version_is_refused_by_name() {
        for (version, name) in (1..VERSION).zip(VERSIONS) {
            let wanted =
                format!("no office read: the bytes are of version {version} ({name}); read is version {VERSION}");
            assert!(Unreadable::OtherVersion(version).to_string().starts_with(&wanted));
        }
        for unknown in [0, VERSION + 1, u32::MAX] {
            let wanted =
                format!("no office read: the bytes are of version {unknown}, which is not known here; read is");
            assert!(Unreadable::OtherVersion(unknown).to_string().starts_with(&wanted));
        }
    }
}
