//! Why a call was refused.

use std::error::Error;
use std::fmt;

/// Why a call was refused. A refused call changes no record, log or output.
///
/// Where several causes hold, the one with the smallest number is given.
///
/// ```
/// use joukerpan::{Office, Refused};
///
/// let mut office = Office::found(0, &[1])?;
/// let refused = office.issue(5, 10_000).unwrap_err();
/// assert_eq!(refused, Refused::NoEntry);
/// assert_eq!(refused.number(), 3);
/// assert!(refused.to_string().starts_with("refused (3): the line or the code is outside the limits"));
/// # Ok::<(), Refused>(())
/// ```
#[derive(Clone, Copy, Debug, PartialEq, Eq, Hash)]
#[non_exhaustive]
#[repr(u32)]
pub enum Refused {
    /// The record with its log is not sound.
    Unsound = 1,
    /// Founding: the offices, the own office or the weights are outside the limits.
    Founding = 2,
    /// The line or the code is outside the limits: lines 0 to 63 with codes 0 to 9999, and to issue a move
    /// of weight, 64 + an office's number with 1 to 9999. Frames have lines 0 to 63 alone.
    NoEntry = 3,
    /// The own ballot has 32 entries that are not settled yet. No longer given: in such a ballot the office
    /// has its part, so that [`Refused::PartFull`] holds (proved).
    TailFull = 4,
    /// The settled entries that are not dropped and the own ballot make 1,024, or all settled ones and it 2^63. Where
    /// every office is heard of, [`Office::fold`](crate::Office::fold) makes room.
    LogFull = 5,
    /// The output is shorter than what is to be written.
    OutputShort = 6,
    /// The bytes are not a message, or a number in it is outside the limits.
    NoMessage = 7,
    /// The message is from other offices, or from offices with other founding weights.
    OtherOffices = 8,
    /// The message is the office's own.
    OwnMessage = 9,
    /// The settled logs differ in the part that both still have.
    ///
    /// Where a service does what [`Office`](crate::Office) asks of it, this is never given (proved). Where it
    /// is, an older state, a second copy or an altered message has been at work, and what is settled may
    /// be contradicted: stop the frame and print no more from it.
    OtherLog = 10,
    /// The own ballot has this office's part of the entries that are not settled yet: of n offices each has
    /// at most 32 / n of them, rounded down, edits and moves of weight together. Others may still add theirs.
    /// It goes on when some of them are settled, or lost.
    PartFull = 11,
    /// The bytes are not household records, have a line above 63, or are more than 1,000,000 records.
    NoHouseholds = 12,
    /// The place is above the settled length or below the dropped count, or more than 64 lines are named.
    NoPlace = 13,
    /// The bytes are not a version vector: exactly one count for each office, 8 bytes each.
    NoVector = 14,
    /// A lowest weight exceeds its highest.
    NoWeights = 15,
    /// The message's log begins past what is settled here: its sender had dropped entries that this office does not
    /// have.
    ///
    /// Where a service does what [`Office`](crate::Office) asks of it, this is never given (proved). Where it is, do
    /// as with [`Refused::OtherLog`].
    BeginsPast = 16,
    /// The message's log ends inside the part that is dropped here. An old message: all that it has settled is settled
    /// and dropped here.
    EndsInside = 17,
}

/// Every refusal, by rising number.
const ALL: [Refused; 17] = [
    Refused::Unsound,
    Refused::Founding,
    Refused::NoEntry,
    Refused::TailFull,
    Refused::LogFull,
    Refused::OutputShort,
    Refused::NoMessage,
    Refused::OtherOffices,
    Refused::OwnMessage,
    Refused::OtherLog,
    Refused::PartFull,
    Refused::NoHouseholds,
    Refused::NoPlace,
    Refused::NoVector,
    Refused::NoWeights,
    Refused::BeginsPast,
    Refused::EndsInside,
];

impl Refused {
    /// The number of the refusal, 1 to 17.
    pub fn number(self) -> u32 {
        self as u32
    }

    /// The refusal with this number, as a C caller or a rehearsal has it; none for 0, which is "done",
    /// and for a number that no refusal has.
    ///
    /// ```
    /// use joukerpan::Refused;
    ///
    /// assert_eq!(Refused::from_number(9), Some(Refused::OwnMessage));
    /// assert_eq!(Refused::from_number(0), None);
    /// ```
    pub fn from_number(number: u32) -> Option<Refused> {
        ALL.into_iter().find(|refused| refused.number() == number)
    }

    /// The answer that goes with a number of the engine's: done, or refused.
    pub(crate) fn check(number: u32) -> Result<(), Refused> {
        match Refused::from_number(number) {
            Some(refused) => Err(refused),
            None if number == 0 => Ok(()),
            None => unreachable!("the engine has no number {number}"),
        }
    }

    /// The cause, in words.
    fn sentence(self) -> &'static str {
        match self {
            Refused::Unsound => "the record with its log is not sound",
            Refused::Founding => "the offices, the own office or the weights are outside the limits",
            Refused::NoEntry => {
                "the line or the code is outside the limits (0 to 63 and 0 to 9999; of a move 64 + an office and 1 to 9999)"
            }
            Refused::TailFull => "the own ballot has 32 entries that are not settled yet",
            Refused::LogFull => {
                "the settled entries that are not dropped and the own ballot make 1024, or all settled ones and it 2^63"
            }
            Refused::OutputShort => "the output is shorter than what is to be written",
            Refused::NoMessage => "the bytes are not a message, or a number in it is outside the limits",
            Refused::OtherOffices => "the message is from other offices, or from offices with other founding weights",
            Refused::OwnMessage => "the message is the office's own",
            Refused::OtherLog => "the settled logs differ in the part that both still have",
            Refused::PartFull => "the own ballot has this office's part, 32 / n of the entries that are not settled yet",
            Refused::NoHouseholds => {
                "the bytes are not household records, have a line above 63, or are more than 1000000 records"
            }
            Refused::NoPlace => {
                "the place is above the settled length or below the dropped count, or more than 64 lines are named"
            }
            Refused::NoVector => "the bytes are not a version vector, a count of 8 bytes for each office",
            Refused::NoWeights => "a lowest weight exceeds its highest",
            Refused::BeginsPast => "the message's log begins past what is settled here",
            Refused::EndsInside => "the message's log ends inside the part that is dropped here",
        }
    }
}

impl fmt::Display for Refused {
    fn fmt(&self, f: &mut fmt::Formatter<'_>) -> fmt::Result {
        write!(f, "refused ({}): {}", self.number(), self.sentence())
    }
}

impl Error for Refused {}

#[cfg(test)]
mod tests {
    use super::{Refused, ALL};

    #[test]
    fn every_number_is_its_own() {
        assert_eq!(Refused::check(0), Ok(()));
        assert!(ALL.windows(2).all(|two| two[0].number() < two[1].number()));
        for refused in ALL {
            let number = refused.number();
            assert_eq!(Refused::from_number(number), Some(refused));
            assert_eq!(Refused::check(number), Err(refused));
            assert!(refused.to_string().starts_with(&format!("refused ({number}): ")));
        }
    }

    #[test]
    fn no_other_number_is_a_refusal() {
        for number in [0, 18, 256, u32::MAX] {
            assert_eq!(Refused::from_number(number), None);
        }
    }
}
