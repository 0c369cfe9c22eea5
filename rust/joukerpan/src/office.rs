//! One office: its record and its log. The calls on them stand in files of their own.

use std::fmt;

use joukerpan_sys as engine;
use joukerpan_sys::{Record, Weights, LOG, OFFICES};

use crate::Refused;

mod edits;
mod folding;
mod frames;
mod outlook;
mod told;

/// One office's state: its record and its log, which are always sound together.
///
/// # What a service owes
///
/// That no two offices settle differently is proved for offices whose every call gets the state that the
/// last call at that office left, and for messages that nobody alters. The crate sees to memory; this is
/// the service's part:
///
/// - **Store before anything is sent or shown.** After a call that changes the office, its bytes
///   ([`Office::to_bytes`]) are on durable storage before a message of it leaves, and before a frame
///   of it is shown or printed. A call that was neither stored nor sent nor shown is as if never made.
/// - **Never restore an older state,** from a backup or otherwise, and never found the number again.
/// - **Never run two copies of an office number.** A clone is for looking at, and for nothing else.
/// - **Hand take what was sent,** late, twice or never, as an office of this frame sent it.
///
/// A service that breaks this can have line 5 settled as 120 at one office and as 130 at another
/// (`tests/storage.rs` of this crate shows it), and meets [`Refused::OtherLog`] later, or too late.
/// What to do when a disk is lost, docs/EMBEDDING.md of the repository says.
///
/// Two offices are equal when their records and their settled words are.
#[derive(Clone)]
pub struct Office {
    record: Record,
    log: Box<[u32; LOG]>,
}

/// Whether the record with its log is sound: the log has 1,024 words or more, every limit is kept, and the
/// present weights and the settled codes are those that follow from what is kept of the dropped entries and from
/// the settled words.
///
/// Every record, log and number has its answer; [`Office::from_parts`] asks this one.
pub fn sound(record: &Record, log: &[u32]) -> bool {
    // SAFETY: the log names its words for as long as the call lasts; the engine only reads them.
    unsafe { engine::joukerpan_sound(*record, log.as_ptr(), log.len()) }
}

impl Office {
    /// Founds an office: an empty log, no ballots, nothing dropped. There is a weight for each office, and `own` is this one.
    ///
    /// All offices of a frame are founded with the same weights, each number once. A service whose file
    /// is missing does not found the office again.
    ///
    /// # Errors
    ///
    /// [`Refused::Founding`] unless there are 1 to 8 offices, `own` is one of them and the weights
    /// add up to at least 1.
    ///
    /// ```
    /// use joukerpan::{Office, Refused};
    ///
    /// assert!(Office::found(1, &[50, 50]).is_ok());
    /// assert_eq!(Office::found(2, &[50, 50]).unwrap_err(), Refused::Founding);
    /// assert_eq!(Office::found(0, &[0, 0]).unwrap_err(), Refused::Founding);
    /// assert_eq!(Office::found(0, &[1; 9]).unwrap_err(), Refused::Founding);
    /// ```
    pub fn found(own: usize, weights: &[u16]) -> Result<Office, Refused> {
        let mut of = [0; OFFICES];
        for (place, &weight) in of.iter_mut().zip(weights) {
            *place = weight;
        }
        let log = Box::new([0; LOG]);
        // SAFETY: the log names its words for as long as the call lasts; the engine only reads them.
        let founded = unsafe { engine::joukerpan_found(weights.len(), own, Weights { of }, log.as_ptr(), LOG) };
        Refused::check(founded.number)?;
        Ok(Office { record: founded.record, log })
    }

    /// The office that [`Office::into_parts`] took apart. To store an office, see [`Office::to_bytes`].
    ///
    /// # Errors
    ///
    /// [`Refused::Unsound`] unless the record with its log is sound, whatever they hold.
    ///
    /// ```
    /// use joukerpan::{Office, Refused};
    ///
    /// let mut office = Office::found(1, &[50, 50])?;
    /// office.issue(5, 130)?;
    /// let (mut record, log) = office.clone().into_parts();
    /// assert_eq!(Office::from_parts(record, log.clone()), Ok(office));
    /// record.settled = 1025; // none of them dropped
    /// assert_eq!(Office::from_parts(record, log), Err(Refused::Unsound));
    /// # Ok::<(), Refused>(())
    /// ```
    pub fn from_parts(record: Record, log: Box<[u32; LOG]>) -> Result<Office, Refused> {
        if sound(&record, &log[..]) {
            Ok(Office { record, log })
        } else {
            Err(Refused::Unsound)
        }
    }

    /// The record and the log. The words past the settled ones mean nothing.
    pub fn into_parts(self) -> (Record, Box<[u32; LOG]>) {
        (self.record, self.log)
    }

    /// The record: offices, founding and present weights, settled codes, settled length, what is kept of dropped
    /// entries, the lengths noted of other offices and the ballots that are known.
    pub fn record(&self) -> &Record {
        &self.record
    }

    /// This office's number.
    pub fn own(&self) -> usize {
        self.record.own
    }

    /// How many offices there are; their numbers are 0 to one less.
    pub fn offices(&self) -> usize {
        self.record.n
    }

    /// The founding weight of each office. It never changes; messages carry it, and are taken by offices
    /// founded with the same ones alone.
    pub fn weights(&self) -> &[u16] {
        &self.record.weights[..self.record.n]
    }

    /// The present weight of each office, by which elections here count: its founding weight after the
    /// moves of the settled log. The total never changes. Offices of one frame with equal settled logs, dropped
    /// entries included, have equal present weights; one that has settled less may have others still.
    pub fn present(&self) -> &[u16] {
        &self.record.summary.present[..self.record.n]
    }
}

impl PartialEq for Office {
    fn eq(&self, other: &Office) -> bool {
        self.record == other.record && self.settled() == other.settled()
    }
}

impl Eq for Office {}

impl fmt::Debug for Office {
    fn fmt(&self, f: &mut fmt::Formatter<'_>) -> fmt::Result {
        f.debug_struct("Office").field("record", &self.record).field("settled", &self.settled()).finish()
    }
}
