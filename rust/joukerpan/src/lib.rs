//! The shared coding frame of up to eight field offices, over the proved engine.
//!
//! The frame has 64 lines; each says which class an answer is counted under. Offices edit it when
//! they like, connected or not, and exchange messages. An edit shows in its office's *tentative*
//! frame when it is made. Offices vote on edits by their weights; the *settled* frame holds only
//! those that have won, and no office will ever contradict it. An office that closes hands its
//! weight on ([`Office::move_weight`]), and the others vote on that too.
//!
//! An [`Office`] is one office's state. It opens no file and no socket: messages are bytes that the
//! service carries, late, twice or never. A call that is refused says why ([`Refused`]) and changes
//! nothing.
//!
//! ```
//! use joukerpan::{Office, Refused};
//!
//! let weights = [40, 35, 25];
//! let mut here = Office::found(0, &weights)?;
//! let mut there = Office::found(2, &weights)?;
//!
//! here.issue(5, 120)?;                                // line 5 is counted under 120
//! assert_eq!(here.tentative_frame(5), Ok(Some(120))); // seen at once by the supervisor
//! assert_eq!(here.settled_frame(5), Ok(None));        // no edit yet for the tabulator
//!
//! there.take(&here.message())?;                       // office 2 hears of it and joins: 65 of 100
//! assert_eq!(there.elect().grown, 1);
//! assert_eq!(there.settled_frame(5), Ok(Some(120)));
//! assert_eq!(there.frame()[5], Some(120));            // all 64 lines in one call
//! # Ok::<(), Refused>(())
//! ```
//!
//! The settled log has room for 1,024 entries; [`Office::fold`] drops those that every office is known to have.
//!
//! The tabulator's sheet of households, class by class, is [`Office::sheet`]; version vectors for an archive
//! are [`Office::vectors`]. What would win by next round's weights, where they are known within bounds, is
//! [`Office::forecast`].
//!
//! What a service owes in return, above all how it stores an office, stands at [`Office`]. An edit can lose, with no call
//! refused: take, elect and fold hand back an [`Outcome`], which names the lost ones. Whose vote is missing where nothing
//! settles is [`Office::standing`].
//!
//! What is proved and of what, docs/READING.md of the repository says; this crate adds the
//! memory that the engine borrows, bytes to store an office as, and no rule of its own.

#![warn(missing_docs)]

mod bytes;
mod earlier;
mod entry;
mod next_place;
mod office;
mod outcome;
mod refused;
mod sheet;
mod unreadable;
mod vector;

pub use earlier::Earlier;
pub use entry::{Entry, EntryKind};
pub use joukerpan_sys::{
    Ballot, Kept, Record, Summary, CODES, COUNT, HOUSEHOLD, HOUSEHOLDS, LENGTH, LINES, LOG, MESSAGE_MAX, OFFICES, TAIL,
    VECTORS_MAX,
};
pub use next_place::{Candidate, NextPlace};
pub use office::{sound, Office};
pub use outcome::Outcome;
pub use refused::Refused;
pub use sheet::{Household, Row, Sheet};
pub use unreadable::Unreadable;
pub use vector::{Standing, Standings};
