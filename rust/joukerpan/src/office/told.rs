//! What a supervisor is told: what became of her edits, and how the next place stands.

use joukerpan_sys as engine;
use joukerpan_sys::{Record, LOG, TAIL};

use crate::{NextPlace, Office, Outcome, Refused};

impl Office {
    /// What became of the own entries that were pending in an earlier record of this office ([`Office::record`]), and of
    /// the office since. [`Office::take`], [`Office::elect`] and [`Office::fold`] hand back what each of them did; this
    /// is for a service that makes several calls and tells its supervisor later.
    ///
    /// # Errors
    ///
    /// [`Refused::Unsound`] if the record is no earlier one of this office as far as can be told, or if entries that were
    /// settled after it are dropped by now, so that nobody knows any more what became of its own.
    ///
    /// ```
    /// use joukerpan::{Office, Refused};
    ///
    /// let mut office = Office::found(0, &[60, 40])?;
    /// office.issue(5, 120)?;
    /// office.issue(6, 7)?;
    /// let before = *office.record();
    /// assert_eq!(office.since(&before)?.pending, office.pending());
    ///
    /// office.elect();
    /// let outcome = office.since(&before)?;
    /// assert_eq!((outcome.settled, outcome.grown, outcome.changed), (2, 2, true));
    ///
    /// let other = Office::found(1, &[60, 40])?;
    /// assert_eq!(other.since(&before), Err(Refused::Unsound));
    /// # Ok::<(), Refused>(())
    /// ```
    pub fn since(&self, before: &Record) -> Result<Outcome, Refused> {
        let mut rest = [0; TAIL];
        // SAFETY: log and rest name their words for as long as the call lasts; rest, which the engine writes, is
        // lent to this call alone.
        let told = unsafe {
            let (log, out) = (self.log.as_ptr(), rest.as_mut_ptr());
            engine::joukerpan_outcome(*before, self.record, log, LOG, out, TAIL)
        };
        Refused::check(told.number)?;
        Ok(Outcome::of(before, &self.record, told, &rest))
    }

    /// The outcome of a call that found this record, and that was done.
    pub(super) fn outcome(&self, before: &Record) -> Outcome {
        self.since(before).expect("a call leads from one sound record to the next")
    }

    /// How the next place of the settled log stands by the votes known here: the entries that offices vote for, the weight
    /// behind each, and the offices whose vote is missing.
    ///
    /// An entry is settled when its weight is above what is unheard, and above every other one's with what is unheard
    /// added; of a tie, where it is just that, [`Office::elect`] tells. So where nothing settles, this says whose vote is
    /// missing.
    ///
    /// ```
    /// use joukerpan::{Candidate, Entry, Office, Refused};
    ///
    /// let mut zero = Office::found(0, &[40, 35, 25])?;
    /// let mut one = Office::found(1, &[40, 35, 25])?;
    /// zero.issue(5, 120)?;
    /// one.issue(5, 130)?;
    /// zero.take(&one.message())?;
    /// assert_eq!(zero.elect().grown, 0);       // 40 is not above 35 + 25
    ///
    /// let next = zero.standing();
    /// let votes = |office, code| Entry { office, line: 5, code };
    /// assert_eq!(next.candidates[0], Candidate { entry: votes(0, 120), weight: 40 });
    /// assert_eq!(next.candidates[1], Candidate { entry: votes(1, 130), weight: 35 });
    /// assert_eq!((next.unheard, next.silent), (25, vec![2])); // office 2 decides
    /// # Ok::<(), Refused>(())
    /// ```
    pub fn standing(&self) -> NextPlace {
        // SAFETY: the log names its words for as long as the call lasts; the engine only reads them.
        let tallied = unsafe { engine::joukerpan_standing(self.record, self.log.as_ptr(), LOG) };
        debug_assert_eq!(tallied.number, 0, "an office is sound");
        NextPlace::from(tallied)
    }
}
