//! Folding: the first settled entries, which every office is known to have, are dropped.

use joukerpan_sys as engine;
use joukerpan_sys::LOG;

use crate::{Office, Outcome};

impl Office {
    /// Drops the first settled entries, all that every office is known to have: [`Outcome::dropped`] says how many went.
    /// What they have done is kept: frames, weights, ties, version vectors and sheets answer as before, and all that is
    /// pending stays so. The log has room for 1,024 entries that are not dropped, so a frame that is folded now and then
    /// lasts as long as its survey.
    ///
    /// An office is known to have what the longest of its messages taken here had settled; one that was never heard of
    /// is known to have nothing, and then nothing goes. What is dropped here is dropped by those who take a message of
    /// this office, too. What another office had dropped when it sent is never missing here: every office has it
    /// (proved, where a service does what [`Office`] asks of it).
    ///
    /// ```
    /// use joukerpan::{Office, Refused};
    ///
    /// let mut here = Office::found(0, &[60, 40])?;
    /// let mut there = Office::found(1, &[60, 40])?;
    /// here.issue(5, 120)?;
    /// here.issue(6, 7)?;
    /// assert_eq!(here.elect().grown, 2);
    /// assert_eq!(here.fold().dropped, 0);         // nothing is known of office 1
    ///
    /// there.take(&here.message())?;
    /// here.take(&there.message())?;               // office 1 has settled both
    /// assert_eq!(here.fold().dropped, 2);
    /// assert_eq!((here.settled_length(), here.dropped()), (2, 2));
    /// assert_eq!((here.settled(), here.settled_frame(5)), (&[][..], Ok(Some(120))));
    ///
    /// there.take(&here.message())?;               // and drops them too
    /// assert_eq!(there.dropped(), 2);
    /// # Ok::<(), Refused>(())
    /// ```
    pub fn fold(&mut self) -> Outcome {
        let before = self.record;
        // SAFETY: the log names its words, which nothing else does, for as long as the call lasts.
        let folded = unsafe { engine::joukerpan_fold(before, self.log.as_mut_ptr(), LOG) };
        debug_assert_eq!(folded.number, 0, "an office is sound");
        self.record = folded.record;
        self.outcome(&before)
    }

    /// How many entries are settled here, dropped ones included.
    pub fn settled_length(&self) -> u64 {
        self.record.settled
    }

    /// How many of the settled entries are dropped: the first ones, which [`Office::settled`] no longer has.
    pub fn dropped(&self) -> u64 {
        self.record.kept.dropped
    }
}
