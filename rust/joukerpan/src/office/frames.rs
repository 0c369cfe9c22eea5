//! What is settled, and both frames.

use joukerpan_sys as engine;
use joukerpan_sys::{LINES, LOG};

use crate::{Earlier, Office, Refused, Sheet};

impl Office {
    /// The settled log but its dropped entries, one to each word ([`Entry`](crate::Entry) reads them): those that no
    /// office will contradict. They are the last ones of [`Office::settled_length`]; [`Office::fold`] drops others.
    ///
    /// ```
    /// use joukerpan::{Entry, Office, Refused};
    ///
    /// let mut office = Office::found(0, &[1])?;
    /// office.issue(5, 120)?;
    /// office.elect();
    /// let settled: Vec<Entry> = office.settled().iter().map(|&word| word.into()).collect();
    /// assert_eq!(settled, [Entry { office: 0, line: 5, code: 120 }]);
    /// # Ok::<(), Refused>(())
    /// ```
    pub fn settled(&self) -> &[u32] {
        // SAFETY: the log names its words for as long as the call lasts; the engine only reads them.
        let part = unsafe { engine::joukerpan_settled(self.record, self.log.as_ptr(), LOG) };
        debug_assert_eq!(part.number, 0, "an office is sound");
        &self.log[..part.length]
    }

    /// The settled frame whole, a code or `None` for each of the 64 lines: what [`Office::settled_frame`] answers
    /// for it.
    ///
    /// The record holds these codes, and take and elect keep them true; the engine tests them against the log
    /// once, for all lines together. So a screen that shows every line asks this, and not 64 times for one.
    /// Two offices of one frame with equal settled logs, dropped entries included, have equal frames.
    ///
    /// ```
    /// use joukerpan::{Office, Refused};
    ///
    /// let mut office = Office::found(0, &[1])?;
    /// assert_eq!(office.frame(), [None; 64]);
    /// office.issue(5, 120)?;
    /// office.issue(63, 0)?;
    /// office.elect();
    ///
    /// let frame = office.frame();
    /// assert_eq!((frame[5], frame[6], frame[63]), (Some(120), None, Some(0)));
    /// # Ok::<(), Refused>(())
    /// ```
    pub fn frame(&self) -> [Option<u32>; LINES as usize] {
        // SAFETY: the log names its words for as long as the call lasts; the engine only reads them.
        let lines = unsafe { engine::joukerpan_all_lines(self.record, self.log.as_ptr(), LOG) };
        debug_assert_eq!(lines.number, 0, "an office is sound");
        lines.codes.map(|stored| stored.checked_sub(1)) // 0 is no edit yet
    }

    /// The line's code in the settled frame, which the tabulator prints from; `None` for no edit yet. Code 0 is
    /// a class like another. [`Office::frame`] gives all lines at once.
    ///
    /// # Errors
    ///
    /// [`Refused::NoEntry`] for a line above 63.
    pub fn settled_frame(&self, line: u32) -> Result<Option<u32>, Refused> {
        // SAFETY: the log names its words for as long as the call lasts; the engine only reads them.
        let framed = unsafe { engine::joukerpan_settled_frame(self.record, self.log.as_ptr(), LOG, line) };
        Refused::check(framed.number)?;
        Ok(framed.coded.then_some(framed.code))
    }

    /// The frame as it stood after the first `p` settled entries, dropped ones included, for up to 64 lines together,
    /// which revision work reads: for each line named, in their order, its code or `None` for no edit yet. A line named
    /// twice is answered twice. With `p` the settled length it is what [`Office::settled_frame`] answers.
    ///
    /// The log is read back from `p` until each line has its edit, or up to the dropped part, whose codes are kept.
    /// [`Earlier::words`] says how many words that took.
    ///
    /// ```
    /// use joukerpan::{Office, Refused};
    ///
    /// let mut office = Office::found(0, &[1])?;
    /// for code in [120, 130, 140] {
    ///     office.issue(5, code)?;
    /// }
    /// office.elect();
    ///
    /// let earlier = office.frame_at(2, &[5, 6])?;
    /// assert_eq!(earlier.edits(), [Some(130), None]);
    /// assert_eq!(earlier.words(), 2); // line 6 has no edit, so all are read
    /// assert_eq!(office.frame_at(2, &[5])?.words(), 1);
    /// assert_eq!(office.frame_at(4, &[5]), Err(Refused::NoPlace));
    /// # Ok::<(), Refused>(())
    /// ```
    ///
    /// # Errors
    ///
    /// [`Refused::NoEntry`] for a line above 63; [`Refused::NoPlace`] for a `p` above the settled length or below the
    /// dropped count, or for more than 64 lines.
    pub fn frame_at(&self, p: u64, lines: &[u32]) -> Result<Earlier, Refused> {
        // SAFETY: log and lines name their words for as long as the call lasts; the engine only reads them.
        let answer =
            unsafe { engine::joukerpan_frame_at(self.record, self.log.as_ptr(), LOG, p, lines.as_ptr(), lines.len()) };
        Refused::check(answer.number)?;
        Ok(Earlier::new(&answer.edits[..lines.len()], answer.words))
    }

    /// The line's code in the tentative frame, which the supervisor reads; `None` for no edit yet.
    ///
    /// # Errors
    ///
    /// [`Refused::NoEntry`] for a line above 63.
    pub fn tentative_frame(&self, line: u32) -> Result<Option<u32>, Refused> {
        // SAFETY: the log names its words for as long as the call lasts; the engine only reads them.
        let framed = unsafe { engine::joukerpan_tentative_frame(self.record, self.log.as_ptr(), LOG, line) };
        Refused::check(framed.number)?;
        Ok(framed.coded.then_some(framed.code))
    }

    /// The household sheet: the weights of the households pooled under the settled codes of their lines, a
    /// row for each class met, classes rising. Households under lines that no one has coded, if there are any,
    /// are the first row, with the class `None`; code 0 is a class like another.
    ///
    /// The bytes are household records and nothing else, [`HOUSEHOLD`](crate::HOUSEHOLD) bytes each: 0x48
    /// 0x52, the line, the grossing weight with its most significant byte first ([`Household`](crate::Household)
    /// writes them). No bytes are a sheet without rows; a household of weight 0 makes its class met. The
    /// totals add up to the weights read, and two offices of one frame with equal settled logs, dropped entries
    /// included, have equal sheets of the same households (proved).
    ///
    /// # Errors
    ///
    /// [`Refused::NoHouseholds`].
    ///
    /// ```
    /// use joukerpan::{Household, Office, Refused};
    ///
    /// let mut office = Office::found(0, &[1])?;
    /// office.issue(5, 120)?;
    /// office.issue(6, 120)?;
    /// office.issue(7, 0)?;
    /// office.elect();
    ///
    /// let households = [(6, 40), (9, 2), (5, 60), (7, 3)].map(|(line, weight)| Household { line, weight });
    /// let sheet = office.sheet(&Household::to_bytes(&households))?;
    /// let rows: Vec<(Option<u32>, u64)> = sheet.iter().map(|row| (row.class, row.total)).collect();
    /// assert_eq!(rows, [(None, 2), (Some(0), 3), (Some(120), 100)]); // no one has coded line 9
    /// assert_eq!(office.sheet(b"HR"), Err(Refused::NoHouseholds));
    /// # Ok::<(), Refused>(())
    /// ```
    pub fn sheet(&self, households: &[u8]) -> Result<Sheet, Refused> {
        // SAFETY: log and households name their elements for as long as the call lasts; the engine only
        // reads them.
        let answer = unsafe {
            let (log, bytes) = (self.log.as_ptr(), households.as_ptr());
            engine::joukerpan_sheet(self.record, log, LOG, bytes, households.len())
        };
        Refused::check(answer.number)?;
        Ok(Sheet::from(answer))
    }
}
