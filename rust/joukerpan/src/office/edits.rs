//! Edits, votes and messages: the calls that change an office.

use joukerpan_sys as engine;
use joukerpan_sys::{LINES, LOG, MESSAGE_MAX};

use crate::{Entry, Office, Outcome, Refused};

impl Office {
    /// The office's own entries that are not settled yet, the oldest first: edits, and moves of weight.
    ///
    /// An edit leaves this list in a take or an election, settled or **lost**, with no refusal. Each take, election and fold
    /// says which ([`Outcome`]). Entries that this office has adopted from others are not its own and are not in the list.
    ///
    /// ```
    /// use joukerpan::{Entry, Office, Refused};
    ///
    /// let mut office = Office::found(1, &[40, 35, 25])?;
    /// office.issue(5, 130)?;
    /// assert_eq!(office.pending(), [Entry { office: 1, line: 5, code: 130 }]);
    /// # Ok::<(), Refused>(())
    /// ```
    pub fn pending(&self) -> Vec<Entry> {
        let own = &self.record.ballots[self.record.own];
        let entries = own.cells[..own.len].iter().map(|&word| Entry::from(word));
        entries.filter(|entry| usize::from(entry.office) == self.record.own).collect()
    }

    /// Edits the frame: appends the entry to the office's own ballot. It can lose: see [`Outcome`].
    ///
    /// Lines 0 to 63 have codes 0 to 9999. Line 64 + j is a move of weight to office j, with the weight
    /// as its code: see [`Office::move_weight`].
    ///
    /// # Errors
    ///
    /// [`Refused::NoEntry`], [`Refused::LogFull`], or [`Refused::PartFull`] where the own ballot has this
    /// office's part already: 32 entries by the number of offices, rounded down. An office below its part is
    /// stopped by a full log alone, whatever others have in the ballot.
    ///
    /// ```
    /// use joukerpan::{Office, Refused};
    ///
    /// let mut busy = Office::found(0, &[40, 35, 25])?;
    /// for code in 0..10 {
    ///     busy.issue(5, code)?;
    /// }
    /// assert_eq!(busy.issue(5, 10), Err(Refused::PartFull)); // 32 / 3, rounded down
    ///
    /// let mut other = Office::found(1, &[40, 35, 25])?;
    /// other.take(&busy.message())?;
    /// other.issue(5, 11)?; // behind the ten
    /// # Ok::<(), Refused>(())
    /// ```
    pub fn issue(&mut self, line: u32, code: u32) -> Result<(), Refused> {
        // SAFETY: the log names its words for as long as the call lasts; the engine only reads them.
        let issued = unsafe { engine::joukerpan_issue(self.record, self.log.as_ptr(), LOG, line, code) };
        self.record = issued.record;
        Refused::check(issued.number)
    }

    /// Hands weight on: issues a move of this much from this office to another, line 64 + `to`. It is an
    /// entry like an edit: it is voted on, and it can lose.
    ///
    /// It takes effect where it is settled, and only if this office then has that much and the other one
    /// stays at or below 65535. If not, or if both are one office, it is settled and changes nothing; so
    /// [`Office::present`] says whether it did. More than 9999 takes several moves. A move changes no
    /// frame, and the founding weights stay as they are. An office that has no weight left makes all its
    /// calls as before; what it edits wins by the votes of others.
    ///
    /// # Errors
    ///
    /// [`Refused::NoEntry`] unless `to` is an office and the weight 1 to 9999; [`Refused::LogFull`] or
    /// [`Refused::PartFull`]: a move is one of the entries of this office's part.
    ///
    /// ```
    /// use joukerpan::{Office, Refused};
    ///
    /// let mut here = Office::found(0, &[40, 35, 25])?;
    /// let mut closing = Office::found(2, &[40, 35, 25])?;
    /// closing.move_weight(0, 25)?;
    ///
    /// here.take(&closing.message())?;                // office 0 joins: 65 of 100
    /// assert_eq!(here.elect().grown, 1);
    /// assert_eq!(here.present(), [65, 35, 0]);
    /// assert_eq!(here.weights(), [40, 35, 25]);
    ///
    /// here.issue(5, 120)?;
    /// assert_eq!(here.elect().grown, 1);             // 65 is above the unheard 35
    /// # Ok::<(), Refused>(())
    /// ```
    pub fn move_weight(&mut self, to: usize, weight: u16) -> Result<(), Refused> {
        let to = u32::try_from(to).unwrap_or(u32::MAX); // which is no office
        self.issue(LINES.saturating_add(to), weight.into())
    }

    /// Settles the entries that have won. [`Outcome::grown`] says how many, 0 where none has, and the rest of the outcome
    /// what became of the own ones. Each is counted by the present weights that those before it have left; a tie goes to
    /// the entry whose office has fewer settled entries then, and then to the lower value.
    pub fn elect(&mut self) -> Outcome {
        let before = self.record;
        // SAFETY: the log names its words, which nothing else does, for as long as the call lasts.
        let elected = unsafe { engine::joukerpan_elect(before, self.log.as_mut_ptr(), LOG) };
        debug_assert_eq!(elected.number, 0, "an office is sound");
        self.record = elected.record;
        self.outcome(&before)
    }

    /// Writes the office's message to the front of the output and answers that part.
    /// An output of [`MESSAGE_MAX`] bytes always does.
    ///
    /// # Errors
    ///
    /// [`Refused::OutputShort`], and the output keeps its contents.
    ///
    /// ```
    /// use joukerpan::{Office, Refused, MESSAGE_MAX};
    ///
    /// let office = Office::found(0, &[40, 35, 25])?;
    /// let mut output = [0; MESSAGE_MAX];
    /// assert_eq!(office.send(&mut output)?.len(), 28);
    /// assert_eq!(office.send(&mut output[..27]), Err(Refused::OutputShort));
    /// # Ok::<(), Refused>(())
    /// ```
    pub fn send<'a>(&self, output: &'a mut [u8]) -> Result<&'a [u8], Refused> {
        // SAFETY: log and output name their elements for as long as the call lasts; the output, which
        // the engine writes, is lent to this call alone.
        let sent =
            unsafe { engine::joukerpan_send(self.record, self.log.as_ptr(), LOG, output.as_mut_ptr(), output.len()) };
        Refused::check(sent.number)?;
        Ok(&output[..sent.length])
    }

    /// The office's message, for any other office to take. Store the office before it leaves.
    pub fn message(&self) -> Vec<u8> {
        let mut output = vec![0; MESSAGE_MAX];
        let length = self.send(&mut output).expect("no message is longer").len();
        output.truncate(length);
        output
    }

    /// Works in another office's message: drops what its sender had dropped, writes the settled entries that are
    /// missing here, with the weights that they move and the codes that they set, adopts every ballot that is more
    /// than what is known, and notes how far the sender is. The same message again changes nothing. The outcome says what
    /// became of the own edits; [`Office::take_with_places`] also how far the logs were compared.
    ///
    /// # Errors
    ///
    /// [`Refused::NoMessage`], [`Refused::OtherOffices`], [`Refused::OwnMessage`], [`Refused::BeginsPast`],
    /// [`Refused::EndsInside`] or [`Refused::OtherLog`]. Any bytes have their answer. A service passes over
    /// `EndsInside`, an old message: all that it has settled is settled and dropped here.
    ///
    /// ```
    /// use joukerpan::{Office, Refused};
    ///
    /// let mut office = Office::found(0, &[40, 35, 25])?;
    /// assert_eq!(office.take(b"no message"), Err(Refused::NoMessage));
    /// assert_eq!(office.take(&office.message()), Err(Refused::OwnMessage));
    /// # Ok::<(), Refused>(())
    /// ```
    pub fn take(&mut self, message: &[u8]) -> Result<Outcome, Refused> {
        self.take_with_places(message).0
    }

    /// [`Office::take`], and beside its answer how many places of the two settled logs were compared.
    ///
    /// They are compared from the last place that both still have back to the first, as operators check a disputed
    /// message on paper. A done take has compared every place that both still have. One that is refused with
    /// [`Refused::OtherLog`] has compared up to and including the first difference met, so the places behind
    /// that one are the same in both logs, and nothing is known of those before it. Any other refusal has
    /// compared none, 0. The same message again may need more places than at first, since the log has grown.
    ///
    /// ```
    /// use joukerpan::{Office, Refused};
    ///
    /// fn settled(codes: &[u32]) -> Result<Office, Refused> {
    ///     let mut office = Office::found(0, &[1, 0])?;
    ///     for &code in codes {
    ///         office.issue(5, code)?;
    ///         office.elect();
    ///     }
    ///     Ok(office)
    /// }
    ///
    /// let sender = settled(&[120, 130, 140, 150])?;
    /// let mut other = Office::found(1, &[1, 0])?;
    /// assert_eq!(other.take_with_places(&sender.message()).1, 0); // no place that both have
    /// assert_eq!(other.take_with_places(&sender.message()).1, 4);
    /// assert_eq!(other.take_with_places(b"no message"), (Err(Refused::NoMessage), 0));
    ///
    /// // An office 0 founded again, as none should be: its third place differs, and so does its first.
    /// let again = settled(&[7, 130, 8, 150])?;
    /// assert_eq!(other.take_with_places(&again.message()), (Err(Refused::OtherLog), 2));
    /// # Ok::<(), Refused>(())
    /// ```
    pub fn take_with_places(&mut self, message: &[u8]) -> (Result<Outcome, Refused>, usize) {
        let before = self.record;
        // SAFETY: log and message name their elements for as long as the call lasts; the log, which
        // the engine writes, is this office's own.
        let taken =
            unsafe { engine::joukerpan_take(before, self.log.as_mut_ptr(), LOG, message.as_ptr(), message.len()) };
        self.record = taken.record;
        (Refused::check(taken.number).map(|()| self.outcome(&before)), taken.places)
    }
}
