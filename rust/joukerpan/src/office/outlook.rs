//! Version vectors for an archive, and next round's weights.

use std::ops::RangeInclusive;

use joukerpan_sys as engine;
use joukerpan_sys::{Weights, LOG, OFFICES, VECTORS_MAX};

use crate::{Entry, Office, Refused, Standings};

impl Office {
    /// The entry that would win the first election step here whichever weights within the bounds are chosen,
    /// or that none would: for next round's weights, of which a lowest and a highest are known.
    ///
    /// There is a range for each office. An office without one may have any weight, 0 to 65535; a range
    /// without an office is not looked at. The entry is named exactly if it wins under every choice, by the
    /// votes known here and the ties of the settled log as it stands (proved); all weights 0 is a choice,
    /// under which nothing wins. The weights that the office has play no part.
    ///
    /// # Errors
    ///
    /// [`Refused::NoWeights`] where an office's range begins above its end.
    ///
    /// ```
    /// use joukerpan::{Entry, Office, Refused};
    ///
    /// let mut here = Office::found(0, &[40, 35, 25])?;
    /// here.issue(5, 120)?;
    /// let edit = Entry { office: 0, line: 5, code: 120 };
    ///
    /// assert_eq!(here.forecast(&[60..=80, 10..=30, 5..=25])?, Some(edit)); // 60 is above 30 + 25
    /// assert_eq!(here.forecast(&[55..=80, 10..=30, 5..=25])?, None);       // 55 is not
    /// assert_eq!(here.forecast(&[0..=80, 0..=0, 0..=0])?, None);           // all may be 0
    /// assert_eq!(here.forecast(&[80..=60, 10..=30, 5..=25]), Err(Refused::NoWeights));
    /// # Ok::<(), Refused>(())
    /// ```
    pub fn forecast(&self, bounds: &[RangeInclusive<u16>]) -> Result<Option<Entry>, Refused> {
        let (mut lowest, mut highest) = (Weights { of: [0; OFFICES] }, Weights { of: [u16::MAX; OFFICES] });
        for (place, range) in bounds.iter().take(OFFICES).enumerate() {
            (lowest.of[place], highest.of[place]) = (*range.start(), *range.end());
        }
        // SAFETY: the log names its words for as long as the call lasts; the engine only reads them.
        let answer = unsafe { engine::joukerpan_forecast(self.record, self.log.as_ptr(), LOG, lowest, highest) };
        Refused::check(answer.number)?;
        Ok(answer.named.then(|| Entry::from(answer.entry)))
    }

    /// Writes the office's version vectors to the front of the output and answers that part: of the settled
    /// log, then of each office's path, offices rising. An output of [`VECTORS_MAX`] bytes always does.
    ///
    /// A vector has a count of entries for each office, dropped ones included, [`COUNT`](crate::COUNT) bytes each,
    /// most significant first. The path of an office without a ballot is the settled log.
    ///
    /// # Errors
    ///
    /// [`Refused::OutputShort`], and the output keeps its contents.
    pub fn write_vectors<'a>(&self, output: &'a mut [u8]) -> Result<&'a [u8], Refused> {
        // SAFETY: log and output name their elements for as long as the call lasts; the output, which
        // the engine writes, is lent to this call alone.
        let written = unsafe {
            let (log, out) = (self.log.as_ptr(), output.as_mut_ptr());
            engine::joukerpan_write_vectors(self.record, log, LOG, out, output.len())
        };
        Refused::check(written.number)?;
        Ok(&output[..written.length])
    }

    /// The office's version vectors, as [`Office::write_vectors`] writes them.
    ///
    /// ```
    /// use joukerpan::{Office, Refused};
    ///
    /// let mut office = Office::found(0, &[1, 1])?;
    /// office.issue(5, 120)?;
    /// let of_the_log = [0; 16];
    /// let of_its_own_path = [0, 0, 0, 0, 0, 0, 0, 1, 0, 0, 0, 0, 0, 0, 0, 0];
    /// assert_eq!(office.vectors(), [of_the_log, of_its_own_path, of_the_log].concat());
    /// # Ok::<(), Refused>(())
    /// ```
    pub fn vectors(&self) -> Vec<u8> {
        let mut output = vec![0; VECTORS_MAX];
        let length = self.write_vectors(&mut output).expect("no office has more").len();
        output.truncate(length);
        output
    }

    /// How the settled log and each office's path stand to a version vector, by counts.
    ///
    /// Of a vector that this office has written itself, by the state that it has, the answers say which of
    /// its versions is a beginning of which (proved). Of one that another office wrote they need not: a
    /// version may come before it and be no beginning of what it counts.
    ///
    /// # Errors
    ///
    /// [`Refused::NoVector`] unless the bytes are exactly one count for each office.
    ///
    /// ```
    /// use joukerpan::{Office, Refused, Standing};
    ///
    /// let mut office = Office::found(0, &[1])?;
    /// office.issue(5, 120)?;
    /// let standings = office.compare(&[0, 0, 0, 0, 0, 0, 0, 1])?;
    /// assert_eq!(standings.log, Standing::Before);
    /// assert_eq!(standings.paths, [Standing::Equal]);
    /// assert_eq!(office.compare(&[0, 0, 0, 1]), Err(Refused::NoVector)); // a count has 8 bytes
    /// # Ok::<(), Refused>(())
    /// ```
    pub fn compare(&self, vector: &[u8]) -> Result<Standings, Refused> {
        // SAFETY: log and vector name their elements for as long as the call lasts; the engine only
        // reads them.
        let answer = unsafe {
            let (log, bytes) = (self.log.as_ptr(), vector.as_ptr());
            engine::joukerpan_compare_vector(self.record, log, LOG, bytes, vector.len())
        };
        Refused::check(answer.number)?;
        Ok(Standings::of(&answer.answers[..=self.offices()]))
    }
}
