//! What a call has made of an office and of its own edits.

use joukerpan_sys::{Record, Told};

use crate::Entry;

/// What a take, an election or a fold has made of an office, and what became of its own entries that were pending: edits,
/// and moves of weight.
///
/// Each own entry that was pending before the call is settled, pending still, or **lost**: a place of the settled log takes
/// one entry, of whatever line, and when another office's wins the place of an edit or of an earlier one, the edit and
/// those behind it are lost. No office will ever settle a lost entry at its place (proved, where a service does what
/// [`Office`](crate::Office) asks of it). What a supervisor still wants is issued again
/// ([`Office::issue`](crate::Office::issue)): a new entry, which settles once or is lost in its turn. After one call nothing
/// is pending where something is lost (proved).
///
/// ```
/// use joukerpan::{Entry, Office, Refused};
///
/// let weights = [40, 35, 25];
/// let [mut zero, mut one, mut two] = [0, 1, 2].map(|own| Office::found(own, &weights).unwrap());
/// zero.issue(5, 120)?;
/// two.take(&zero.message())?;
/// assert_eq!(two.elect().grown, 1);                 // line 5 is settled by 65 of 100
///
/// one.issue(6, 7)?;                                 // another line, and the same place
/// let outcome = one.take(&two.message())?;
/// assert_eq!(outcome.lost, [Entry { office: 1, line: 6, code: 7 }]);
/// assert_eq!((outcome.settled, outcome.pending.len(), outcome.grown), (0, 0, 1));
///
/// for edit in outcome.lost {
///     one.issue(edit.line.into(), edit.code.into())?; // again, at the next place
/// }
/// zero.take(&one.message())?;
/// let outcome = one.take(&zero.message())?.then(one.elect());
/// assert_eq!((outcome.settled, outcome.lost.len()), (1, 0));
/// # Ok::<(), Refused>(())
/// ```
#[derive(Clone, Debug, Default, PartialEq, Eq)]
pub struct Outcome {
    /// How many of the own entries that were pending are settled: the oldest of them.
    pub settled: usize,
    /// The own entries that are pending still, the oldest first.
    pub pending: Vec<Entry>,
    /// The own entries that are lost, the oldest first.
    pub lost: Vec<Entry>,
    /// Whether the office has changed at all: then it is stored before anything of it is sent or shown.
    pub changed: bool,
    /// How many entries, of any office, the settled log has grown by: those that an election has settled, or a take
    /// brought.
    pub grown: u64,
    /// How many settled entries were dropped, by a fold or by a take.
    pub dropped: u64,
}

impl Outcome {
    /// From two records of an office, what is told of them and the entries that are not settled.
    pub(crate) fn of(before: &Record, after: &Record, told: Told, rest: &[u32]) -> Outcome {
        let entries = |words: &[u32]| words.iter().map(|&word| Entry::from(word)).collect();
        let (pending, lost) = rest[..told.pending + told.lost].split_at(told.pending);
        Outcome {
            settled: told.settled,
            pending: entries(pending),
            lost: entries(lost),
            changed: before != after,
            grown: after.settled - before.settled,
            dropped: after.kept.dropped.saturating_sub(before.kept.dropped),
        }
    }

    /// What this call and the next one at the same office made of it together: what is pending is what the next one left.
    pub fn then(self, next: Outcome) -> Outcome {
        Outcome {
            settled: self.settled + next.settled,
            pending: next.pending,
            lost: [self.lost, next.lost].concat(),
            changed: self.changed || next.changed,
            grown: self.grown + next.grown,
            dropped: self.dropped + next.dropped,
        }
    }
}
