//! What became of an edit: of the own entries that were pending before a call, those that are settled, pending still, lost.

use crate::record::*;

/// How many of the own entries that were pending are settled, are pending still, and are lost.
#[derive(Clone, Copy, Debug, Default, PartialEq, Eq)]
pub struct Outcome {
    /// Entries that the settled log has at their place.
    pub settled: usize,
    /// Entries that the own tail has at their place.
    pub pending: usize,
    /// Entries that neither has.
    pub lost: usize,
}

/// What became of the own entries that were pending in the record before, by the record after it and its log. Those that
/// are not settled are written to `rest`, in their order, the pending ones first; later words keep their contents.
pub fn outcome(before: &Record, after: &Record, log: &[u32], rest: &mut [u32]) -> (u32, Outcome) {
    if !sound(after, log) || !leads_to(before, after) {
        return (UNSOUND, Outcome::default());
    }
    let own = |&&word: &&u32| office_of(word) == after.own;
    let tail = before.ballots[after.own].tail();
    let news = &log[(before.settled - after.kept.dropped) as usize..after.held()];
    let settled = common(tail, news.iter());
    let kept = common(tail, news.iter().chain(after.ballots[after.own].tail()));
    let count = |entries: &[u32]| entries.iter().filter(own).count();
    let told =
        Outcome { settled: count(&tail[..settled]), pending: count(&tail[settled..kept]), lost: count(&tail[kept..]) };
    let Some(rest) = rest.get_mut(..told.pending + told.lost) else {
        return (OUTPUT_SHORT, Outcome::default());
    };
    rest.iter_mut().zip(tail[settled..].iter().filter(own)).for_each(|(place, &word)| *place = word);
    (DONE, told)
}

/// Whether the record may be one that the office had before, as far as can be told without its log: the same office of the
/// same frame, a settled length that the log after it still reaches back to, the undropped length and the ballots within
/// their limits.
fn leads_to(before: &Record, after: &Record) -> bool {
    let held = before.settled.checked_sub(before.kept.dropped);
    (before.n, before.own, before.weights) == (after.n, after.own, after.weights)
        && (after.kept.dropped..=after.settled).contains(&before.settled)
        && held.and_then(|held| tail_limit(held, 0)).is_some_and(|limit| sound_ballots(before, limit))
}

/// How many entries of the tail the path begins with.
fn common<'a>(tail: &[u32], path: impl Iterator<Item = &'a u32>) -> usize {
    tail.iter().zip(path).take_while(|(ours, theirs)| ours == theirs).count()
}
