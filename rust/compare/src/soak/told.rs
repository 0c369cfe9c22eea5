//! What an office is told of its edits, and what is claimed of it.

use joukerpan::{Entry, NextPlace, Office, Outcome};
use second::outcome::outcome;
use second::record::{office_of, Record, OFFICES, TAIL};
use second::standing::{standing, Standing};

use super::order::{Chain, Issue};
use crate::alike::same;

/// How many own entries an office has issued, and was told settled and lost.
#[derive(Clone, Copy, Default)]
pub struct Told {
    pub issued: u64,
    pub settled: u64,
    pub lost: u64,
}

impl Told {
    /// Whether each entry was told once, or is pending.
    pub fn check(&self, office: &Office) -> Result<(), String> {
        let pending = office.pending().len() as u64;
        same("entries issued, and told or pending", self.issued, self.settled + self.lost + pending)
    }
}

/// The own entries of a record's own tail, with what was in view at each: the settled log and the tail before it.
fn pending(record: &Record, log: Chain) -> Vec<Issue> {
    let tail = record.ballots[record.own].tail();
    let own = (0..tail.len()).filter(|&at| office_of(tail[at]) == record.own);
    let issue = |at: usize| Issue { place: record.settled + at as u64, view: log.with(&tail[..at]), entry: tail[at] };
    own.map(issue).collect()
}

/// Compares what a call has made of the own entries that were pending, and wants of it what is claimed; answers the lost
/// ones. `chain` is the settled log before the call.
pub fn lost(before: &Record, chain: Chain, after: (&Record, &[u32]), told: &Outcome) -> Result<Vec<Issue>, String> {
    let (record, log) = after;
    let mut rest = [0; TAIL];
    let (number, expected) = outcome(before, record, log, &mut rest);
    let (kept, gone) = rest[..expected.pending + expected.lost].split_at(expected.pending);
    let words = |entries: &[Entry]| entries.iter().map(|entry| entry.value()).collect::<Vec<u32>>();
    let given = (0, told.settled, words(&told.pending), words(&told.lost));
    same("outcome", given, (number, expected.settled, kept.to_vec(), gone.to_vec()))?;
    let done = (record != before, record.settled - before.settled, record.kept.dropped - before.kept.dropped);
    same("what a call changed", (told.changed, told.grown, told.dropped), done)?;
    let own = pending(before, chain);
    same("the three parts together", told.settled + told.pending.len() + told.lost.len(), own.len())?;
    if !told.pending.is_empty() && !told.lost.is_empty() {
        return Err("entries are pending behind a call that lost some".into());
    }
    Ok(own[own.len() - told.lost.len()..].to_vec())
}

/// Compares how the next place stands, and wants the weights to add up to the total.
pub fn stands(office: &Office, record: &Record, log: &[u32]) -> Result<Standing, String> {
    let (_, expected) = standing(record, log);
    let NextPlace { candidates, unheard, silent } = office.standing();
    let rows: Vec<(u32, u32)> = candidates.iter().map(|row| (row.entry.value(), row.weight)).collect();
    let others: Vec<usize> = (0..OFFICES).filter(|&office| expected.silent[office] == 1).collect();
    let plain: Vec<(u32, u32)> = expected.entries.into_iter().zip(expected.tallies).take(expected.rows).collect();
    let total = rows.iter().map(|row| row.1).sum::<u32>() + unheard;
    same("the total", total, record.weights.iter().map(|&weight| u32::from(weight)).sum())?;
    same("standing", (rows, unheard, silent), (plain, expected.unheard, others))?;
    Ok(expected)
}

/// Wants the entry that an election settled first to be one that led before it.
pub fn led(before: &Standing, first: u32) -> Result<(), String> {
    let rows = before.entries.iter().zip(before.tallies).take(before.rows);
    let most = rows.clone().map(|(_, tally)| tally).max().unwrap_or(0);
    if most > before.unheard && rows.clone().any(|(&entry, tally)| entry == first && tally == most) {
        return Ok(());
    }
    Err(format!("{first:08X} was settled, which did not lead: {before:?}"))
}
