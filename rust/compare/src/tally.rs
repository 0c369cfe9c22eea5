//! What a comparison has seen.

use std::collections::BTreeMap;
use std::io::{self, Write};

use second::record::{LOG, UNSOUND};

use crate::breaks::clause_name;

/// The calls, in the order of the tally.
const CALLS: [&str; 18] = [
    "found",
    "sound",
    "issue",
    "settled",
    "settled frame",
    "tentative frame",
    "elect",
    "send",
    "take",
    "all lines",
    "sheet",
    "earlier place",
    "write vectors",
    "compare vector",
    "forecast",
    "fold",
    "outcome",
    "standing",
];
const NUMBERS: usize = 18;
/// How often each call answered each number, and what else was seen.
#[derive(Default)]
pub struct Tally {
    pub numbers: [[u64; NUMBERS]; CALLS.len()],
    /// How often each clause was broken by itself.
    pub clauses: BTreeMap<usize, u64>,
    pub issued_moves: u64,
    pub elected_one: u64,
    pub elected_more: u64,
    pub elected_weight: u64,
    pub elected_code: u64,
    pub grown: u64,
    pub taken_weight: u64,
    pub taken_code: u64,
    pub adopted: u64,
    pub compared_all: u64,
    pub compared_some: u64,
    pub rows: u64,
    pub not_all_read: u64,
    /// Of done comparisons, the standings of the log and of each office's path: before, equal, after, beside.
    pub standings: [u64; 4],
    pub named: u64,
    pub long_logs: u64,
    /// Folds that dropped entries, takes that did, and records that had dropped some before.
    pub folded: u64,
    pub dropped_too: u64,
    pub with_dropped: u64,
    /// Own entries that were pending: settled, pending still, lost; and outcomes with entries of two of these.
    pub told: [u64; 3],
    pub told_mixed: u64,
    /// Outcomes refused for the record before alone.
    pub untold_before: u64,
    /// Rows of standings, and standings with two or more.
    pub candidates: u64,
    pub contested: u64,
}

impl Tally {
    /// Counts the number that a call answered.
    pub fn count(&mut self, call: usize, number: u32) {
        self.numbers[call][number as usize] += 1;
    }

    /// Prints how often each call gave each number, and what else was seen.
    pub fn print(&self, seed: u64, output: &mut impl Write) -> io::Result<()> {
        let calls: u64 = self.numbers.iter().flatten().sum();
        writeln!(output, "seed {seed}: {calls} calls, all alike")?;
        writeln!(
            output,
            "\n| Call | {} |",
            (0..NUMBERS).map(|number| number.to_string()).collect::<Vec<_>>().join(" | ")
        )?;
        writeln!(output, "|---|{}", "---:|".repeat(NUMBERS))?;
        for (call, numbers) in CALLS.iter().zip(&self.numbers) {
            let cells: Vec<String> =
                numbers.iter().map(|&count| if count == 0 { String::new() } else { count.to_string() }).collect();
            writeln!(output, "| {call} | {} |", cells.join(" | "))?;
        }
        self.print_seen(output)?;
        self.print_told(output)?;
        writeln!(output, "records refused with {UNSOUND} for one broken clause:")?;
        for (&clause, count) in &self.clauses {
            writeln!(output, "  {}: {count}", clause_name(clause))?;
        }
        Ok(())
    }

    /// Prints what was seen beside the numbers.
    fn print_seen(&self, output: &mut impl Write) -> io::Result<()> {
        writeln!(output, "\nmoves of weight issued {}", self.issued_moves)?;
        writeln!(output, "elections of one entry {}, of more {}", self.elected_one, self.elected_more)?;
        writeln!(output, "takes that grew the log {}, that changed a ballot {}", self.grown, self.adopted)?;
        writeln!(
            output,
            "takes with all shared places alike {}, with a difference met behind others {}",
            self.compared_all, self.compared_some
        )?;
        writeln!(output, "rows of sheets {}", self.rows)?;
        writeln!(output, "earlier places with entries that were not read {}", self.not_all_read)?;
        let [before, equal, after, beside] = self.standings;
        writeln!(output, "versions before a vector {before}, equal {equal}, after {after}, beside {beside}")?;
        writeln!(output, "forecasts that name an entry {}", self.named)?;
        writeln!(output, "elections that moved weight {}, takes {}", self.elected_weight, self.taken_weight)?;
        writeln!(output, "elections that changed a code {}, takes {}", self.elected_code, self.taken_code)?;
        writeln!(output, "logs above {LOG} words {}", self.long_logs)?;
        writeln!(output, "records with dropped entries {}", self.with_dropped)?;
        writeln!(output, "folds that dropped entries {}, takes {}", self.folded, self.dropped_too)
    }

    /// Prints what supervisors would have been told.
    fn print_told(&self, output: &mut impl Write) -> io::Result<()> {
        let [settled, pending, lost] = self.told;
        writeln!(
            output,
            "own entries told settled {settled}, pending {pending}, lost {lost}; outcomes with entries of two of these {}",
            self.told_mixed
        )?;
        writeln!(output, "outcomes refused for the record before alone {}", self.untold_before)?;
        writeln!(output, "rows of standings {}, standings with several {}", self.candidates, self.contested)
    }
}
