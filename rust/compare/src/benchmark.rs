//! Times of the engine's calls and of the second implementation's, in one run.

use std::io::{stdout, Result, Write};
use std::time::Instant;

use second::record::{LOG, TAIL};

use crate::households;

mod cases;
mod further;
mod states;

use cases::cases;
pub use states::{state, Ballots, Entries, State};

/// Rounds of batches of each case; their order changes from round to round.
const ROUNDS: usize = 61;
/// Nanoseconds that a batch takes, about.
const BATCH: f64 = 300_000.0;
/// The calls that answer the whole settled frame.
const ALL_LINES: &str = "all lines";
const LINE_BY_LINE: &str = "all lines, by 64 settled frames";

/// One call of a case.
type Call = Box<dyn FnMut()>;

/// One case: the same call on the same state by the engine, by the second implementation, and by that with the
/// record handed over by value.
struct Case {
    call: String,
    state: State,
    engine: Call,
    second: Call,
    by_value: Call,
}

/// Median times of a case, in nanoseconds, and the medians of the rounds' ratios.
struct Time {
    engine: f64,
    second: f64,
    ratio: f64,
    ratio_by_value: f64,
}

/// Nanoseconds of one of several calls.
fn batch(call: &mut dyn FnMut(), times: usize) -> f64 {
    let start = Instant::now();
    for _ in 0..times {
        call();
    }
    start.elapsed().as_nanos() as f64 / times as f64
}

pub fn median(mut values: Vec<f64>) -> f64 {
    values.sort_by(f64::total_cmp);
    values[values.len() / 2]
}

impl Case {
    /// Whether it has a row: these calls do with moves what they do with edits, once the record is found sound.
    fn is_shown(&self) -> bool {
        let of_edits = ["settled", "send", "compare vector", "write vectors"];
        self.state.entries == Entries::Edits || !of_edits.contains(&self.call.as_str())
    }

    /// Whether the other is the same call on a shorter log of such entries.
    fn is_longer(&self, short: &Case) -> bool {
        let (a, b) = (self.state, short.state);
        let alike = a.entries == b.entries || b.is_empty();
        self.call == short.call && a.ballots == b.ballots && alike && a.settled > b.settled
    }

    fn time(&mut self) -> Time {
        batch(&mut self.engine, 100);
        batch(&mut self.by_value, 100);
        let once = batch(&mut self.second, 100).max(1.0);
        let times = (BATCH / once) as usize + 1;
        let (mut engine, mut second, mut ratios, mut by_value) = (vec![], vec![], vec![], vec![]);
        for round in 0..ROUNDS {
            let first = if round % 2 == 0 { batch(&mut self.engine, times) } else { 0.0 };
            let plain = batch(&mut self.second, times);
            let value = batch(&mut self.by_value, times);
            let proved = if round % 2 == 0 { first } else { batch(&mut self.engine, times) };
            engine.push(proved);
            second.push(plain);
            ratios.push(proved / plain);
            by_value.push(proved / value);
        }
        Time { engine: median(engine), second: median(second), ratio: median(ratios), ratio_by_value: median(by_value) }
    }
}

/// A closure that makes a call and looks at its whole answer. The numbers named first are kept from the compiler,
/// which would else work a part of a call out beforehand; they are read before the call's arguments are gathered,
/// since a record that is copied to be handed over is copied once more if anything is read after it. An engine's
/// call is made with pointers into buffers that the closure owns, so each of them is safe.
macro_rules! call {
    ($call:expr) => {
        call!(=> $call)
    };
    ($($hidden:ident),* => $call:expr) => {
        Box::new(move || {
            $(let $hidden = black_box($hidden);)*
            black_box(&$call);
        })
    };
}

use call;

/// Prints a table of the times and their ratios, one of how each call grows with the log, and one of the settled
/// frame whole and line by line.
pub fn print() -> Result<()> {
    let mut output = stdout().lock();
    let rows = print_times(&mut output)?;
    print_growth(&rows, &mut output)?;
    print_frames(&rows, &mut output)?;
    households::print(&mut output)
}

/// Times every case and prints it.
fn print_times(output: &mut impl Write) -> Result<Vec<(Case, Time)>> {
    let mut rows = vec![];
    writeln!(output, "| Call | Settled | Entries | Ballots | Engine, ns | Second, ns | Ratio | Ratio by value |")?;
    writeln!(output, "|---|---:|---|---|---:|---:|---:|---:|")?;
    for mut case in cases() {
        let time = case.time();
        let State { settled, ballots, .. } = case.state;
        let (call, entries, ballots) = (&case.call, case.state.entries(), ballots.name());
        let Time { engine, second, ratio, ratio_by_value } = time;
        writeln!(
            output,
            "| {call} | {settled} | {entries} | {ballots} | {engine:.0} | {second:.0} | {ratio:.2} | {ratio_by_value:.2} |"
        )?;
        rows.push((case, time));
    }
    Ok(rows)
}

/// How much each call takes for a further settled entry.
fn print_growth(rows: &[(Case, Time)], output: &mut impl Write) -> Result<()> {
    writeln!(
        output,
        "\n| Call | Entries | Ballots | Engine, ns a settled entry | Second, ns a settled entry | Ratio |"
    )?;
    writeln!(output, "|---|---|---|---:|---:|---:|")?;
    for (long, most) in rows.iter().filter(|(case, _)| case.state.settled >= LOG - TAIL) {
        if let Some((short, least)) = rows.iter().find(|(short, _)| long.is_longer(short)) {
            let entries = (long.state.settled - short.state.settled) as f64;
            let (engine, second) = ((most.engine - least.engine) / entries, (most.second - least.second) / entries);
            let (call, entries, ballots) = (&long.call, long.state.entries(), long.state.ballots.name());
            let ratio = engine / second;
            writeln!(output, "| {call} | {entries} | {ballots} | {engine:.2} | {second:.2} | {ratio:.2} |")?;
        }
    }
    Ok(())
}

/// All lines in one call beside a call for each line.
fn print_frames(rows: &[(Case, Time)], output: &mut impl Write) -> Result<()> {
    writeln!(
        output,
        "\n| Settled | Entries | Ballots | Engine, one call, ns | Engine, 64 calls, ns | Times | Second, one call, ns | Second, 64 calls, ns | Times |"
    )?;
    writeln!(output, "|---:|---|---|---:|---:|---:|---:|---:|---:|")?;
    for (whole, one) in rows.iter().filter(|(case, _)| case.call == ALL_LINES) {
        let by_line = |(case, _): &&(Case, Time)| case.call == LINE_BY_LINE && case.state == whole.state;
        if let Some((_, many)) = rows.iter().find(by_line) {
            let State { settled, ballots, .. } = whole.state;
            let (entries, ballots) = (whole.state.entries(), ballots.name());
            let (engine, second) = (many.engine / one.engine, many.second / one.second);
            writeln!(
                output,
                "| {settled} | {entries} | {ballots} | {:.0} | {:.0} | {engine:.0} | {:.0} | {:.0} | {second:.0} |",
                one.engine, many.engine, one.second, many.second
            )?;
        }
    }
    Ok(())
}
