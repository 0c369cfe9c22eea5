//! What the runs of a setting come to, in numbers.

use std::io::{IsTerminal, Write};
use std::time::{Duration, Instant};

use crate::ledger::Edit;
use crate::settings::Settings;
use crate::simulation::{self, Outcome};
use crate::world::Folded;

/// How long something took: hours.
#[derive(Clone, Copy, Debug, Default, PartialEq)]
pub struct Delay {
    pub mean: f64,
    pub median: f64,
    /// 95 of 100 took no longer.
    pub most: f64,
}

impl Delay {
    /// None of no hours.
    pub fn of(mut hours: Vec<u32>) -> Option<Delay> {
        hours.sort_unstable();
        let mean = hours.iter().map(|&hour| f64::from(hour)).sum::<f64>() / hours.len() as f64;
        Some(Delay { mean, median: ranked(&hours, 50)?, most: ranked(&hours, 95)? })
    }
}

/// The least of the rising hours that this many of 100 do not exceed.
fn ranked(hours: &[u32], percent: usize) -> Option<f64> {
    let rank = (hours.len() * percent).div_ceil(100).max(1);
    hours.get(rank - 1).map(|&hour| f64::from(hour))
}

/// A setting's measures over all its runs. Shares are of the edits that supervisors wanted to make, 0 to 1.
#[derive(Clone, Debug, Default, PartialEq)]
pub struct Measures {
    pub edits: usize,
    /// From first made to settled at the own office, and at all offices that are not gone.
    pub own: Option<Delay>,
    pub all: Option<Delay>,
    pub settled: f64,
    pub lost: f64,
    /// Neither settled nor lost when nothing changes any more, or refused.
    pub stuck: f64,
    /// How often an edit was made, on average.
    pub times: f64,
    /// Of the edits made while the office was away and of the others, the share that was not settled.
    pub failed_away: Option<f64>,
    pub failed_there: Option<f64>,
    /// For each settled edit.
    pub messages: Option<f64>,
    pub bytes: Option<f64>,
    /// The share of runs that stand still with edits left.
    pub still: f64,
    /// The share of runs whose log was full, and the mean hour of it.
    pub full: f64,
    pub full_at: Option<f64>,
    /// Where offices fold, what that came to.
    pub folding: Option<Folding>,
}

/// What folding came to, in entries, on average of the runs.
#[derive(Clone, Copy, Debug, PartialEq)]
pub struct Folding {
    /// Settled, and how many of these were dropped in the end.
    pub settled: f64,
    pub dropped: f64,
    /// The most that any office of any run ever had settled and not dropped.
    pub most: usize,
    /// Settled at the office that fell silent for good, and at the one that had most, when it did.
    pub silent: Option<(f64, f64)>,
}

/// Runs the setting as often as it says. A line on standard error tells how far it is when that takes long.
pub fn measure(settings: &Settings, name: &str) -> Measures {
    let mut progress = Progress::new(name, settings.runs);
    let outcomes: Vec<Outcome> = (0..settings.runs)
        .map(|number| {
            progress.step(number);
            simulation::run(settings, number)
        })
        .collect();
    progress.end();
    summary(&outcomes)
}

fn summary(outcomes: &[Outcome]) -> Measures {
    let edits: Vec<&Edit> = outcomes.iter().flat_map(|outcome| &outcome.edits).filter(|edit| !edit.moves).collect();
    let own: Vec<u32> = edits.iter().filter_map(|edit| Some(edit.own? - edit.made)).collect();
    let all: Vec<u32> = edits.iter().filter_map(|edit| Some(edit.all? - edit.made)).collect();
    let lost = edits.iter().filter(|edit| edit.lost).count();
    let full: Vec<u32> = outcomes.iter().filter_map(|outcome| outcome.full).collect();
    let (count, settled) = (edits.len(), own.len());
    let each = |total: u64| (settled > 0).then(|| total as f64 / settled as f64);
    Measures {
        edits: count,
        settled: share(settled, count).unwrap_or(0.0),
        lost: share(lost, count).unwrap_or(0.0),
        stuck: share(count - settled - lost, count).unwrap_or(0.0),
        times: edits.iter().map(|edit| f64::from(edit.times)).sum::<f64>() / count.max(1) as f64,
        failed_away: failed_share(&edits, true),
        failed_there: failed_share(&edits, false),
        messages: each(outcomes.iter().map(|outcome| outcome.messages).sum()),
        bytes: each(outcomes.iter().map(|outcome| outcome.bytes).sum()),
        still: share(outcomes.iter().filter(|outcome| outcome.still).count(), outcomes.len()).unwrap_or(0.0),
        full: share(full.len(), outcomes.len()).unwrap_or(0.0),
        full_at: Delay::of(full).map(|hours| hours.mean),
        folding: folding(&outcomes.iter().filter_map(|outcome| outcome.folded).collect::<Vec<Folded>>()),
        own: Delay::of(own),
        all: Delay::of(all),
    }
}

/// None of no runs.
fn folding(runs: &[Folded]) -> Option<Folding> {
    let (least, most): (Vec<usize>, Vec<usize>) = runs.iter().filter_map(|run| run.silent).unzip();
    Some(Folding {
        settled: mean(runs.iter().map(|run| run.settled))?,
        dropped: mean(runs.iter().map(|run| run.dropped))?,
        most: runs.iter().map(|run| run.most).max()?,
        silent: mean(least.into_iter()).zip(mean(most.into_iter())),
    })
}

fn mean(counts: impl ExactSizeIterator<Item = usize>) -> Option<f64> {
    let of = counts.len();
    share(counts.sum(), of)
}

fn share(part: usize, whole: usize) -> Option<f64> {
    (whole > 0).then(|| part as f64 / whole as f64)
}

/// The share not settled of the edits that were made while away, or not.
fn failed_share(edits: &[&Edit], away: bool) -> Option<f64> {
    let of = edits.iter().filter(|edit| edit.away == away);
    share(of.clone().filter(|edit| edit.own.is_none()).count(), of.count())
}

/// How far some long work is, on standard error: one line that changes every second on a terminal, a line every half
/// minute elsewhere.
pub struct Progress {
    name: String,
    steps: u64,
    shown: Instant,
    terminal: bool,
    any: bool,
}

impl Progress {
    pub fn new(name: &str, steps: u64) -> Progress {
        let terminal = std::io::stderr().is_terminal();
        Progress { name: name.to_string(), steps, shown: Instant::now(), terminal, any: false }
    }

    /// So many steps are done.
    pub fn step(&mut self, done: u64) {
        if self.shown.elapsed() < Duration::from_secs(if self.terminal { 1 } else { 30 }) {
            return;
        }
        self.shown = Instant::now();
        self.any = true;
        let (before, after) = if self.terminal { ("\r\x1b[K", "") } else { ("", "\n") };
        let mut error = std::io::stderr();
        // A progress line that cannot be shown is no reason to stop.
        let _ = write!(error, "{before}{}: {done} of {}{after}", self.name, self.steps).and_then(|()| error.flush());
    }

    /// The line is taken away.
    pub fn end(&self) {
        if self.any && self.terminal {
            let _ = write!(std::io::stderr(), "\r\x1b[K");
        }
    }
}

#[cfg(test)]
mod tests {
    use super::{measure, Delay};
    use crate::settings::Settings;

    fn measured(words: &str) -> super::Measures {
        let mut settings = Settings::default();
        for word in words.split(' ') {
            settings.set(word).unwrap();
        }
        settings.check().unwrap();
        measure(&settings, "test")
    }

    #[test]
    fn delays_are_ranked() {
        let hours = (1..=100).rev().collect();
        assert_eq!(Delay::of(hours), Some(Delay { mean: 50.5, median: 50.0, most: 95.0 }));
        assert_eq!(Delay::of(vec![7]), Some(Delay { mean: 7.0, median: 7.0, most: 7.0 }));
        assert_eq!(Delay::of(vec![]), None);
    }

    #[test]
    fn what_is_passed_on_at_once_is_settled_at_once() {
        let measures = measured("exchange=once edits=20 weeks=30 runs=2");
        assert_eq!((measures.settled, measures.lost, measures.stuck), (1.0, 0.0, 0.0));
        assert_eq!(measures.all.unwrap().most, 0.0);
    }

    #[test]
    fn the_same_seed_gives_the_same_measures() {
        let words = "exchange=pairs edits=5 weeks=30 runs=3 again=yes outages=10:7";
        assert_eq!(measured(words), measured(words));
        assert_ne!(measured(words), measured(&format!("{words} seed=2")));
    }

    #[test]
    fn lost_edits_made_again_are_settled_in_the_end() {
        let measures = measured("edits=3 weeks=30 runs=3 again=yes");
        assert_eq!((measures.settled, measures.lost, measures.stuck), (1.0, 0.0, 0.0));
        assert!(measures.times > 1.5);
    }

    #[test]
    fn two_offices_apart_settle_nothing() {
        let measures = measured("weights=50,50 edits=5 away=1:0:100 weeks=20 runs=2 gone=1:0");
        assert_eq!((measures.settled, measures.lost, measures.still), (0.0, 0.0, 1.0));
    }

    #[test]
    fn a_deciding_office_settles_its_edits_at_once() {
        let measures = measured("weights=3,1,1 by=hot hot=1 share=100 weeks=10 runs=2");
        assert_eq!((measures.settled, measures.own.unwrap().most), (1.0, 0.0));
    }

    #[test]
    fn an_office_that_has_moved_its_weight_is_not_missed() {
        let closed = measured("weights=1,1,1,1 every=1 edits=20 close=3:1:0 weeks=40 runs=10");
        assert_eq!(closed.still, 0.0);
        let gone = measured("weights=1,1,1,1 every=1 edits=20 gone=3:1 weeks=40 runs=10");
        assert!(gone.still > 0.5);
    }

    #[test]
    fn folding_changes_nothing_but_the_bytes() {
        let words = "edits=20 every=1 weeks=40 runs=2 again=yes outages=2:3";
        let (whole, folded) = (measured(words), measured(&format!("{words} fold=4")));
        assert!(folded.bytes.unwrap() < 0.5 * whole.bytes.unwrap());
        assert_eq!(super::Measures { bytes: whole.bytes, folding: None, ..folded }, whole);
    }

    #[test]
    fn folding_stops_at_an_office_that_is_silent() {
        let folding = measured("weights=1,1,1,0 every=1 edits=20 gone=3:10 weeks=40 runs=4 fold=2").folding.unwrap();
        let (silent, then) = folding.silent.unwrap();
        assert!(folding.dropped > 0.0 && folding.dropped <= silent && silent <= then);
        assert!(then + 100.0 < folding.settled);
    }

    #[test]
    fn a_full_log_ends_a_run() {
        let measures = measured("offices=1 edits=100 weeks=20 runs=2");
        assert_eq!(measures.full, 1.0);
        assert!(measures.full_at.unwrap() < 12.0 * 168.0);
    }
}
