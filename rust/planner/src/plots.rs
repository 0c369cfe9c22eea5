//! The plots of docs/PLANNING.md: which settings they run, and what they show.

use crate::chart::{Axis, Chart, Panel};
use crate::measures::{measure, Delay, Measures};
use crate::settings::Settings;

/// Weightings that a planner compares, by the words that set them.
const WEIGHTINGS: [(&str, &str); 3] = [
    ("eight equal offices", "weights=1,1,1,1,1,1,1,1"),
    ("one deciding: 8, seven times 1", "weights=8,1,1,1,1,1,1,1"),
    ("three large: 4, 4, 4, five times 1", "weights=4,4,4,1,1,1,1,1"),
];

/// A plot: the file's name and what draws it, with so many runs to a point.
pub type Plot = (&'static str, fn(u64) -> Chart);

pub const PLOTS: [Plot; 5] =
    [("delay.svg", delay), ("lost.svg", lost), ("gone.svg", gone), ("away.svg", away), ("fold.svg", fold)];

/// The measures of the settings that the words set.
fn run(words: &[&str], runs: u64) -> Measures {
    let mut settings = Settings { runs, ..Settings::default() };
    for word in words.iter().flat_map(|words| words.split(' ')) {
        settings.set(word).expect("the plots' settings are settings");
    }
    settings.check().expect("the plots' settings can be run");
    measure(&settings, &words.join(" "))
}

/// The points of a line: at each place along it the measure of its settings, where there is one.
fn points(places: &[f64], measured: impl Fn(f64) -> Option<f64>) -> Vec<(f64, f64)> {
    places.iter().filter_map(|&place| Some((place, measured(place)?))).collect()
}

const INTERVALS: [f64; 6] = [1.0, 3.0, 8.0, 24.0, 72.0, 168.0];
const HOURS: [(f64, &str); 6] =
    [(1.0, "1 h"), (3.0, "3 h"), (8.0, "8 h"), (24.0, "1 d"), (72.0, "3 d"), (168.0, "7 d")];
const LONG: [(f64, &str); 6] =
    [(0.5, "½ h"), (3.0, "3 h"), (12.0, "12 h"), (48.0, "2 d"), (168.0, "7 d"), (1008.0, "6 w")];

/// The time to settled against the interval of exchanges, for each weighting and pattern.
fn delay(runs: u64) -> Chart {
    let patterns = ["exchange=pairs", "exchange=hub", "exchange=all"];
    let mut own = Vec::new();
    let mut all = Vec::new();
    for (title, weights) in WEIGHTINGS {
        let measured: Vec<Vec<(f64, Measures)>> = patterns
            .iter()
            .map(|pattern| {
                let at = |hours: &f64| (*hours, run(&["weeks=52", weights, pattern, &format!("every={hours}")], runs));
                INTERVALS.iter().map(at).collect()
            })
            .collect();
        own.push(Panel { title: title.to_string(), lines: lines(&measured, |measures| measures.own) });
        all.push(Panel { title: title.to_string(), lines: lines(&measured, |measures| measures.all) });
    }
    Chart {
        title: "How long an edit takes to settle, by the time between exchanges".to_string(),
        description: "Three edits a week; mean times from made to settled, both axes by factors.".to_string(),
        across: Axis::hours("time between exchanges (hours, days)", &HOURS),
        rows: vec![
            (Axis::hours("mean time to settled, own office", &LONG), own),
            (Axis::hours("mean time to settled, all offices", &LONG), all),
        ],
        legend: ["one office by chance (pairs)", "a hub, both ways", "all from all"].map(str::to_string).to_vec(),
    }
}

fn lines(measured: &[Vec<(f64, Measures)>], delay: fn(&Measures) -> Option<Delay>) -> Vec<Vec<(f64, f64)>> {
    let point = |(hours, measures): &(f64, Measures)| Some((*hours, delay(measures)?.mean));
    measured.iter().map(|line| line.iter().filter_map(point).collect()).collect()
}

const RATES: [f64; 6] = [0.5, 1.0, 2.0, 5.0, 10.0, 20.0];

/// The share lost against edits a week, for each weighting and pattern.
fn lost(runs: u64) -> Chart {
    let patterns =
        ["exchange=pairs every=24", "exchange=hub every=24", "exchange=all every=24", "exchange=pairs every=1"];
    let panel = |(title, weights): (&str, &str)| {
        let line = |pattern: &&str| {
            points(&RATES, |rate| {
                Some(100.0 * run(&["weeks=40", weights, pattern, &format!("edits={rate}")], runs).lost)
            })
        };
        Panel { title: title.to_string(), lines: patterns.iter().map(line).collect() }
    };
    Chart {
        title: "How many edits are lost, by how many are made".to_string(),
        description: "The share of edits that lose their place to another, by edits a week of all offices.".to_string(),
        across: Axis::numbers("edits a week, all offices", &RATES),
        rows: vec![(Axis::percent("edits lost", 100.0), WEIGHTINGS.map(panel).into())],
        legend: ["pairs, daily", "hub, daily", "all from all, daily", "pairs, hourly"].map(str::to_string).to_vec(),
    }
}

/// The share of runs that stand still when an office is gone for good, by its weight.
fn gone(runs: u64) -> Chart {
    let weightings =
        ["weights=1,1,1,1,1,1,1,1", "weights=2,2,2,2,2,2,2,1", "weights=8,1,1,1,1,1,1,1", "weights=1,1,1,1,1,1,1,0"];
    let panel = |(title, every): (&str, &str)| {
        let line = |weights: &&str| {
            let still = |rate: f64| {
                let (rate, weeks) = (format!("edits={rate}"), format!("weeks={}", 100.0 / rate));
                Some(100.0 * run(&["gone=7:0", every, weights, &rate, &weeks], 5 * runs).still)
            };
            points(&RATES[1..], still)
        };
        Panel { title: title.to_string(), lines: weightings.iter().map(line).collect() }
    };
    Chart {
        title: "One office gone for good: how often 100 edits end in a standstill".to_string(),
        description: "The share of runs in which an election waits for ever for the vote of the office that is gone."
            .to_string(),
        across: Axis::numbers("edits a week, all offices", &RATES[1..]),
        rows: vec![(
            Axis::percent("runs that stand still", 100.0),
            [("pairs, hourly", "every=1"), ("pairs, daily", "every=24")].map(panel).into(),
        )],
        legend: [
            "gone: one of eight equal",
            "gone: half the weight of each other",
            "gone: one beside a deciding office",
            "gone: an office without weight",
        ]
        .map(str::to_string)
        .to_vec(),
    }
}

const DAYS: [f64; 6] = [1.0, 2.0, 4.0, 7.0, 14.0, 28.0];

/// The share lost or refused of what an office edits while it is away, against how long it is away.
fn away(runs: u64) -> Chart {
    let cases = [
        ("one of eight equal", WEIGHTINGS[0].1, 7),
        ("a deciding office stays", WEIGHTINGS[1].1, 7),
        ("the deciding office itself", WEIGHTINGS[1].1, 0),
    ];
    let panel = |(title, weights, office): (&str, &str, usize)| {
        let at = |days: &f64| {
            let absence = format!("away={office}:4:{:.3}", days / 7.0);
            (*days, run(&["every=1 edits=10 weeks=9", weights, &absence], 5 * runs))
        };
        let measured: Vec<(f64, Measures)> = DAYS.iter().map(at).collect();
        let line = |share: fn(&Measures) -> Option<f64>| {
            measured.iter().filter_map(|(days, measures)| Some((*days, 100.0 * share(measures)?))).collect()
        };
        Panel { title: title.to_string(), lines: vec![line(|of| of.failed_away), line(|of| of.failed_there)] }
    };
    Chart {
        title: "An office away for a while: edits that come to nothing, its own and the others'".to_string(),
        description: "Ten edits a week, hourly pairs; the share of edits lost or refused, of those made while away and of all others."
            .to_string(),
        across: Axis::numbers("days away", &DAYS),
        rows: vec![(Axis::percent("edits lost or refused", 100.0), cases.map(panel).into())],
        legend: ["edits made at the office while away", "all other edits"].map(str::to_string).to_vec(),
    }
}

const YEARS: [f64; 5] = [0.5, 1.0, 2.0, 4.0, 6.0];
const KILOBYTES: [f64; 8] = [1.0, 3.0, 10.0, 30.0, 100.0, 300.0, 1000.0, 3000.0];

/// The bytes of messages for each settled edit against how long the survey lasts, by how often offices fold.
fn fold(runs: u64) -> Chart {
    let patterns = [
        ("pairs, hourly", "exchange=pairs every=1"),
        ("hub, daily", "exchange=hub every=24"),
        ("passed on at once", "exchange=once every=24"),
    ];
    let panel = |(title, pattern): (&str, &str)| {
        let line = |weeks: &str| {
            points(&YEARS, |years| {
                Some(run(&[pattern, weeks, &format!("years={years}")], runs.div_ceil(4)).bytes? / 1000.0)
            })
        };
        Panel { title: title.to_string(), lines: ["fold=0", "fold=52", "fold=13", "fold=4"].map(line).into() }
    };
    Chart {
        title: "Folding: what a settled edit takes in messages, by how long the survey lasts".to_string(),
        description:
            "Three edits a week; kilobytes of all messages over the years, for each settled edit; both axes by factors."
                .to_string(),
        across: Axis::numbers("years", &YEARS),
        rows: vec![(Axis::numbers("messages for each settled edit, kB", &KILOBYTES), patterns.map(panel).into())],
        legend: ["never folded", "yearly", "quarterly", "monthly"].map(str::to_string).to_vec(),
    }
}
