//! The experiment of source document 001, section 5: dependent edits settled in one election, as the engine does,
//! against one edit at a time, under the same choices.
//!
//! What the text leaves open, and what is taken here, docs/PLANNING.md of the repository says.

mod baseline;
mod engine;
mod schedule;

use crate::dice::Dice;
use crate::measures::Progress;
use crate::table::percent;
use baseline::{Baseline, Waiting};
use engine::Engine;
use schedule::Schedule;
pub use schedule::{Model, Parameters};

/// A protocol of the experiment. Edits have numbers, in the order in which they are made.
pub trait Protocol {
    /// The office takes what another knows, and settles what it can.
    fn pull(&mut self, to: usize, from: usize);
    /// The office makes the edit, and settles what it can.
    fn edit(&mut self, office: usize, id: usize);
    /// The edits that are settled at the office, in their order.
    fn settled(&self, office: usize) -> &[usize];
    /// The edits that the office's calls have discarded since this was last asked.
    fn discarded(&mut self, office: usize) -> Vec<usize>;
}

/// What one run came to.
#[derive(Clone, Default)]
struct Result {
    /// Slices from made to settled, of every edit that is settled at every office, for each office.
    delays: Vec<u32>,
    settled: usize,
    discarded: usize,
}

/// What is known of the edits of a run.
struct Watch {
    /// The slice in which each edit was made.
    made: Vec<u32>,
    /// Of each office, the slice in which it settled each place.
    slices: Vec<Vec<u32>>,
    /// Of each discarded edit, the length of the settled log with which its office knew.
    discarded: Vec<usize>,
}

impl Watch {
    fn new(offices: usize) -> Watch {
        Watch { made: Vec::new(), slices: vec![Vec::new(); offices], discarded: Vec::new() }
    }

    fn note(&mut self, protocol: &mut dyn Protocol, office: usize, slice: u32) {
        let length = protocol.settled(office).len();
        self.slices[office].resize(length, slice);
        self.discarded.extend(protocol.discarded(office).iter().map(|_| length));
    }

    /// How many edits every office has settled, and how many every office knows to be discarded.
    fn decided(&self) -> (usize, usize) {
        let everywhere = self.slices.iter().map(Vec::len).min().unwrap_or(0);
        (everywhere, self.discarded.iter().filter(|&&length| length <= everywhere).count())
    }

    fn result(&self, order: &[usize]) -> Result {
        let (settled, discarded) = self.decided();
        let places = order.iter().take(settled).enumerate();
        let delays =
            places.flat_map(|(place, &id)| self.slices.iter().map(move |slices| slices[place] - self.made[id]));
        Result { delays: delays.collect(), settled, discarded }
    }
}

/// Runs the protocol by the schedule until so many edits are settled or discarded by every office. Asserts after each
/// call that the office's settled edits are a beginning of the longest that any office has.
fn play(protocol: &mut dyn Protocol, mut schedule: Schedule, parameters: &Parameters) -> Result {
    let mut watch = Watch::new(parameters.offices);
    let mut order: Vec<usize> = Vec::new();
    for slice in 0.. {
        for (office, from, edits) in schedule.slice() {
            protocol.pull(office, from);
            if edits {
                watch.made.push(slice);
                protocol.edit(office, watch.made.len() - 1);
            }
            let settled = protocol.settled(office);
            let shared = settled.len().min(order.len());
            assert_eq!(settled[..shared], order[..shared], "one settled log is a beginning of the other");
            order.extend_from_slice(&settled[shared..]);
            watch.note(protocol, office, slice);
        }
        let (settled, discarded) = watch.decided();
        if settled + discarded >= parameters.until {
            break;
        }
    }
    watch.result(&order)
}

/// All runs of one protocol put together.
#[derive(Default)]
struct Total {
    delays: f64,
    count: usize,
    settled: usize,
    discarded: usize,
}

impl Total {
    fn add(&mut self, result: &Result) {
        self.delays += result.delays.iter().map(|&delay| f64::from(delay)).sum::<f64>();
        self.count += result.delays.len();
        self.settled += result.settled;
        self.discarded += result.discarded;
    }

    fn mean(&self) -> f64 {
        self.delays / self.count.max(1) as f64
    }

    fn share(&self) -> f64 {
        self.settled as f64 / (self.settled + self.discarded).max(1) as f64
    }
}

/// The protocols, the engine's first; the others are baselines.
const PROTOCOLS: [&str; 4] = ["engine", "one at a time, dependent", "one at a time, all kept", "one at a time, aborts"];

fn protocol(place: usize, offices: usize) -> Box<dyn Protocol> {
    match place {
        0 => Box::new(Engine::new(offices)),
        1 => Box::new(Baseline::new(offices, Waiting::Depend)),
        2 => Box::new(Baseline::new(offices, Waiting::Keep)),
        _ => Box::new(Baseline::new(offices, Waiting::Abort)),
    }
}

/// The protocols under one model: all runs, and the engine's gains in experiments of ten runs each.
#[derive(Default)]
struct Comparison {
    totals: [Total; 4],
    tens: [Vec<f64>; 4],
}

fn compare(model: Model, parameters: &Parameters) -> Comparison {
    let mut comparison = Comparison::default();
    let mut progress = Progress::new(model.name(), parameters.runs);
    let mut ten: [Total; 4] = Default::default();
    for run in 0..parameters.runs {
        progress.step(run);
        let schedule = Schedule::new(model, parameters, Dice::new(parameters.seed, run));
        for (place, ten) in ten.iter_mut().enumerate() {
            let result = play(&mut *protocol(place, parameters.offices), schedule.clone(), parameters);
            comparison.totals[place].add(&result);
            ten.add(&result);
        }
        if run % 10 == 9 {
            let ten = std::mem::take(&mut ten);
            comparison.tens.iter_mut().zip(&ten).for_each(|(gains, total)| gains.push(less(&ten[0], total)));
        }
    }
    progress.end();
    comparison.tens.iter_mut().for_each(|gains| gains.sort_by(f64::total_cmp));
    comparison
}

/// By which share the first has less delay than the second.
fn less(first: &Total, second: &Total) -> f64 {
    1.0 - first.mean() / second.mean()
}

/// The table of the experiment.
pub fn table(parameters: &Parameters) -> String {
    let mut text = format!("{parameters}\n\n");
    text.push_str("                                       the engine's delay    experiments    mean delay,\n");
    text.push_str("model      protocol                    is less by            of ten runs    slices       settled\n");
    for model in Model::ALL {
        let comparison = compare(model, parameters);
        let engine = &comparison.totals[0];
        for (place, total) in comparison.totals.iter().enumerate() {
            let name = if place == 0 { model.name() } else { "" };
            let gain = if place == 0 { String::new() } else { percent(less(engine, total)) };
            let spread = if place == 0 { String::new() } else { spread(&comparison.tens[place]) };
            let (mean, settled) = (total.mean(), percent(total.share()));
            text.push_str(&format!(
                "{name:<10} {:<26} {gain:>11} {spread:>22} {mean:>13.2} {settled:>13}\n",
                PROTOCOLS[place]
            ));
        }
    }
    text
}

/// The rising gains without the least and the greatest twentieth.
fn spread(gains: &[f64]) -> String {
    let at = |percent: usize| gains.get(gains.len() * percent / 100).map(|gain| 100.0 * gain);
    match (at(5), at(95)) {
        (Some(least), Some(greatest)) => format!("{least:.0} to {greatest:.0} %"),
        _ => "-".to_string(),
    }
}

#[cfg(test)]
mod tests {
    use super::{compare, less, Model, Parameters};

    #[test]
    fn dependent_edits_in_one_election_are_settled_sooner() {
        let parameters = Parameters { runs: 100, ..Parameters::default() };
        for model in [Model::HotSpot, Model::Token] {
            let [engine, dependent, ..] = compare(model, &parameters).totals;
            assert!((0.2..0.45).contains(&less(&engine, &dependent)));
            assert!(engine.share() > dependent.share());
        }
    }
}
