//! The choices of a run: who takes from whom and who edits, slice by slice, whatever the protocol.

use std::fmt;

use crate::dice::Dice;

/// Who makes the edits.
#[derive(Clone, Copy, PartialEq)]
pub enum Model {
    Uniform,
    HotSpot,
    Token,
}

impl Model {
    pub const ALL: [Model; 3] = [Model::Uniform, Model::HotSpot, Model::Token];

    pub fn name(self) -> &'static str {
        match self {
            Model::Uniform => "uniform",
            Model::HotSpot => "hot spot",
            Model::Token => "token",
        }
    }
}

/// The numbers of the experiment. Offices, chance and until are 001's, but for eight offices instead of ten; the
/// others it does not state.
#[derive(Clone)]
pub struct Parameters {
    pub offices: usize,
    /// Edits in a slice, of all offices together.
    pub chance: f64,
    /// How many edits are settled or discarded by every office when a run ends.
    pub until: usize,
    /// Of the hot spot: how many offices, and the share of the edits that they make.
    pub hot: usize,
    pub hot_share: f64,
    /// The share that the token's holder makes, and the chance that it is handed on to an office that takes from it.
    pub token_share: f64,
    pub pass: f64,
    pub runs: u64,
    pub seed: u64,
}

impl Default for Parameters {
    fn default() -> Parameters {
        let (hot, hot_share, token_share, pass) = (2, 0.9, 0.95, 0.5);
        Parameters { offices: 8, chance: 0.7, until: 20, hot, hot_share, token_share, pass, runs: 1000, seed: 1 }
    }
}

impl Parameters {
    /// These with the one changed that the word names.
    pub fn set(&mut self, word: &str) -> Result<(), String> {
        let bad = || format!("not a number of the experiment: {word}");
        let (name, value) = word.split_once('=').ok_or_else(bad)?;
        let value: f64 = value.parse().map_err(|_| bad())?;
        match (name, value) {
            ("offices", 2.0..=8.0) => self.offices = value as usize,
            ("chance", 1.0..=100.0) => self.chance = value / 100.0,
            ("until", 1.0..=1000.0) => self.until = value as usize,
            ("hot", 1.0..=7.0) => self.hot = value as usize,
            ("hotshare", 0.0..=100.0) => self.hot_share = value / 100.0,
            ("tokenshare", 0.0..=100.0) => self.token_share = value / 100.0,
            ("pass", 0.0..=100.0) => self.pass = value / 100.0,
            ("runs", 1.0..) => self.runs = value as u64,
            ("seed", 0.0..) => self.seed = value as u64,
            _ => return Err(bad()),
        }
        if self.hot >= self.offices {
            return Err(bad());
        }
        Ok(())
    }
}

impl fmt::Display for Parameters {
    fn fmt(&self, f: &mut fmt::Formatter<'_>) -> fmt::Result {
        let percent = |share: f64| (1000.0 * share).round() / 10.0;
        write!(
            f,
            "{} offices of equal weight, {} edits in 100 slices, until {} are settled or discarded by every office;\n\
             hot spot: {} offices make {} %; token: its holder makes {} %, handed on with chance {} % to an office that\n\
             takes from it; {} runs, seed {}",
            self.offices,
            percent(self.chance),
            self.until,
            self.hot,
            percent(self.hot_share),
            percent(self.token_share),
            percent(self.pass),
            self.runs,
            self.seed
        )
    }
}

/// The choices that are still to come.
#[derive(Clone)]
pub struct Schedule {
    model: Model,
    parameters: Parameters,
    dice: Dice,
    holder: usize,
}

impl Schedule {
    pub fn new(model: Model, parameters: &Parameters, dice: Dice) -> Schedule {
        Schedule { model, parameters: parameters.clone(), dice, holder: 0 }
    }

    /// The next slice: of each office whom it takes from and whether it edits then.
    pub fn slice(&mut self) -> Vec<(usize, usize, bool)> {
        let offices: Vec<usize> = (0..self.parameters.offices).collect();
        self.dice.shuffled(&offices).into_iter().map(|office| self.turn(office)).collect()
    }

    fn turn(&mut self, office: usize) -> (usize, usize, bool) {
        let other = self.dice.below(self.parameters.offices - 1);
        let from = other + usize::from(other >= office);
        if from == self.holder && self.dice.chance(self.parameters.pass) {
            self.holder = office;
        }
        let chance = self.chance(office);
        (office, from, self.dice.chance(chance))
    }

    /// The office's chance of an edit in this slice.
    fn chance(&self, office: usize) -> f64 {
        let Parameters { offices, chance, hot, hot_share, token_share, .. } = self.parameters;
        let (few, share, is_one) = match self.model {
            Model::Uniform => (offices, 1.0, true),
            Model::HotSpot => (hot, hot_share, office < hot),
            Model::Token => (1, token_share, office == self.holder),
        };
        if is_one {
            chance * share / few as f64
        } else {
            chance * (1.0 - share) / (offices - few) as f64
        }
    }
}
