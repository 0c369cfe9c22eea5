//! What a planner chooses: the settings of a simulated operation, read from `name=value` words.

/// Hours in a week, the simulator's step being an hour.
pub const WEEK: f64 = 168.0;

/// Who makes the edits.
#[derive(Clone, Copy, Debug, PartialEq)]
pub enum Authors {
    /// Every office as often as another.
    Even,
    /// The first few offices make most of them.
    Hot,
    /// One office at a time makes most of them, and hands that on to an office that has just heard from it.
    Token,
}

/// Who exchanges messages with whom.
#[derive(Clone, Copy, Debug, PartialEq)]
pub enum Exchange {
    /// Each office takes the message of one office, by chance.
    Pairs,
    /// Each office exchanges messages with the hub, both ways.
    Hub,
    /// Each office takes the message of every other.
    All,
    /// Whoever has news sends it to all at once, and they theirs.
    AtOnce,
}

/// An office that is away from some hour on, for a while or for good.
#[derive(Clone, Copy, Debug, PartialEq)]
pub struct Absence {
    pub office: usize,
    pub from: u32,
    /// The hour of its return; none for good.
    pub until: Option<u32>,
}

/// An office that closes: from some hour on it edits no more, moves its weight on and leaves when that is settled.
#[derive(Clone, Copy, Debug, PartialEq)]
pub struct Closing {
    pub office: usize,
    pub from: u32,
    pub to: usize,
}

/// One simulated operation. Times are in hours.
#[derive(Clone, Debug, PartialEq)]
pub struct Settings {
    pub weights: Vec<u16>,
    /// Edits a week, of all offices together.
    pub edits: f64,
    pub by: Authors,
    /// Of a hot spot: how many offices it has.
    pub hot: usize,
    /// The share of the edits that the hot spot, or the token's holder, makes.
    pub share: f64,
    /// The chance that the token is handed on to an office that has just heard from its holder.
    pub pass: f64,
    pub exchange: Exchange,
    pub hub: usize,
    /// Hours between exchanges.
    pub every: u32,
    /// Whether a lost edit is made again.
    pub again: bool,
    pub absences: Vec<Absence>,
    pub closings: Vec<Closing>,
    /// Chance of an absence of each office in a week, and how long one lasts.
    pub outages: f64,
    pub outage_hours: u32,
    pub weeks: f64,
    pub runs: u64,
    pub seed: u64,
    /// Hours between folds of each office; 0 for never.
    pub fold: u32,
}

impl Default for Settings {
    fn default() -> Settings {
        Settings {
            weights: vec![1; 8],
            edits: 3.0,
            by: Authors::Even,
            hot: 2,
            share: 0.9,
            pass: 0.5,
            exchange: Exchange::Pairs,
            hub: 0,
            every: 24,
            again: false,
            absences: Vec::new(),
            closings: Vec::new(),
            outages: 0.0,
            outage_hours: 336,
            weeks: 104.0,
            runs: 20,
            seed: 1,
            fold: 0,
        }
    }
}

/// The settings that a planner can name, as the program's help shows them.
pub const HELP: &str = "\
  offices=8              how many, with weight 1 each
  weights=40,35,25       or each office's weight
  edits=3                edits a week, all offices together
  by=even|hot|token      who makes them: all alike; hot=2 offices make share=90 % of them;
                         the holder of a token makes share=90 %, handed on with chance pass=50 %
                         to an office that has just heard from the holder
  exchange=pairs         each office takes the message of one office, by chance
  exchange=hub           each office exchanges both ways with hub=0
  exchange=all           each office takes the message of every other
  exchange=once          whoever has news sends it to all at once, and they theirs
  every=24               hours between exchanges
  again=yes              a lost edit is made again
  away=7:10:2            office 7 is away from week 10 on, for 2 weeks (it still edits); may be repeated
  gone=7:10              office 7 is silent for good from week 10 on; may be repeated
  close=7:10:0           office 7 edits no more from week 10 on, moves its weight to office 0 and leaves
  outages=5:14           each office has a chance of 5 % a week to be away for 14 days
  years=2, weeks=104     how long edits are made
  runs=20 seed=1         how many runs are put together, and the seed of their choices
  fold=0                 weeks between folds of each office's log, 0 for never";

impl Settings {
    /// How many offices there are.
    pub fn offices(&self) -> usize {
        self.weights.len()
    }

    /// Hours in which edits are made.
    pub fn hours(&self) -> u32 {
        hours(self.weeks, WEEK)
    }

    /// These settings with the one changed that the word names.
    pub fn set(&mut self, word: &str) -> Result<(), String> {
        let bad = || format!("not a setting: {word}");
        let (name, value) = word.split_once('=').ok_or_else(bad)?;
        match name {
            "offices" => self.weights = vec![1; number(value).ok_or_else(bad)? as usize],
            "weights" => self.weights = weights(value).ok_or_else(bad)?,
            "by" => self.by = authors(value).ok_or_else(bad)?,
            "exchange" => self.exchange = exchange(value).ok_or_else(bad)?,
            "again" => self.again = value == "yes",
            "away" => self.absences.push(away(value).ok_or_else(bad)?),
            "gone" => self.absences.push(gone(value).ok_or_else(bad)?),
            "close" => self.closings.push(close(value).ok_or_else(bad)?),
            "outages" => (self.outages, self.outage_hours) = outages(value).ok_or_else(bad)?,
            _ => self.set_number(name, number(value).ok_or_else(bad)?).ok_or_else(bad)?,
        }
        Ok(())
    }

    fn set_number(&mut self, name: &str, value: f64) -> Option<()> {
        match name {
            "edits" => self.edits = value,
            "hot" => self.hot = value as usize,
            "share" => self.share = value / 100.0,
            "pass" => self.pass = value / 100.0,
            "hub" => self.hub = value as usize,
            "every" => self.every = value as u32,
            "years" => self.weeks = (value * 365.25 / 7.0).round(),
            "weeks" => self.weeks = value,
            "runs" => self.runs = value as u64,
            "seed" => self.seed = value as u64,
            "fold" => self.fold = hours(value, WEEK),
            _ => return None,
        }
        Some(())
    }

    /// Whether they can be run; if not, why.
    pub fn check(&self) -> Result<(), String> {
        let n = self.offices();
        let named = self.absences.iter().map(|absence| absence.office);
        let closing = self.closings.iter().flat_map(|closing| [closing.office, closing.to]);
        let limits = [
            ((1..=8).contains(&n), "there are 1 to 8 offices"),
            (self.weights.iter().any(|&weight| weight > 0), "the weights add up to at least 1"),
            (named.chain(closing).all(|office| office < n) && self.hub < n, "an office that is not there"),
            (self.by != Authors::Hot || (1..=n).contains(&self.hot), "a hot spot has 1 to all offices"),
            (self.every >= 1 && self.runs >= 1 && self.weeks > 0.0, "every, runs and weeks are at least 1"),
            ((0.0..=1.0).contains(&self.share) && (0.0..=1.0).contains(&self.pass), "a share is 0 to 100 %"),
        ];
        match limits.iter().find(|(kept, _)| !kept) {
            Some((_, limit)) => Err(limit.to_string()),
            None => Ok(()),
        }
    }
}

fn hours(value: f64, each: f64) -> u32 {
    (value * each).round() as u32
}

/// A number that is not below 0.
fn number(value: &str) -> Option<f64> {
    value.parse().ok().filter(|number: &f64| number.is_finite() && *number >= 0.0)
}

fn weights(value: &str) -> Option<Vec<u16>> {
    value.split(',').map(|weight| weight.parse().ok()).collect()
}

fn authors(value: &str) -> Option<Authors> {
    [("even", Authors::Even), ("hot", Authors::Hot), ("token", Authors::Token)]
        .iter()
        .find(|(name, _)| *name == value)
        .map(|(_, by)| *by)
}

fn exchange(value: &str) -> Option<Exchange> {
    let named =
        [("pairs", Exchange::Pairs), ("hub", Exchange::Hub), ("all", Exchange::All), ("once", Exchange::AtOnce)];
    named.iter().find(|(name, _)| *name == value).map(|(_, exchange)| *exchange)
}

/// The numbers between colons, exactly as many as wanted.
fn parts<const N: usize>(value: &str) -> Option<[f64; N]> {
    let numbers: Option<Vec<f64>> = value.split(':').map(number).collect();
    numbers?.try_into().ok()
}

fn away(value: &str) -> Option<Absence> {
    let [office, week, weeks] = parts(value)?;
    Some(Absence { office: office as usize, from: hours(week, WEEK), until: Some(hours(week + weeks, WEEK)) })
}

fn gone(value: &str) -> Option<Absence> {
    let [office, week] = parts(value)?;
    Some(Absence { office: office as usize, from: hours(week, WEEK), until: None })
}

fn close(value: &str) -> Option<Closing> {
    let [office, week, to] = parts(value)?;
    Some(Closing { office: office as usize, from: hours(week, WEEK), to: to as usize })
}

fn outages(value: &str) -> Option<(f64, u32)> {
    let [percent, days] = parts(value)?;
    Some((percent / 100.0, hours(days, 24.0)))
}

#[cfg(test)]
mod tests {
    use super::{Absence, Closing, Exchange, Settings};

    fn with(words: &[&str]) -> Result<Settings, String> {
        let mut settings = Settings::default();
        for word in words {
            settings.set(word)?;
        }
        settings.check().map(|()| settings)
    }

    #[test]
    fn words_are_read() {
        let settings =
            with(&["weights=40,35,25", "exchange=hub", "away=2:10:2", "gone=1:3.5", "close=0:1:2", "fold=4"]).unwrap();
        assert_eq!(settings.weights, [40, 35, 25]);
        assert_eq!(settings.exchange, Exchange::Hub);
        let away = Absence { office: 2, from: 1680, until: Some(2016) };
        assert_eq!(settings.absences, [away, Absence { office: 1, from: 588, until: None }]);
        assert_eq!(settings.closings, [Closing { office: 0, from: 168, to: 2 }]);
        assert_eq!(settings.fold, 672);
    }

    #[test]
    fn other_words_are_refused() {
        for word in ["edits", "edits=x", "edits=-1", "edit=3", "weights=1,x", "by=all", "away=1:2", "every=0", "hub=8"]
        {
            assert!(with(&[word]).is_err(), "{word}");
        }
        assert!(with(&["offices=9"]).is_err() && with(&["weights=0,0"]).is_err() && with(&["fold=x"]).is_err());
    }
}
