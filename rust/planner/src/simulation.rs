//! One run: hour by hour, offices come and go, exchange and edit.

use joukerpan::{Entry, Refused};

use crate::dice::Dice;
use crate::exchange;
use crate::ledger::Edit;
use crate::settings::{Authors, Exchange, Settings, WEEK};
use crate::world::{Folded, World};

/// Rounds of exchanges without any change after which a run is taken to stand still.
const QUIET_ROUNDS: u32 = 60;
/// The most that one move of weight carries.
const MOVE_MOST: u16 = 9999;

/// What a run came to.
pub struct Outcome {
    pub edits: Vec<Edit>,
    pub messages: u64,
    pub bytes: u64,
    /// Whether edits were left that no further exchange settles.
    pub still: bool,
    /// The hour in which the log was full.
    pub full: Option<u32>,
    /// Where offices fold, what that came to.
    pub folded: Option<Folded>,
}

struct Run<'a> {
    settings: &'a Settings,
    dice: Dice,
    world: World,
    now: u32,
    /// Of each office: the hour until which an outage keeps it away; whether it is gone, and whether it closes.
    out_until: Vec<u32>,
    gone: Vec<bool>,
    closing: Vec<Option<usize>>,
    /// Of each office, the edits that it means to make again.
    waiting: Vec<Vec<usize>>,
    holder: usize,
    /// After the last edit nobody is away for a while.
    ending: bool,
    full: Option<u32>,
}

/// Runs the operation once, with the choices of this run's number.
pub fn run(settings: &Settings, number: u64) -> Outcome {
    let n = settings.offices();
    let mut run = Run {
        settings,
        dice: Dice::new(settings.seed, number),
        world: World::found(&settings.weights),
        now: 0,
        out_until: vec![0; n],
        gone: vec![false; n],
        closing: vec![None; n],
        waiting: vec![Vec::new(); n],
        holder: 0,
        ending: false,
        full: None,
    };
    while run.now < settings.hours() && run.full.is_none() {
        run.hour();
    }
    let still = run.wind_down();
    let folded = (settings.fold > 0).then(|| run.world.folded());
    let World { ledger, messages, bytes, .. } = run.world;
    Outcome { edits: ledger.edits, messages, bytes, still, full: run.full, folded }
}

impl Run<'_> {
    /// One hour: who leaves, who closes, the exchanges that are due, the edits.
    fn hour(&mut self) {
        self.leave();
        self.close();
        if self.now.is_multiple_of(self.settings.every) {
            self.exchange();
        }
        if !self.ending {
            self.edit();
        }
        (0..self.settings.offices()).for_each(|office| self.make_again(office));
        if self.settings.fold > 0 && self.now.is_multiple_of(self.settings.fold) {
            (0..self.settings.offices())
                .filter(|&office| !self.gone[office])
                .for_each(|office| self.world.fold(office));
        }
        self.now += 1;
    }

    fn away(&self, office: usize) -> bool {
        let scheduled = self.settings.absences.iter().filter(|absence| absence.office == office);
        let mut scheduled = scheduled.filter_map(|absence| Some((absence.from, absence.until?)));
        !self.ending
            && (self.now < self.out_until[office] || scheduled.any(|(from, until)| (from..until).contains(&self.now)))
    }

    /// The offices that can exchange.
    fn there(&self) -> Vec<usize> {
        (0..self.settings.offices()).filter(|&office| !self.gone[office] && !self.away(office)).collect()
    }

    /// The offices whose supervisors edit: also those that are away, but not those that close or are gone.
    fn editors(&self) -> Vec<usize> {
        (0..self.settings.offices()).filter(|&office| !self.gone[office] && self.closing[office].is_none()).collect()
    }

    fn leave(&mut self) {
        for office in 0..self.settings.offices() {
            let silent = |absence: &&crate::settings::Absence| absence.office == office && absence.until.is_none();
            if !self.gone[office]
                && self.settings.absences.iter().filter(silent).any(|absence| absence.from <= self.now)
            {
                self.gone[office] = true;
                self.world.leave(office, self.now);
            }
            if self.settings.outages > 0.0 && self.dice.chance(self.settings.outages / WEEK) {
                self.out_until[office] = self.now + self.settings.outage_hours;
            }
        }
    }

    /// An office that closes moves its weight on, and leaves once all it has made is settled or lost and another
    /// office has settled as much.
    fn close(&mut self) {
        let settings = self.settings;
        for closing in &settings.closings {
            let office = closing.office;
            if self.gone[office] || closing.from > self.now {
                continue;
            }
            if self.closing[office].is_none() {
                self.closing[office] = Some(closing.to);
                self.move_weight(office);
            }
            let heard = (0..self.settings.offices())
                .any(|other| other != office && self.world.length(other) >= self.world.length(office));
            if self.world.ledger.open(office) == 0 && self.waiting[office].is_empty() && heard {
                self.gone[office] = true;
                self.world.leave(office, self.now);
            }
        }
    }

    fn move_weight(&mut self, office: usize) {
        let Some(to) = self.closing[office] else { return };
        let mut left = self.world.weight(office);
        while left > 0 {
            let weight = left.min(MOVE_MOST);
            self.enter(Entry { office: office as u8, line: 64 + to as u8, code: weight });
            left -= weight;
        }
    }

    fn exchange(&mut self) {
        let there = self.there();
        if self.settings.exchange == Exchange::AtOnce {
            return self.flood(there);
        }
        for (to, from) in exchange::round(self.settings, &there, &mut self.dice) {
            self.pull(to, from);
        }
    }

    /// Whoever has news sends it to all who are there, and they theirs, until nobody has any.
    fn flood(&mut self, mut news: Vec<usize>) {
        let there = self.there();
        while let Some(from) = news.pop() {
            for &to in there.iter().filter(|&&to| to != from && there.contains(&from)) {
                if self.pull(to, from) && !news.contains(&to) {
                    news.push(to);
                }
            }
        }
    }

    fn pull(&mut self, to: usize, from: usize) -> bool {
        let (changed, lost) = self.world.pull(to, from, self.now);
        self.lose(to, lost);
        self.make_again(to);
        if self.settings.by == Authors::Token && from == self.holder && self.dice.chance(self.settings.pass) {
            self.holder = to;
        }
        changed
    }

    fn lose(&mut self, office: usize, lost: Vec<usize>) {
        let moves = |id: &usize| self.world.ledger.edits[*id].moves;
        let again: Vec<usize> = lost.into_iter().filter(|id| self.settings.again || moves(id)).collect();
        self.waiting[office].extend(again);
    }

    /// The edits of this hour.
    fn edit(&mut self) {
        let mean = self.settings.edits / WEEK;
        let count = mean.floor() as usize + usize::from(self.dice.chance(mean.fract()));
        for _ in 0..count {
            let editors = self.editors();
            let Some(office) = self.author(&editors) else { return };
            let (line, code) = (self.dice.below(64) as u8, self.dice.below(10_000) as u16);
            self.enter(Entry { office: office as u8, line, code });
        }
    }

    fn author(&mut self, editors: &[usize]) -> Option<usize> {
        if !editors.contains(&self.holder) {
            self.holder = self.dice.pick(editors)?;
        }
        let (few, others): (Vec<usize>, Vec<usize>) = editors.iter().partition(|&&office| match self.settings.by {
            Authors::Even => true,
            Authors::Hot => office < self.settings.hot,
            Authors::Token => office == self.holder,
        });
        let among_few = self.settings.by == Authors::Even || self.dice.chance(self.settings.share);
        let chosen = if among_few && !few.is_empty() || others.is_empty() { few } else { others };
        self.dice.pick(&chosen)
    }

    /// A supervisor makes an edit for the first time.
    fn enter(&mut self, entry: Entry) {
        let office = usize::from(entry.office);
        let away = self.away(office);
        let id = self.world.ledger.enter(entry, self.now, away);
        self.make(id);
    }

    fn make(&mut self, id: usize) {
        let office = usize::from(self.world.ledger.edits[id].entry.office);
        match self.world.make(id, self.now) {
            Ok(lost) => {
                self.lose(office, lost);
                if self.settings.exchange == Exchange::AtOnce {
                    self.flood(vec![office]);
                }
            }
            Err(Refused::LogFull) => self.full = Some(self.now),
            Err(Refused::PartFull) if self.settings.again || self.world.ledger.edits[id].moves => {
                self.waiting[office].push(id)
            }
            Err(Refused::PartFull) => {}
            Err(refused) => unreachable!("a proper edit: {refused}"),
        }
    }

    /// The office makes again what it has lost, and what it was refused.
    fn make_again(&mut self, office: usize) {
        if !self.gone[office] {
            std::mem::take(&mut self.waiting[office]).into_iter().for_each(|id| self.make(id));
        }
    }

    /// No more edits: exchanges go on until nothing is open, or nothing changes any more. Answers whether edits of
    /// offices that are still there are open then.
    fn wind_down(&mut self) -> bool {
        self.ending = true;
        let offices = self.there();
        let (mut quiet, mut last) = (0, None);
        while quiet < QUIET_ROUNDS * self.settings.every && offices.iter().any(|&office| self.busy(office)) {
            self.hour();
            let state = (self.world.settled(), offices.iter().map(|&office| self.world.length(office)).sum::<usize>());
            quiet = if last == Some(state) { quiet + 1 } else { 0 };
            last = Some(state);
        }
        offices.iter().any(|&office| self.world.ledger.open(office) + self.waiting[office].len() > 0)
    }

    /// Whether the office has something open, or has not settled what others have.
    fn busy(&self, office: usize) -> bool {
        let open = self.world.ledger.open(office) + self.waiting[office].len() > 0;
        open || (!self.gone[office] && self.world.length(office) < self.world.settled())
    }
}
