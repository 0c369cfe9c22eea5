//! One office under both: the engine through the Rust crate, and the second implementation. Every answer is compared.

use joukerpan::{Office, Outcome, Refused, LOG};
use second::archive::{compare_vector, write_vectors, PATHS};
use second::calls as plain;
use second::earlier::earlier;
use second::forecast::forecast;
use second::message::LONGEST;
use second::random::Random;
use second::record::{coded, Record, LINES, OFFICES};
use second::samples::any_households;
use second::sheet::sheet;

use super::order::{Chain, Issue, Order};
use super::told::{led, lost, stands, Told};
use super::{done, Counts};
use crate::alike::same;
use crate::engine::from_engine;

/// What the second implementation knows of the office, and what only this comparison does.
#[derive(Clone)]
struct Plain {
    record: Record,
    log: Vec<u32>,
    /// The whole settled log, dropped entries included.
    chain: Chain,
    told: Told,
}

/// An office, and how it was when it was stored last.
pub struct Desk {
    office: Office,
    plain: Plain,
    stored: (Vec<u8>, Plain),
    /// Issues since then, and those that were lost.
    issues: Vec<Issue>,
    lost: Vec<Issue>,
}

/// The number of an answer of the crate.
fn number<T>(answer: &Result<T, Refused>) -> u32 {
    answer.as_ref().err().map_or(0, |refused| refused.number())
}

impl Desk {
    pub fn found(own: usize, weights: &[u16; OFFICES]) -> Result<Desk, String> {
        let office = Office::found(own, weights).map_err(|refused| refused.to_string())?;
        let log = vec![0; LOG];
        let (_, record) = plain::found(OFFICES, own, *weights, &log);
        let plain = Plain { record, log, chain: Chain::EMPTY, told: Told::default() };
        let stored = (office.to_bytes(), plain.clone());
        let desk = Desk { office, plain, stored, issues: vec![], lost: vec![] };
        desk.same("founding")?;
        Ok(desk)
    }

    pub fn record(&self) -> Record {
        self.plain.record
    }

    /// The settled words under the second implementation.
    fn held(&self) -> &[u32] {
        &self.plain.log[..self.plain.record.held()]
    }

    /// Whether both have the same record and the same settled words.
    fn same(&self, what: &str) -> Result<(), String> {
        same(&format!("{what}'s record"), from_engine(*self.office.record()), self.plain.record)?;
        same(&format!("{what}'s log"), self.office.settled(), self.held())
    }

    /// Notes the record after a call, and what it has settled.
    fn after(&mut self, what: &str, record: Record, counts: &mut Counts) -> Result<(), String> {
        let grown = (record.settled - self.plain.record.settled) as usize;
        self.plain.record = record;
        let news = self.held()[self.plain.record.held() - grown..].to_vec();
        self.plain.chain = self.plain.chain.with(&news);
        counts.calls += 1;
        self.same(what)
    }

    /// Notes the record after a take, an election or a fold, and what became of the own entries that were pending.
    fn told(&mut self, what: &str, record: Record, outcome: &Outcome, counts: &mut Counts) -> Result<(), String> {
        let (before, chain) = (self.plain.record, self.plain.chain);
        self.after(what, record, counts)?;
        let gone = lost(&before, chain, (&self.plain.record, &self.plain.log), outcome)?;
        let told = &mut self.plain.told;
        (told.settled, told.lost) = (told.settled + outcome.settled as u64, told.lost + gone.len() as u64);
        told.check(&self.office)?;
        self.lost.extend(gone);
        counts.calls += 1;
        counts.told += 1;
        Ok(())
    }

    pub fn issue(&mut self, line: u32, code: u32, counts: &mut Counts) -> Result<(), String> {
        let Plain { record, log, chain, .. } = &self.plain;
        let own = &record.ballots[record.own];
        let (place, view) = (record.settled + own.len as u64, chain.with(own.tail()));
        let (given, after) = plain::issue(*record, log, line, code);
        let answer = self.office.issue(line, code);
        same(&format!("issue of {line} {code}"), number(&answer), given)?;
        if done(given) {
            let ballot = &after.ballots[after.own];
            self.issues.push(Issue { place, view, entry: ballot.cells[ballot.len - 1] });
            self.plain.told.issued += 1;
        } else {
            counts.stopped += 1;
        }
        self.after("issue", after, counts)
    }

    pub fn elect(&mut self, counts: &mut Counts) -> Result<(), String> {
        let stood = stands(&self.office, &self.plain.record, &self.plain.log)?;
        let held = self.plain.record.held();
        let (_, count, record) = second::elect::elect(self.plain.record, &mut self.plain.log);
        let outcome = self.office.elect();
        same("elect", outcome.grown, count as u64)?;
        counts.elected += outcome.grown;
        counts.calls += 1;
        self.told("elect", record, &outcome, counts)?;
        self.plain.log[held..held + count].first().map_or(Ok(()), |&first| led(&stood, first))
    }

    pub fn fold(&mut self, counts: &mut Counts) -> Result<(), String> {
        let (_, count, record) = second::fold::fold(self.plain.record, &mut self.plain.log);
        let outcome = self.office.fold();
        same("fold", outcome.dropped, count)?;
        counts.folds += u64::from(count > 0);
        counts.folded += count;
        self.told("fold", record, &outcome, counts)
    }

    /// Takes a message that an office sent: done, or an old one.
    pub fn take(&mut self, message: &[u8], counts: &mut Counts) -> Result<(), String> {
        let before = self.plain.record;
        let (given, places, record) = second::take::take(before, &mut self.plain.log, message);
        let (answer, compared) = self.office.take_with_places(message);
        same("take", (number(&answer), compared), (given, places))?;
        match given {
            0 => counts.taken += 1,
            17 => counts.inside += 1,
            other => return Err(format!("a sent message was refused with {other} at office {}", before.own)),
        }
        counts.dropped_too += u64::from(record.kept.dropped > before.kept.dropped);
        match answer {
            Ok(outcome) => self.told("take", record, &outcome, counts),
            Err(_) => self.after("take", record, counts),
        }
    }

    /// Stores the office, and answers its message.
    pub fn send(&mut self, order: &mut Order, counts: &mut Counts) -> Result<Vec<u8>, String> {
        self.store(order, counts)?;
        let mut output = vec![0; LONGEST];
        let (_, length) = second::message::send(&self.plain.record, &self.plain.log, &mut output);
        same("send", &self.office.message()[..], &output[..length])?;
        output.truncate(length);
        counts.calls += 1;
        counts.sent += 1;
        Ok(output)
    }

    /// Stores the office. What it has settled is a part of the order, and what it has issued counts.
    pub fn store(&mut self, order: &mut Order, counts: &mut Counts) -> Result<(), String> {
        order.store(&self.plain.record, self.held(), self.plain.chain, &self.issues)?;
        order.lose(&self.lost);
        counts.edits += self.issues.len() as u64;
        counts.lost += self.lost.len() as u64;
        self.issues.clear();
        self.lost.clear();
        self.stored = (self.office.to_bytes(), self.plain.clone());
        Ok(())
    }

    /// Goes on from the stored bytes. What was not stored was neither sent nor shown.
    pub fn restart(&mut self, counts: &mut Counts) -> Result<(), String> {
        let (bytes, plain) = self.stored.clone();
        counts.restarts += 1;
        counts.forgotten += u64::from(plain.record != self.plain.record);
        self.office = Office::from_bytes(&bytes).map_err(|unreadable| unreadable.to_string())?;
        self.plain = plain;
        self.issues.clear();
        self.lost.clear();
        self.same("restart")
    }

    /// One of the calls that only read.
    pub fn read(&mut self, random: &mut Random, counts: &mut Counts) -> Result<(), String> {
        counts.calls += 1;
        match random.below(6) {
            0 => self.read_frames(),
            5 => stands(&self.office, &self.plain.record, &self.plain.log).map(|_| ()),
            1 => self.read_earlier(random),
            2 => self.read_sheet(random),
            3 => self.read_vectors(random),
            _ => self.read_forecast(random),
        }
    }

    fn read_frames(&self) -> Result<(), String> {
        let Plain { record, log, .. } = &self.plain;
        same("all lines", self.office.frame(), plain::settled_codes(record, log).1.map(coded))?;
        for line in 0..LINES {
            let tentative = self.office.tentative_frame(line).map_err(|refused| refused.to_string())?;
            same("tentative frame", tentative, plain::tentative_frame(record, log, line).1)?;
        }
        Ok(())
    }

    /// Some lines as of a place around the dropped part or the end.
    fn read_earlier(&self, random: &mut Random) -> Result<(), String> {
        let Plain { record, log, .. } = &self.plain;
        let (dropped, settled) = (record.kept.dropped, record.settled);
        let inside = dropped + random.below(record.held() + 1) as u64;
        let p = random.pick(&[inside, inside, settled, dropped, dropped.saturating_sub(1), settled + 1]);
        let lines: Vec<u32> = (0..random.below(66)).map(|_| random.below(LINES as usize) as u32).collect();
        let (given, words, codes) = earlier(record, log, p, &lines);
        let answer = self.office.frame_at(p, &lines);
        same("earlier place", number(&answer), given)?;
        answer.map_or(Ok(()), |answer| {
            let codes: Vec<Option<u32>> = codes[..lines.len()].iter().map(|&code| coded(code)).collect();
            same("earlier place", (answer.words(), answer.edits()), (words, &codes[..]))
        })
    }

    fn read_sheet(&self, random: &mut Random) -> Result<(), String> {
        let households = any_households(random, 20);
        let answer = self.office.sheet(&households).map_err(|refused| refused.to_string())?;
        let rows: Vec<_> = answer.iter().map(|row| (row.class, row.total)).collect();
        let (_, expected) = sheet(&self.plain.record, &self.plain.log, &households);
        same("sheet", rows, expected.iter().map(|row| (row.class, row.total)).collect())
    }

    /// The office's vectors, and how its versions stand to one of them.
    fn read_vectors(&self, random: &mut Random) -> Result<(), String> {
        let Plain { record, log, .. } = &self.plain;
        let mut output = vec![0; 8 * OFFICES * PATHS];
        let (_, length) = write_vectors(record, log, &mut output);
        same("vectors", &self.office.vectors()[..], &output[..length])?;
        let vector = &output[8 * OFFICES * random.below(PATHS)..][..8 * OFFICES];
        let (_, standings) = compare_vector(record, log, vector);
        let answer = self.office.compare(vector).map_err(|refused| refused.to_string())?;
        let all: Vec<u32> = std::iter::once(answer.log).chain(answer.paths).map(|standing| standing as u32).collect();
        same("standings", all, standings.iter().map(|&standing| standing as u32).collect())
    }

    /// What would win by weights near the present ones.
    fn read_forecast(&self, random: &mut Random) -> Result<(), String> {
        let Plain { record, log, .. } = &self.plain;
        let near = random.pick(&[0, 1, 5]);
        let (lowest, highest) =
            (record.present.map(|weight| weight.saturating_sub(near)), record.present.map(|weight| weight + near));
        let bounds: Vec<_> = lowest.iter().zip(highest).map(|(&low, high)| low..=high).collect();
        let answer = self.office.forecast(&bounds).map_err(|refused| refused.to_string())?;
        let (_, named) = forecast(record, log, lowest, highest);
        same("forecast", answer.map(|entry| entry.value()), named)
    }
}
