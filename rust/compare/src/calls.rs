//! Every call on random input: the whole answer, the record, the log and the output of both, compared.

use std::io::{self, stdout, Write};

use second::calls as plain;
use second::message::LONGEST;
use second::random::Random;
use second::record::{sound, Record, CODES, DONE, LINES, LOG, OFFICES, UNSOUND};
use second::samples::Sample;

use crate::alike::{same, same_lent, Lent};
use crate::breaks::{break_clause, clause_name, CLAUSES};
use crate::earlier;
use crate::engine;
use crate::forecasts;
use crate::forge::{any_bytes, damaged, forged};
use crate::samples::{any_sample, huge, Family};
use crate::sheets;
use crate::tally::Tally;
use crate::told;
use crate::vectors;

/// Calls on one record, one after the other.
const CALLS_A_ROUND: usize = 8;

/// One record and its log, under both.
struct Trial<'a> {
    random: &'a mut Random,
    tally: &'a mut Tally,
    record: Record,
    log: Lent<u32>,
    /// The record before the last take, election or fold, done or not.
    before: Record,
}

impl Trial<'_> {
    /// A line: a move's, around a limit, or anywhere.
    fn line(&mut self) -> u32 {
        let n = self.record.n.min(OFFICES);
        match self.random.below(8) {
            0 | 1 => LINES + self.random.below(n) as u32,
            2 => self.random.pick(&[63, 64, 63 + n as u32, 64 + n as u32, 71, 72, 255, 256, 320]),
            3 if self.random.percent(50) => self.random.bits() as u32,
            3 => u32::MAX,
            _ => self.random.pick(&[0, 1, 5, 5, 62, 63]),
        }
    }

    /// A code: around a limit, or anywhere.
    fn code(&mut self) -> u32 {
        match self.random.below(8) {
            0 => self.random.pick(&[0, 1, CODES - 1, CODES, 65535, 65536, 65537]),
            1 if self.random.percent(50) => self.random.bits() as u32,
            1 => u32::MAX,
            _ => self.random.pick(&[0, 1, 5, 30, 120, 9999]),
        }
    }

    fn found(&mut self) -> Result<(), String> {
        let mut n = self.record.n;
        let mut own = self.record.own;
        let mut weights = self.record.weights;
        let far = huge(self.random);
        match self.random.below(6) {
            0 => n = self.random.pick(&[0, 1, 8, 9, far]),
            1 => own = self.random.pick(&[0, 7, 8, n, far]),
            2 => weights = [0; OFFICES],
            3 => weights[self.random.below(OFFICES)] = self.random.pick(&[0, 1, u16::MAX]),
            _ => {}
        }
        let answer = plain::found(n, own, weights, self.log.part());
        self.tally.count(0, answer.0);
        same("found", engine::found(n, own, weights, self.log.part()), answer)
    }

    fn sound(&mut self) -> Result<(), String> {
        let answer = sound(&self.record, self.log.part());
        self.tally.count(1, u32::from(!answer));
        same("sound", engine::sound(&self.record, self.log.part()), answer)
    }

    fn issue(&mut self) -> Result<(), String> {
        let (line, code) = (self.line(), self.code());
        let answer = plain::issue(self.record, self.log.part(), line, code);
        self.tally.count(2, answer.0);
        self.tally.issued_moves += u64::from(answer.0 == DONE && line >= LINES);
        same(&format!("issue of {line} {code}"), engine::issue(&self.record, self.log.part(), line, code), answer)?;
        self.record = answer.1;
        Ok(())
    }

    fn settled(&mut self) -> Result<(), String> {
        let (number, part) = plain::settled(&self.record, self.log.part());
        let answer = (number, part.len());
        self.tally.count(3, number);
        same("settled", engine::settled(&self.record, self.log.part()), answer)
    }

    fn frames(&mut self) -> Result<(), String> {
        let line = self.line();
        let answer = plain::settled_frame(&self.record, self.log.part(), line);
        self.tally.count(4, answer.0);
        same(&format!("settled frame of {line}"), engine::settled_frame(&self.record, self.log.part(), line), answer)?;
        let answer = plain::tentative_frame(&self.record, self.log.part(), line);
        self.tally.count(5, answer.0);
        let engine = engine::tentative_frame(&self.record, self.log.part(), line);
        same(&format!("tentative frame of {line}"), engine, answer)
    }

    fn all_lines(&mut self) -> Result<(), String> {
        let answer = plain::settled_codes(&self.record, self.log.part());
        self.tally.count(9, answer.0);
        same("all lines", engine::all_lines(&self.record, self.log.part()), answer)
    }

    fn elect(&mut self) -> Result<(), String> {
        let mut log = self.log.clone();
        let engine = engine::elect(&self.record, log.part_mut());
        let answer = second::elect::elect(self.record, self.log.part_mut());
        self.tally.count(6, answer.0);
        self.tally.elected_one += u64::from(answer.1 == 1);
        self.tally.elected_more += u64::from(answer.1 > 1);
        self.tally.elected_weight += u64::from(answer.2.present != self.record.present);
        self.tally.elected_code += u64::from(answer.2.codes != self.record.codes);
        same("elect", engine, answer)?;
        same_lent("elect's log", &log, &self.log)?;
        (self.before, self.record) = (self.record, answer.2);
        Ok(())
    }

    fn fold(&mut self) -> Result<(), String> {
        let mut log = self.log.clone();
        let engine = engine::fold(&self.record, log.part_mut());
        let answer = second::fold::fold(self.record, self.log.part_mut());
        self.tally.count(15, answer.0);
        self.tally.folded += u64::from(answer.1 > 0);
        same("fold", engine, answer)?;
        same_lent("fold's log", &log, &self.log)?;
        (self.before, self.record) = (self.record, answer.2);
        Ok(())
    }

    /// Sends into outputs of lengths around the message's.
    fn send(&mut self) -> Result<(), String> {
        let mut message = vec![0; LONGEST];
        let length = second::message::send(&self.record, self.log.part(), &mut message).1;
        let any = self.random.below(LONGEST + 100);
        let near = length.saturating_sub(self.random.below(40));
        let length = self.random.pick(&[length, length + 1, length.saturating_sub(1), 0, near, any, LONGEST]);
        let filler = self.random.bits() as u8;
        let mut output = Lent::new(&vec![filler; length]);
        let mut engine_output = output.clone();
        let engine = engine::send(&self.record, self.log.part(), engine_output.part_mut());
        let answer = second::message::send(&self.record, self.log.part(), output.part_mut());
        self.tally.count(7, answer.0);
        same(&format!("send into {length} bytes"), engine, answer)?;
        same_lent("send's output", &engine_output, &output)
    }

    fn take(&mut self, family: &Family) -> Result<(), String> {
        let message = self.message(family);
        let mut log = self.log.clone();
        let engine = engine::take(&self.record, log.part_mut(), &message);
        let answer = second::take::take(self.record, self.log.part_mut(), &message);
        let (number, places, after) = answer;
        self.tally.count(8, number);
        self.tally.grown += u64::from(after.settled > self.record.settled);
        self.tally.taken_weight += u64::from(after.present != self.record.present);
        self.tally.taken_code += u64::from(after.codes != self.record.codes);
        self.tally.adopted += u64::from(after.ballots != self.record.ballots);
        self.tally.dropped_too += u64::from(after.kept.dropped > self.record.kept.dropped);
        self.tally.compared_all += u64::from(number == DONE && places > 0);
        self.tally.compared_some += u64::from(number != DONE && places > 1);
        same(&format!("take of {message:02X?}"), engine, answer)?;
        same_lent("take's log", &log, &self.log)?;
        (self.before, self.record) = (self.record, after);
        Ok(())
    }

    fn sheet(&mut self) -> Result<(), String> {
        let (number, rows) = sheets::any(self.random, &self.record, self.log.part())?;
        self.tally.count(10, number);
        self.tally.rows += rows as u64;
        Ok(())
    }

    fn earlier(&mut self) -> Result<(), String> {
        let (number, not_all) = earlier::any(self.random, &self.record, self.log.part())?;
        self.tally.count(11, number);
        self.tally.not_all_read += u64::from(not_all);
        Ok(())
    }

    fn write_vectors(&mut self) -> Result<(), String> {
        let number = vectors::write(self.random, &self.record, self.log.part())?;
        self.tally.count(12, number);
        Ok(())
    }

    fn compare_vector(&mut self) -> Result<(), String> {
        let (number, standings) = vectors::any(self.random, &self.record, self.log.part())?;
        self.tally.count(13, number);
        if number == DONE {
            standings[..=self.record.n].iter().for_each(|&standing| self.tally.standings[standing as usize] += 1);
        }
        Ok(())
    }

    fn forecast(&mut self) -> Result<(), String> {
        let (number, named) = forecasts::any(self.random, &self.record, self.log.part())?;
        self.tally.count(14, number);
        self.tally.named += u64::from(named);
        Ok(())
    }

    /// What became of the own entries since the last take, election or fold, or since any other record.
    fn outcome(&mut self, family: &Family) -> Result<(), String> {
        let any = told::any_before(self.random, family, &self.record, self.log.part());
        let before = if self.random.percent(25) { self.before } else { any };
        let answer = told::outcomes(self.random, &before, &self.record, self.log.part())?;
        let (number, counts) = answer;
        self.tally.count(16, number);
        let parts = [counts.settled, counts.pending, counts.lost];
        self.tally.told.iter_mut().zip(parts).for_each(|(sum, count)| *sum += count as u64);
        self.tally.told_mixed += u64::from(told::is_mixed(answer));
        self.tally.untold_before += u64::from(number == UNSOUND && sound(&self.record, self.log.part()));
        Ok(())
    }

    fn standing(&mut self) -> Result<(), String> {
        let (number, standing) = told::standings(&self.record, self.log.part())?;
        self.tally.count(17, number);
        self.tally.candidates += standing.rows as u64;
        self.tally.contested += u64::from(standing.rows > 1);
        Ok(())
    }

    /// A message: sent by a related office or by others, forged, damaged, or any bytes.
    fn message(&mut self, family: &Family) -> Vec<u8> {
        let random = &mut *self.random;
        let mut sender = family.office(random);
        if sender == self.record.own && random.percent(80) {
            sender = family.office(random);
        }
        let kind = random.below(20);
        let from = match kind {
            0 | 1 => family.other_offices(random).sample(random, sender),
            _ => family.sample(random, sender),
        };
        match kind {
            2..=6 => return forged(random, &from),
            7 => return any_bytes(random),
            _ => {}
        }
        let message = from.message();
        if kind < 11 {
            return damaged(random, message);
        }
        message
    }

    /// One call of any kind.
    fn call(&mut self, family: &Family) -> Result<(), String> {
        match self.random.below(24) {
            0 => self.found(),
            1 => self.sound(),
            2 | 3 => self.issue(),
            4 => self.settled(),
            5 => self.frames(),
            6 => self.all_lines(),
            7 | 8 => self.elect(),
            9 => self.send(),
            10 => self.sheet(),
            11 => self.earlier(),
            12 => self.write_vectors(),
            13 => self.compare_vector(),
            14 => self.forecast(),
            15 | 16 => self.fold(),
            17..=19 => self.outcome(family),
            20 => self.standing(),
            _ => self.take(family),
        }
    }
}

/// A record and its log: sound, with one clause broken, with several broken, or any numbers.
fn sample(random: &mut Random, tally: &mut Tally, family: &Family) -> Sample {
    let own = family.office(random);
    let mut sample = family.sample(random, own);
    match random.below(20) {
        0..=12 => assert!(sound(&sample.record, &sample.log), "a sample is sound"),
        13..=16 => {
            let clause = random.below(CLAUSES);
            break_clause(random, clause, &mut sample);
            assert!(!sound(&sample.record, &sample.log), "broken: {}", clause_name(clause));
            *tally.clauses.entry(clause).or_default() += 1;
        }
        17 | 18 => {
            for _ in 0..random.within(2, 4) {
                let clause = random.below(CLAUSES);
                break_clause(random, clause, &mut sample);
            }
        }
        _ => sample = any_sample(random),
    }
    tally.long_logs += u64::from(sample.log.len() > LOG);
    tally.with_dropped += u64::from(sample.record.kept.dropped > 0);
    sample
}

/// Runs rounds of calls and prints what was seen; says whether all answers were alike.
pub fn compare(seed: u64, rounds: u64) -> io::Result<bool> {
    let mut output = stdout().lock();
    let mut random = Random::new(seed);
    let mut tally = Tally::default();
    let layouts = sheets::compare_layouts(&mut random).and_then(|()| vectors::compare_layouts(&mut random));
    if let Err(difference) = layouts {
        writeln!(output, "seed {seed}: {difference}")?;
        return Ok(false);
    }
    for round in 0..rounds {
        let family = Family::new(&mut random);
        let Sample { record, log } = sample(&mut random, &mut tally, &family);
        let log = Lent::new(&log);
        let mut trial = Trial { random: &mut random, tally: &mut tally, record, log, before: record };
        for call in 0..CALLS_A_ROUND {
            let before = trial.record;
            if let Err(difference) = trial.call(&family) {
                writeln!(output, "seed {seed}, round {round}, call {call}: {difference}")?;
                writeln!(output, "record: {before:?}\nlog length: {}", trial.log.part().len())?;
                writeln!(output, "settled: {:?}", &trial.log.part().get(..before.held()))?;
                return Ok(false);
            }
        }
    }
    tally.print(seed, &mut output)?;
    Ok(true)
}
