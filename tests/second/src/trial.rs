//! The trial language: any record, log, output and message, and one call at a time. docs/TRIALS.md defines it.

use std::io::{Read, Result, Write};

use crate::archive::{compare_vector, write_vectors};
use crate::calls::{found, issue, settled, settled_codes, settled_frame, tentative_frame};
use crate::earlier::earlier;
use crate::elect::elect;
use crate::fold::fold;
use crate::forecast::forecast;
use crate::lines::{each_line, letter_and_numbers};
use crate::message::send;
use crate::record::{sound, stored, Ballot, Kept, Record, OFFICES, TAIL};
use crate::rehearsal::push_number;
use crate::sheet::sheet;
use crate::take::take;

/// Most words of the log.
pub const LOG_ROOM: usize = 1100;
/// Most bytes of the output, and of the message.
pub const BYTE_ROOM: usize = 7100;
/// Most numbers in a line.
pub const NUMBERS: usize = 24;

const FLUSH: usize = 1 << 16;

/// A digest of numbers in order.
#[derive(Default)]
struct Digest(u64);

impl Digest {
    const PRIME: u64 = 4_294_967_291;

    fn add(&mut self, number: u64) {
        self.0 = (self.0 * 1_000_003 + number % Digest::PRIME + 1) % Digest::PRIME;
    }

    fn add_all<T: Copy + Into<u64>>(&mut self, numbers: &[T]) {
        for &number in numbers {
            self.add(number.into());
        }
    }

    fn of(words: &[u32]) -> u64 {
        let mut digest = Digest::default();
        digest.add_all(words);
        digest.0
    }
}

/// All that a trial holds.
#[derive(Clone)]
pub struct State {
    /// The record.
    pub record: Record,
    /// The log that is lent.
    pub log: Vec<u32>,
    /// The output that is lent.
    pub output: Vec<u8>,
    /// The message that is taken.
    pub message: Vec<u8>,
}

/// A length, a place or a count of at most this many.
fn length(values: &[u64], at: usize, limit: usize) -> Option<usize> {
    usize::try_from(*values.get(at)?).ok().filter(|&value| value <= limit)
}

/// The value at a place as a word.
fn word(values: &[u64], at: usize) -> Option<u32> {
    u32::try_from(*values.get(at)?).ok()
}

/// All the values as words, if there are any and none is too large.
fn words(values: &[u64]) -> Option<Vec<u32>> {
    values.iter().map(|&value| u32::try_from(value).ok()).collect::<Option<Vec<_>>>().filter(|all| !all.is_empty())
}

/// All the values as bytes, if there are any and none is too large.
fn bytes(values: &[u64]) -> Option<Vec<u8>> {
    values.iter().map(|&value| u8::try_from(value).ok()).collect::<Option<Vec<_>>>().filter(|all| !all.is_empty())
}

/// Eight values as weights.
fn weights(values: &[u64]) -> Option<[u16; OFFICES]> {
    let all: Option<Vec<u16>> = values.iter().map(|&value| u16::try_from(value).ok()).collect();
    all?.try_into().ok()
}

impl Default for State {
    fn default() -> State {
        State { record: Record::ZERO, log: vec![], output: vec![], message: vec![] }
    }
}

impl State {
    /// Runs a line and appends what it prints.
    pub fn answer(&mut self, line: &[u8], output: &mut Vec<u8>) {
        let mut numbers = [0; NUMBERS];
        let parsed = letter_and_numbers(line, u64::MAX, &mut numbers);
        let done = parsed.and_then(|(letter, count)| {
            let values = &numbers[..count];
            if letter.is_ascii_uppercase() {
                self.call(letter, values, output)
            } else {
                self.set(letter, values)
            }
        });
        if done.is_none() {
            output.extend_from_slice(b"?\n");
        }
    }

    /// Runs a line that sets a part of the state and prints nothing.
    fn set(&mut self, letter: u8, values: &[u64]) -> Option<()> {
        match (letter, values.len()) {
            (b'd', 0) => *self = State::default(),
            (b'r', 11) => self.set_record(values)?,
            (b'p', 8) => self.record.present = weights(values)?,
            (b'k', 2..) => overwrite(&mut self.record.codes, values[0], &words(&values[1..])?)?,
            (b'f', 1) => self.record.kept.dropped = values[0],
            (b'q', 8) => self.record.kept.present = weights(values)?,
            (b'j', 2..) => overwrite(&mut self.record.kept.codes, values[0], &words(&values[1..])?)?,
            (b't', 2..) => overwrite(&mut self.record.kept.counts, values[0], &values[1..])?,
            (b'n', 2..) => overwrite(&mut self.record.noted, values[0], &values[1..])?,
            (b'b', 2) => {
                let ballot = self.record.ballots.get_mut(length(values, 0, OFFICES - 1)?)?;
                *ballot = Ballot { len: values[1] as usize, cells: [0; TAIL] };
            }
            (b'a', 3..) => {
                let ballot = self.record.ballots.get_mut(length(values, 0, OFFICES - 1)?)?;
                overwrite(&mut ballot.cells, values[1], &words(&values[2..])?)?;
            }
            (b'l', 2) => self.log = vec![word(values, 1)?; length(values, 0, LOG_ROOM)?],
            (b'w', 2..) => overwrite(&mut self.log, values[0], &words(&values[1..])?)?,
            (b'o', 2) => self.output = vec![length(values, 1, 255)? as u8; length(values, 0, BYTE_ROOM)?],
            (b'm', 2..) => {
                let part = bytes(&values[1..])?;
                let times = length(values, 0, (BYTE_ROOM - self.message.len()) / part.len())?;
                self.message.extend(part.repeat(times));
            }
            (b'x', 2) => overwrite(&mut self.message, values[0], &bytes(&values[1..])?)?,
            (b'c', 1) => self.message.truncate(length(values, 0, self.message.len())?),
            (b'g', 1) => self.message = self.output[..length(values, 0, self.output.len())?].to_vec(),
            _ => return None,
        }
        Some(())
    }

    /// Sets n, own office, weights and settled length; the kept and the present weights are those of the founding.
    fn set_record(&mut self, values: &[u64]) -> Option<()> {
        let weights = weights(&values[2..10])?;
        let (n, own, settled) = (values[0] as usize, values[1] as usize, values[10]);
        let kept = Kept { present: weights, ..self.record.kept };
        self.record = Record { n, own, weights, kept, present: weights, settled, ..self.record };
        Some(())
    }

    /// Runs a call and appends its letter, its number, its values and the digest of the state after it.
    fn call(&mut self, letter: u8, values: &[u64], output: &mut Vec<u8>) -> Option<()> {
        let answers = self.frame_call(letter, values).or_else(|| self.further_call(letter, values))?;
        output.push(letter);
        for answer in answers {
            push_number(output, answer);
        }
        push_number(output, self.digest());
        output.push(b'\n');
        Some(())
    }

    /// Runs a call of the frame itself: its number and values.
    fn frame_call(&mut self, letter: u8, values: &[u64]) -> Option<Vec<u64>> {
        let answers = match (letter, values.len()) {
            (b'F', 10) => self.found(values)?,
            (b'I', 2) => {
                let (number, record) = issue(self.record, &self.log, word(values, 0)?, word(values, 1)?);
                self.record = record;
                vec![number.into()]
            }
            (b'P', 0) => self.settled(),
            (b'V', 1) => self.view(word(values, 0)?),
            (b'A', 0) => {
                let (number, codes) = settled_codes(&self.record, &self.log);
                vec![number.into(), Digest::of(&codes)]
            }
            (b'U', 0) => vec![sound(&self.record, &self.log).into()],
            (b'E', 0) => {
                let (number, count, record) = elect(self.record, &mut self.log);
                self.record = record;
                vec![number.into(), count as u64]
            }
            (b'D', 0) => {
                let (number, count, record) = fold(self.record, &mut self.log);
                self.record = record;
                vec![number.into(), count]
            }
            (b'S', 0) => {
                let (number, length) = send(&self.record, &self.log, &mut self.output);
                vec![number.into(), length as u64]
            }
            (b'T', 0) => {
                let (number, places, record) = take(self.record, &mut self.log, &self.message);
                self.record = record;
                vec![number.into(), places as u64]
            }
            _ => return None,
        };
        Some(answers)
    }

    /// Runs a call that only reads the record: its number and values.
    fn further_call(&mut self, letter: u8, values: &[u64]) -> Option<Vec<u64>> {
        let answers = match (letter, values.len()) {
            (b'H', 0) => self.sheet(),
            (b'Q', 1) => self.earlier(values[0]),
            (b'W', 0) => {
                let (number, length) = write_vectors(&self.record, &self.log, &mut self.output);
                vec![number.into(), length as u64]
            }
            (b'C', 0) => {
                let (number, standings) = compare_vector(&self.record, &self.log, &self.message);
                vec![number.into(), Digest::of(&standings.map(|standing| standing as u32))]
            }
            (b'B', 16) => {
                let (lowest, highest) = (weights(&values[..8])?, weights(&values[8..])?);
                let (number, named) = forecast(&self.record, &self.log, lowest, highest);
                vec![number.into(), named.map_or(0, |word| u64::from(word) + 1)]
            }
            _ => return None,
        };
        Some(answers)
    }

    /// Founds: the number.
    fn found(&mut self, values: &[u64]) -> Option<Vec<u64>> {
        let weights = weights(&values[2..])?;
        let (number, record) = found(values[0] as usize, values[1] as usize, weights, &self.log);
        self.record = record;
        Some(vec![number.into()])
    }

    /// Both frames: number and stored code of each.
    fn view(&self, line: u32) -> Vec<u64> {
        let (number, code) = settled_frame(&self.record, &self.log, line);
        let (second, tentative) = tentative_frame(&self.record, &self.log, line);
        vec![number.into(), stored(code).into(), second.into(), stored(tentative).into()]
    }

    /// The number of the sheet of the households in the message, its rows, and the digest of their classes and totals.
    fn sheet(&self) -> Vec<u64> {
        let (number, rows) = sheet(&self.record, &self.log, &self.message);
        let mut digest = Digest::default();
        for row in &rows {
            digest.add(stored(row.class).into());
            digest.add(row.total);
        }
        vec![number.into(), rows.len() as u64, digest.0]
    }

    /// The lines that the message's bytes name as of place p: number, words read, and the digest of the 64 answers.
    fn earlier(&self, p: u64) -> Vec<u64> {
        let lines: Vec<u32> = self.message.iter().map(|&line| line.into()).collect();
        let (number, words, codes) = earlier(&self.record, &self.log, p, &lines);
        vec![number.into(), words as u64, Digest::of(&codes)]
    }

    /// The settled part's number, length and digest.
    fn settled(&self) -> Vec<u64> {
        let (number, part) = settled(&self.record, &self.log);
        vec![number.into(), part.len() as u64, Digest::of(part)]
    }

    /// The digest of the record, the log and the output.
    pub fn digest(&self) -> u64 {
        let Record { n, own, weights, kept, noted, present, codes, settled, ballots } = &self.record;
        let mut digest = Digest::default();
        digest.add(*n as u64);
        digest.add(*own as u64);
        digest.add_all(weights);
        digest.add_all(present);
        digest.add(*settled);
        digest.add_all(codes);
        digest.add(kept.dropped);
        digest.add_all(&kept.present);
        digest.add_all(&kept.codes);
        digest.add_all(&kept.counts);
        digest.add_all(noted);
        for ballot in ballots {
            digest.add(ballot.len as u64);
            digest.add_all(&ballot.cells);
        }
        digest.add(self.log.len() as u64);
        digest.add_all(&self.log);
        digest.add(self.output.len() as u64);
        digest.add_all(&self.output);
        digest.0
    }
}

/// Writes the values from a place on, if all places are there.
fn overwrite<T: Copy>(buffer: &mut [T], at: u64, values: &[T]) -> Option<()> {
    let at = usize::try_from(at).ok()?;
    buffer.get_mut(at..at.checked_add(values.len())?)?.copy_from_slice(values);
    Some(())
}

/// Answers every line of the input on the output.
pub fn trial(input: impl Read, mut output: impl Write) -> Result<()> {
    let mut state = State::default();
    let mut answers = Vec::with_capacity(2 * FLUSH);
    each_line(input, |line| {
        state.answer(line, &mut answers);
        if answers.len() >= FLUSH {
            output.write_all(&answers)?;
            answers.clear();
        }
        Ok(())
    })?;
    output.write_all(&answers)?;
    output.flush()
}
