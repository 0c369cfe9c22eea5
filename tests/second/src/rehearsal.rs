//! The rehearsal program: offices and message slots, driven by lines of text.

use std::io::{Read, Result, Write};

use crate::calls::{found, issue, settled_frame, tentative_frame};
use crate::elect::elect;
use crate::lines::{each_line, letter_and_numbers};
use crate::message::{send, LONGEST};
use crate::record::{Record, DONE, LOG, OFFICES};
use crate::take::take;

/// Message slots.
pub const SLOTS: usize = 4;

const FLUSH: usize = 1 << 16;

/// A line of the proper form.
#[derive(Clone, Copy, Debug, PartialEq, Eq)]
pub enum Command {
    /// `f n w…`
    Found(usize, [u16; OFFICES]),
    /// `i k line code`
    Issue(usize, u32, u32),
    /// `s k m`
    Send(usize, usize),
    /// `t k m`
    Take(usize, usize),
    /// `e k`
    Elect(usize),
    /// `v k line`
    View(usize, u32),
}

impl Command {
    /// The command of a line, if it has the proper form.
    pub fn parse(line: &[u8]) -> Option<Command> {
        let mut numbers = [0; 1 + OFFICES];
        let (letter, count) = letter_and_numbers(line, u64::from(u16::MAX), &mut numbers)?;
        let place = |at: usize| numbers[at] as usize;
        let word = |at: usize| numbers[at] as u32;
        match (letter, count) {
            (b'f', 1..) => Some(Command::Found(place(0), std::array::from_fn(|k| numbers[1 + k] as u16))),
            (b'i', 3) => Some(Command::Issue(place(0), word(1), word(2))),
            (b's', 2) => Some(Command::Send(place(0), place(1))),
            (b't', 2) => Some(Command::Take(place(0), place(1))),
            (b'e', 1) => Some(Command::Elect(place(0))),
            (b'v', 2) => Some(Command::View(place(0), word(1))),
            _ => None,
        }
    }
}

/// What a line prints: its letter, the number given, and up to two values, some of which may be missing.
#[derive(Clone, Copy, Debug, PartialEq, Eq)]
pub struct Answer {
    /// The command's letter.
    pub letter: u8,
    /// The number given.
    pub number: u32,
    values: [Option<usize>; 2],
    count: usize,
}

impl Answer {
    fn new(letter: u8, number: u32, values: &[Option<usize>]) -> Answer {
        let mut answer = Answer { letter, number, values: [None; 2], count: values.len() };
        answer.values[..values.len()].copy_from_slice(values);
        answer
    }

    /// The values after the number.
    pub fn values(&self) -> &[Option<usize>] {
        &self.values[..self.count]
    }
}

/// One office: its record and its log.
pub struct Office {
    /// The record as the last call left it.
    pub record: Record,
    /// The log as the last call left it.
    pub log: [u32; LOG],
}

/// One message slot; empty at first.
pub struct Slot {
    bytes: [u8; LONGEST],
    length: usize,
}

impl Slot {
    /// The message in the slot, of no bytes if the slot is empty.
    pub fn message(&self) -> &[u8] {
        &self.bytes[..self.length]
    }
}

/// The offices that the last done `f` founded, and the slots.
#[derive(Default)]
pub struct World {
    /// The offices; none before a done `f`.
    pub offices: Vec<Office>,
    /// The slots; none before a done `f`.
    pub slots: Vec<Slot>,
}

impl World {
    /// Runs a command; nothing if its office or slot isn't there.
    pub fn run(&mut self, command: Command) -> Option<Answer> {
        match command {
            Command::Found(n, weights) => Some(self.found(n, weights)),
            Command::Issue(k, line, code) => {
                let office = self.offices.get_mut(k)?;
                let (number, record) = issue(office.record, &office.log, line, code);
                office.record = record;
                Some(Answer::new(b'i', number, &[]))
            }
            Command::Send(k, m) => self.send(k, m),
            Command::Take(k, m) => {
                let (office, slot) = (self.offices.get_mut(k)?, self.slots.get(m)?);
                let (number, _, record) = take(office.record, &mut office.log, slot.message());
                office.record = record;
                Some(Answer::new(b't', number, &[]))
            }
            Command::Elect(k) => {
                let office = self.offices.get_mut(k)?;
                let (number, count, record) = elect(office.record, &mut office.log);
                office.record = record;
                Some(Answer::new(b'e', number, &[Some(count)]))
            }
            Command::View(k, line) => {
                let office = self.offices.get(k)?;
                let (number, settled) = settled_frame(&office.record, &office.log, line);
                let (_, tentative) = tentative_frame(&office.record, &office.log, line);
                Some(Answer::new(b'v', number, &[settled, tentative].map(|code| code.map(|code| code as usize))))
            }
        }
    }

    /// Founds n offices and empties the slots; if office 0 is refused, nothing changes.
    fn found(&mut self, n: usize, weights: [u16; OFFICES]) -> Answer {
        let log = [0; LOG];
        let (number, _) = found(n, 0, weights, &log);
        if number == DONE {
            self.offices = (0..n).map(|own| Office { record: found(n, own, weights, &log).1, log }).collect();
            self.slots = (0..SLOTS).map(|_| Slot { bytes: [0; LONGEST], length: 0 }).collect();
        }
        Answer::new(b'f', number, &[])
    }

    /// Sends an office's message into a slot; if it is refused, the slot keeps what it has.
    fn send(&mut self, k: usize, m: usize) -> Option<Answer> {
        let (office, slot) = (self.offices.get(k)?, self.slots.get_mut(m)?);
        let (number, length) = send(&office.record, &office.log, &mut slot.bytes);
        if number == DONE {
            slot.length = length;
        }
        Some(Answer::new(b's', number, &[Some(length)]))
    }

    /// Appends to the output what a line prints.
    pub fn answer(&mut self, line: &[u8], output: &mut Vec<u8>) {
        let Some(answer) = Command::parse(line).and_then(|command| self.run(command)) else {
            output.extend_from_slice(b"?\n");
            return;
        };
        output.push(answer.letter);
        push_number(output, u64::from(answer.number));
        for &value in answer.values() {
            match value {
                Some(value) => push_number(output, value as u64),
                None => output.extend_from_slice(b" -"),
            }
        }
        output.push(b'\n');
    }
}

/// Appends a space and the number.
pub(crate) fn push_number(output: &mut Vec<u8>, mut number: u64) {
    let mut digits = [0; 21];
    let mut at = digits.len();
    loop {
        at -= 1;
        digits[at] = b'0' + (number % 10) as u8;
        number /= 10;
        if number == 0 {
            break;
        }
    }
    at -= 1;
    digits[at] = b' ';
    output.extend_from_slice(&digits[at..]);
}

/// Answers every line of the input on the output.
pub fn rehearse(input: impl Read, mut output: impl Write) -> Result<()> {
    let mut world = World::default();
    let mut answers = Vec::with_capacity(2 * FLUSH);
    each_line(input, |line| {
        world.answer(line, &mut answers);
        if answers.len() >= FLUSH {
            output.write_all(&answers)?;
            answers.clear();
        }
        Ok(())
    })?;
    output.write_all(&answers)?;
    output.flush()
}
