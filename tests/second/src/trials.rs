//! Trial scripts: boundaries worked from document 01, damaged messages, and random records and messages.

use crate::record::{Kept, Record, OFFICES};
use crate::samples::Sample;
use crate::trial::State;

mod boundaries;
mod cases;
mod codes;
mod damaged;
mod earlier;
mod folds;
mod forecasts;
mod layout;
mod moves;
mod parts;
mod places;
mod product;
mod random;
mod sheets;
mod ties;
mod vectors;

/// The kinds of trial script there are.
pub const KINDS: [&str; 10] =
    ["boundaries", "elections", "takes", "damaged", "random", "sheets", "earlier", "vectors", "forecasts", "folds"];

/// Words or bytes of a line that has several.
const WORDS: usize = 10;
const BYTES: usize = 20;
/// Bytes of a settled entry in a message.
const REPEATED: usize = 6;

/// A script that is being written, and the state that it leaves.
#[derive(Default)]
pub(crate) struct Trials {
    state: State,
    text: Vec<u8>,
}

impl Trials {
    /// Writes a line and runs it.
    pub(crate) fn say(&mut self, line: &str) {
        let start = self.text.len();
        self.text.extend_from_slice(line.as_bytes());
        self.state.answer(&self.text[start..], &mut vec![]);
        self.text.push(b'\n');
    }

    /// Writes a letter and numbers.
    fn set(&mut self, letter: char, numbers: impl IntoIterator<Item = u64>) {
        let numbers: String = numbers.into_iter().map(|number| format!(" {number}")).collect();
        self.say(&format!("{letter}{numbers}"));
    }

    /// Begins anew.
    pub(crate) fn begin(&mut self) {
        self.say("d");
    }

    /// Makes the record what is given, by the lines that this needs.
    pub(crate) fn record(&mut self, record: &Record) {
        let held = self.state.record;
        let head = |record: &Record| (record.n, record.own, record.weights, record.settled);
        if head(&held) != head(record) {
            let weights = record.weights.iter().map(|&weight| u64::from(weight));
            let head = [record.n as u64, record.own as u64].into_iter().chain(weights);
            self.set('r', head.chain([record.settled]));
        }
        if self.state.record.present != record.present {
            self.set('p', record.present.iter().map(|&weight| weight.into()));
        }
        self.set_words('k', &held.codes, &record.codes);
        self.kept(&record.kept);
        self.set_numbers('n', held.noted, record.noted);
        for (office, ballot) in record.ballots.iter().enumerate() {
            if held.ballots[office] == *ballot {
                continue;
            }
            self.set('b', [office as u64, ballot.len as u64]);
            let used = ballot.cells.iter().rposition(|&cell| cell != 0).map_or(0, |last| last + 1);
            for (piece, cells) in ballot.cells[..used].chunks(WORDS).enumerate() {
                let place = [office as u64, (piece * WORDS) as u64];
                self.set('a', place.into_iter().chain(cells.iter().map(|&cell| cell.into())));
            }
        }
    }

    /// Makes what is kept of the dropped entries what is given, by the lines that this needs.
    fn kept(&mut self, kept: &Kept) {
        let held = self.state.record.kept;
        if held.dropped != kept.dropped {
            self.set('f', [kept.dropped]);
        }
        if held.present != kept.present {
            self.set('q', kept.present.iter().map(|&weight| weight.into()));
        }
        self.set_words('j', &held.codes, &kept.codes);
        self.set_numbers('t', held.counts, kept.counts);
    }

    /// Writes the eight numbers that differ from those held; a line has room for four of them.
    fn set_numbers(&mut self, letter: char, held: [u64; OFFICES], numbers: [u64; OFFICES]) {
        for (at, (held, numbers)) in (0..).step_by(4).zip(held.chunks(4).zip(numbers.chunks(4))) {
            if held != numbers {
                self.set(letter, std::iter::once(at).chain(numbers.iter().copied()));
            }
        }
    }

    /// Makes the log what is given, by the lines that this needs.
    pub(crate) fn log(&mut self, log: &[u32]) {
        if self.state.log == log {
            return;
        }
        let filler = most_common(log);
        self.set('l', [log.len() as u64, filler.into()]);
        self.set_words('w', &vec![filler; log.len()], log);
    }

    /// Writes the words that differ from those held, as many of a run to a line as it has room for.
    fn set_words(&mut self, letter: char, held: &[u32], words: &[u32]) {
        let mut at = 0;
        while at < words.len() {
            let run = (at..words.len()).take(WORDS).take_while(|&place| held[place] != words[place]).count();
            if run > 0 {
                self.set(letter, std::iter::once(at as u64).chain(words[at..at + run].iter().map(|&word| word.into())));
            }
            at += run.max(1);
        }
    }

    /// Makes record and log what is given.
    pub(crate) fn sample(&mut self, sample: &Sample) {
        self.record(&sample.record);
        self.log(&sample.log);
    }

    /// An output of this length, full of one byte.
    pub(crate) fn output(&mut self, length: usize) {
        self.set('o', [length as u64, 170]);
    }

    /// Makes the message what is given; a settled entry that is repeated is said once.
    pub(crate) fn message(&mut self, bytes: &[u8]) {
        self.say("c 0");
        let (mut from, mut at) = (0, 0);
        while at < bytes.len() {
            let times = repeats(&bytes[at..]);
            if times < 4 {
                at += 1;
                continue;
            }
            self.append(1, &bytes[from..at]);
            self.append(times, &bytes[at..at + REPEATED]);
            at += times * REPEATED;
            from = at;
        }
        self.append(1, &bytes[from..]);
    }

    /// Appends the bytes to the message this many times; once, if they take more than a line.
    fn append(&mut self, times: usize, bytes: &[u8]) {
        for piece in bytes.chunks(BYTES) {
            self.set('m', std::iter::once(times as u64).chain(piece.iter().map(|&byte| byte.into())));
        }
    }

    /// Overwrites one byte of the message.
    pub(crate) fn overwrite(&mut self, at: usize, byte: u8) {
        self.set('x', [at as u64, byte.into()]);
    }

    /// Cuts the message to a length.
    pub(crate) fn cut(&mut self, length: usize) {
        self.set('c', [length as u64]);
    }

    /// Has the message of a sound record sent, and makes it the message that is taken.
    pub(crate) fn sent(&mut self, sample: &Sample) {
        self.sample(sample);
        let length = crate::message::length(&sample.record);
        self.output(length);
        self.say("S");
        self.set('g', [length as u64]);
    }

    /// Every call on the state as it is. Those that change nothing come first; take goes before elect.
    pub(crate) fn all_calls(&mut self) {
        for line in ["U", "P", "A", "V 5", "V 64", "S", "I 64 0", "T", "I 5 9999", "E", "D"] {
            self.say(line);
        }
    }

    /// The state as the script leaves it so far.
    pub(crate) fn state(&self) -> &State {
        &self.state
    }
}

/// How many times in a row the first bytes stand there, as many as a settled entry has.
fn repeats(bytes: &[u8]) -> usize {
    let first = bytes.get(..REPEATED).unwrap_or(&[]);
    bytes.chunks_exact(REPEATED).take_while(|&part| part == first).count()
}

/// The word that occurs most often, 0 if there is none.
fn most_common(log: &[u32]) -> u32 {
    let mut sorted = log.to_vec();
    sorted.sort_unstable();
    let runs = sorted.chunk_by(|a, b| a == b);
    runs.max_by_key(|run| run.len()).map_or(0, |run| run[0])
}

/// A trial script of one kind; nothing if there is no such kind.
/// `count` is how many messages are damaged, how many random records are tried, or how many calls worlds that fold make;
/// kinds without chance have neither seed nor count.
pub fn script(kind: &str, seed: u64, count: usize) -> Option<Vec<u8>> {
    let mut trials = Trials::default();
    match kind {
        "boundaries" => {
            boundaries::write(&mut trials);
            cases::write(&mut trials);
            layout::write(&mut trials);
            moves::write(&mut trials);
            codes::write(&mut trials);
            ties::write(&mut trials);
            parts::write(&mut trials);
            places::write(&mut trials);
        }
        "elections" => product::elections(&mut trials),
        "takes" => product::takes(&mut trials),
        "damaged" => damaged::write(&mut trials, seed, count),
        "random" => random::write(&mut trials, seed, count),
        "sheets" => sheets::write(&mut trials, seed, count),
        "earlier" => earlier::write(&mut trials, seed, count),
        "vectors" => vectors::write(&mut trials, seed, count),
        "forecasts" => forecasts::write(&mut trials, seed, count),
        "folds" => folds::write(&mut trials, seed, count),
        _ => return None,
    }
    Some(trials.text)
}
