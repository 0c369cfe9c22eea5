//! Seeded rehearsal scripts.

use crate::random::Random;
use crate::record::OFFICES;
use crate::rehearsal::{World, SLOTS};

mod histories;
mod malformed;
mod relays;

/// The kinds of script there are.
pub const KINDS: [&str; 9] =
    ["mixed", "contested", "moves", "ties", "tails", "long", "relays", "malformed", "everything"];

/// A script that is being written. The offices are played beside it, so that a kind can aim.
pub(crate) struct Script {
    pub(crate) random: Random,
    pub(crate) world: World,
    text: Vec<u8>,
    /// Lines still to be written.
    pub(crate) left: usize,
}

impl Script {
    /// Writes a line, unless enough are written.
    pub(crate) fn say(&mut self, line: &[u8]) {
        if self.left > 0 {
            self.left -= 1;
            self.text.extend_from_slice(line);
            self.text.push(b'\n');
            self.world.answer(line, &mut vec![]);
        }
    }

    /// Bytes written so far.
    pub(crate) fn written(&self) -> usize {
        self.text.len()
    }

    /// The lines written since there were so many bytes.
    pub(crate) fn lines_since(&self, written: usize) -> Vec<Vec<u8>> {
        let lines = self.text[written..].split_inclusive(|&byte| byte == b'\n');
        lines.map(|line| line.strip_suffix(b"\n").unwrap_or(line).to_vec()).collect()
    }

    /// Writes a letter and numbers.
    pub(crate) fn call(&mut self, letter: char, numbers: &[usize]) {
        let numbers: String = numbers.iter().map(|number| format!(" {number}")).collect();
        self.say(format!("{letter}{numbers}").as_bytes());
    }

    /// Founds offices with these weights.
    pub(crate) fn found(&mut self, weights: &[usize]) {
        let numbers: Vec<usize> = std::iter::once(weights.len()).chain(weights.iter().copied()).collect();
        self.call('f', &numbers);
    }

    /// Offices there are.
    pub(crate) fn n(&self) -> usize {
        self.world.offices.len()
    }

    /// One of the offices.
    pub(crate) fn office(&mut self) -> usize {
        let n = self.n();
        self.random.below(n)
    }

    /// One of the slots.
    pub(crate) fn slot(&mut self) -> usize {
        self.random.below(SLOTS)
    }

    /// Settled length of an office.
    pub(crate) fn settled(&self, office: usize) -> usize {
        self.world.offices.get(office).map_or(0, |office| office.record.settled as usize)
    }

    /// Present weights as an office knows them.
    pub(crate) fn present(&self, office: usize) -> [usize; OFFICES] {
        self.world.offices.get(office).map_or([0; OFFICES], |office| office.record.present.map(usize::from))
    }
}

/// Weights of n offices: level, uneven, with a heavy one, with zeros, as large as can be or nearly so.
pub fn weights(random: &mut Random, n: usize) -> Vec<usize> {
    let n = n.clamp(1, OFFICES);
    let level = random.within(1, 60);
    let heavy = random.below(n);
    let mut weights: Vec<usize> = match random.below(7) {
        0 | 1 => vec![level; n],
        2 => (0..n).map(|_| random.within(1, 60)).collect(),
        3 => (0..n).map(|office| if office == heavy { 60 * n } else { random.within(0, 60) }).collect(),
        4 => (0..n).map(|_| random.pick(&[0, 0, 1, 2])).collect(),
        5 => (0..n).map(|_| random.pick(&[65535, 65534, 65000, 9999, 1])).collect(),
        _ => vec![65535; n],
    };
    if weights.iter().all(|&weight| weight == 0) {
        weights[heavy] = 1;
    }
    weights
}

/// A script of one kind with this many lines; nothing if there is no such kind.
pub fn script(kind: &str, seed: u64, lines: usize) -> Option<Vec<u8>> {
    let world = World::default();
    let mut script = Script { random: Random::new(seed), world, text: vec![], left: lines };
    match kind {
        "everything" => everything(&mut script),
        _ => write_kind(&mut script, kind)?,
    }
    let cut = matches!(kind, "malformed" | "everything") && script.random.percent(50);
    if cut {
        script.text.pop();
    }
    Some(script.text)
}

/// Writes one of the plain kinds until enough lines are written.
fn write_kind(script: &mut Script, kind: &str) -> Option<()> {
    let round = match kind {
        "mixed" => histories::mixed,
        "contested" => histories::contested,
        "moves" => histories::moves,
        "ties" => histories::ties,
        "tails" => histories::tails,
        "long" => histories::long,
        "relays" => relays::relays,
        "malformed" => malformed::malformed,
        _ => return None,
    };
    while script.left > 0 {
        round(script);
    }
    Some(())
}

/// Writes pieces of all kinds.
fn everything(script: &mut Script) {
    let mut all = script.left;
    while all > 0 {
        let kind = script.random.pick(&KINDS[..KINDS.len() - 1]);
        let most = if kind == "long" { 1500 } else { 300 };
        let piece = script.random.within(30, most).min(all);
        script.left = piece;
        write_kind(script, kind);
        all -= piece;
    }
}
