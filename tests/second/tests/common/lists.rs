//! An office as the papers' sentences have it, on plain lists.

use second::record::{coded, Record};
use second::samples::Sample;

pub type Path = Vec<u32>;

/// What entries have done, one after the other: weights, the last code of each line, entries of each office.
#[derive(Clone, Debug, PartialEq)]
pub struct Effect {
    pub weights: Vec<u64>,
    pub codes: Vec<Option<u32>>,
    pub counts: Vec<u64>,
}

impl Effect {
    /// The effect of the entries behind what was done before. A move counts if the issuer then has that much and the
    /// other office stays at or below 65535.
    pub fn after(&self, entries: &[u32]) -> Effect {
        let mut effect = self.clone();
        for &e in entries {
            let (issuer, line, code) = ((e / 16777216) as usize, e / 65536 % 256, e % 65536);
            effect.counts[issuer] += 1;
            if line < 64 {
                effect.codes[line as usize] = Some(code);
                continue;
            }
            let (to, moved, weights) = (line as usize - 64, u64::from(code), &mut effect.weights);
            if to != issuer && weights[issuer] >= moved && weights[to] + moved <= 65535 {
                weights[issuer] -= moved;
                weights[to] += moved;
            }
        }
        effect
    }
}

/// An office as lists: how many entries it has dropped and what they did, the settled entries that it still has, and a
/// tail for each office.
#[derive(Clone, Debug, PartialEq)]
pub struct Lists {
    pub own: usize,
    pub weights: Vec<u64>,
    pub dropped: u64,
    pub kept: Effect,
    pub noted: Vec<u64>,
    pub log: Path,
    pub tails: Vec<Path>,
}

pub fn lists(sample: &Sample) -> Lists {
    let Record { n, own, weights, kept, noted, ballots, .. } = sample.record;
    let numbers = |weights: [u16; 8]| weights[..n].iter().map(|&weight| weight.into()).collect();
    Lists {
        own,
        weights: numbers(weights),
        dropped: kept.dropped,
        kept: Effect {
            weights: numbers(kept.present),
            codes: kept.codes.iter().map(|&number| coded(number)).collect(),
            counts: kept.counts[..n].to_vec(),
        },
        noted: noted[..n].to_vec(),
        log: sample.log[..sample.record.held()].to_vec(),
        tails: ballots[..n].iter().map(|ballot| ballot.cells[..ballot.len].to_vec()).collect(),
    }
}

/// "Extends" means begins with and is longer.
pub fn extends(longer: &[u32], shorter: &[u32]) -> bool {
    longer.len() > shorter.len() && longer[..shorter.len()] == *shorter
}

impl Lists {
    /// The settled length, dropped entries included.
    pub fn length(&self) -> u64 {
        self.dropped + self.log.len() as u64
    }

    pub fn path(&self, office: usize) -> Path {
        [&self.log[..], &self.tails[office]].concat()
    }

    /// The office without its first entries, up to this place.
    pub fn dropped_to(&self, place: u64) -> Lists {
        let mut office = self.clone();
        if place > self.dropped {
            let (gone, rest) = self.log.split_at((place - self.dropped) as usize);
            (office.dropped, office.kept, office.log) = (place, self.kept.after(gone), rest.to_vec());
        }
        office
    }

    /// "The whole first part of the log that every office is known to have is dropped."
    pub fn fold(&mut self) -> u64 {
        let others = (0..self.weights.len()).filter(|&office| office != self.own);
        let known = others.map(|office| self.noted[office]).chain([self.length()]).min().unwrap();
        let count = known.max(self.dropped) - self.dropped;
        *self = self.dropped_to(known);
        count
    }

    /// The sender and the receiver from the first place that both still have, or the number that none is.
    pub fn aligned(&self, sender: &Lists) -> Result<(Lists, Lists), u32> {
        if sender.dropped > self.length() {
            return Err(16);
        }
        if sender.length() < self.dropped {
            return Err(17);
        }
        let first = self.dropped.max(sender.dropped);
        Ok((self.dropped_to(first), sender.dropped_to(first)))
    }

    pub fn take(&mut self, sender: &Lists) -> u32 {
        if sender.weights != self.weights {
            return 8;
        }
        if sender.own == self.own {
            return 9;
        }
        let (mut after, sender) = match self.aligned(sender) {
            Ok(both) => both,
            Err(number) => return number,
        };
        if !after.log.starts_with(&sender.log) && !sender.log.starts_with(&after.log) {
            return 10;
        }
        after.take_aligned(&sender);
        after.noted[sender.own] = after.noted[sender.own].max(sender.length());
        *self = after;
        0
    }

    /// Document 01's take, of a sender that begins at the same place.
    fn take_aligned(&mut self, sender: &Lists) {
        if extends(&sender.log, &self.log) {
            let paths: Vec<Path> = (0..self.tails.len()).map(|office| self.path(office)).collect();
            self.log = sender.log.clone();
            for (tail, path) in self.tails.iter_mut().zip(paths) {
                *tail = if extends(&path, &self.log) { path[self.log.len()..].to_vec() } else { vec![] };
            }
        }
        let theirs = sender.path(sender.own);
        let none = self.tails[self.own].is_empty();
        if extends(&theirs, &self.log) && none || extends(&theirs, &self.path(self.own)) {
            self.tails[self.own] = theirs[self.log.len()..].to_vec();
        }
        for office in (0..self.tails.len()).filter(|&office| office != self.own) {
            let theirs = sender.path(office);
            let none = self.tails[office].is_empty();
            if extends(&theirs, &self.log) && none || extends(&theirs, &self.path(office)) {
                self.tails[office] = theirs[self.log.len()..].to_vec();
            }
        }
    }

    /// What all settled entries have done, dropped ones included.
    pub fn effect(&self) -> Effect {
        self.kept.after(&self.log)
    }

    /// T(e).
    fn support(&self, e: u32) -> u64 {
        let supports = |tail: &Path| tail.first() == Some(&e);
        let present = self.effect().weights;
        self.tails.iter().zip(present).filter(|(tail, _)| supports(tail)).map(|(_, weight)| weight).sum()
    }

    /// U.
    fn unheard(&self) -> u64 {
        let present = self.effect().weights;
        self.tails.iter().zip(present).filter(|(tail, _)| tail.is_empty()).map(|(_, weight)| weight).sum()
    }

    /// Whether a tie goes to e: its office has fewer settled entries, or as many and e is lower.
    fn before(&self, e: u32, f: u32) -> bool {
        let counts = self.effect().counts;
        let entries = |g: u32| counts[(g / 16777216) as usize];
        entries(e) < entries(f) || entries(e) == entries(f) && e < f
    }

    fn wins(&self, e: u32) -> bool {
        let (t, u) = (self.support(e), self.unheard());
        let beats = |f: u32| t > self.support(f) + u || t == self.support(f) + u && self.before(e, f);
        t > u && self.tails.iter().flat_map(|tail| tail.first()).all(|&f| f == e || beats(f))
    }

    pub fn elect(&mut self) -> usize {
        let mut count = 0;
        loop {
            let supported: Path = self.tails.iter().flat_map(|tail| tail.first().copied()).collect();
            let winners: Path = supported.into_iter().filter(|&e| self.wins(e)).collect();
            let Some(&winner) = winners.first() else { return count };
            assert!(winners.iter().all(|&other| other == winner));
            self.log.push(winner);
            for tail in &mut self.tails {
                *tail = if tail.first() == Some(&winner) { tail[1..].to_vec() } else { vec![] };
            }
            count += 1;
        }
    }

    pub fn frames(&self, line: u32) -> (Option<u32>, Option<u32>) {
        let own = self.kept.after(&self.path(self.own));
        (self.effect().codes[line as usize], own.codes[line as usize])
    }

    /// The message, byte by byte.
    pub fn message(&self) -> Vec<u8> {
        let mut bytes = vec![0x53, 0x48, self.own as u8, self.weights.len() as u8];
        let value = |e: u32| [e / 16777216, e / 65536 % 256, e / 256 % 256, e % 256].map(|byte| byte as u8);
        for &number in &self.weights {
            bytes.extend([(number / 256) as u8, (number % 256) as u8]);
        }
        for number in [self.length(), self.dropped] {
            bytes.extend((0..8).rev().map(|place| (number >> (8 * place)) as u8));
        }
        for &e in &self.log {
            bytes.extend([0x4C, 0x47]);
            bytes.extend(value(e));
        }
        for (office, tail) in self.tails.iter().enumerate().filter(|(_, tail)| !tail.is_empty()) {
            bytes.extend([0x42, 0x41, office as u8, tail.len() as u8]);
            tail.iter().for_each(|&e| bytes.extend(value(e)));
        }
        bytes.extend([0x45, 0x4E]);
        bytes
    }
}
