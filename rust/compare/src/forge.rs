//! Messages: spelled from parts, so that each part can be made wrong by itself, and damaged bytes.

use second::random::Random;
use second::record::{LENGTH, LOG, OFFICES, TAIL};
use second::samples::{crowded, issued_by, Sample};

use crate::samples::{any_entry, no_entry};

/// A ballot of a message: the office and the length as they are written, and the values.
#[derive(Clone)]
struct Spelled {
    office: u8,
    length: u8,
    values: Vec<u32>,
}

/// The parts of a message, as they are written.
struct Forged {
    sender: u8,
    n: u8,
    weights: Vec<u16>,
    /// The present weights, which no message has.
    present: Vec<u16>,
    settled: u64,
    dropped: u64,
    log: Vec<u32>,
    ballots: Vec<Spelled>,
    after: Vec<u8>,
}

impl Forged {
    /// The parts of the message that a sound record sends.
    fn of(sample: &Sample) -> Forged {
        let record = &sample.record;
        let ballots = record.ballots[..record.n].iter().enumerate().filter(|(_, ballot)| ballot.len > 0);
        let spelled = ballots.map(|(office, ballot)| Spelled {
            office: office as u8,
            length: ballot.len as u8,
            values: ballot.tail().to_vec(),
        });
        Forged {
            sender: record.own as u8,
            n: record.n as u8,
            weights: record.weights[..record.n].to_vec(),
            present: record.present[..record.n].to_vec(),
            settled: record.settled,
            dropped: record.kept.dropped,
            log: sample.log[..record.held()].to_vec(),
            ballots: spelled.collect(),
            after: vec![],
        }
    }

    /// The bytes.
    fn spell(&self) -> Vec<u8> {
        let mut bytes = vec![0x53, 0x48, self.sender, self.n];
        bytes.extend(self.weights.iter().flat_map(|weight| weight.to_be_bytes()));
        bytes.extend(self.settled.to_be_bytes());
        bytes.extend(self.dropped.to_be_bytes());
        for value in &self.log {
            bytes.extend([0x4C, 0x47]);
            bytes.extend(value.to_be_bytes());
        }
        for ballot in &self.ballots {
            bytes.extend([0x42, 0x41, ballot.office, ballot.length]);
            bytes.extend(ballot.values.iter().flat_map(|value| value.to_be_bytes()));
        }
        bytes.extend([0x45, 0x4E]);
        bytes.extend(&self.after);
        bytes
    }

    /// Changes one part; most changes make a message that is refused.
    fn change(&mut self, random: &mut Random) {
        let n = usize::from(self.n).clamp(1, OFFICES);
        match random.below(18) {
            0 => self.sender = random.pick(&[self.n, self.n.wrapping_add(1), 8, 255]),
            1 => self.sender = random.below(n) as u8,
            2 => self.n = random.pick(&[0, self.n.wrapping_sub(1), self.n.wrapping_add(1), 8, 9, 255]),
            3 => self.other_weights(random),
            4 => self.settled = random.pick(&[self.settled ^ 1, self.settled.wrapping_add(1), self.dropped, u64::MAX]),
            15 => self.dropped = random.pick(&[self.dropped ^ 1, self.settled, self.settled.wrapping_add(1), u64::MAX]),
            16 => self.elsewhere(random),
            17 => self.at_the_limit(random),
            5 if !self.log.is_empty() => {
                let at = random.below(self.log.len());
                self.log[at] = if random.percent(50) { no_entry(random, n) } else { any_entry(random, n) };
            }
            5 | 6 => self.longer_log(random, n),
            7 => self.after = vec![random.pick(&[0, 0x45]); random.within(1, 2)],
            8 => self.ballots.reverse(),
            9 => self.ballots.push(Spelled {
                office: random.below(10) as u8,
                length: 1,
                values: vec![any_entry(random, n)],
            }),
            10 => self.ballots.insert(0, Spelled { office: 0, length: 0, values: vec![] }),
            11 => self.other_offices(random, n),
            _ => self.change_ballot(random, n),
        }
    }

    /// One office more or fewer, its weight with it: an entry is one under the message's own n.
    fn other_offices(&mut self, random: &mut Random, n: usize) {
        if random.percent(50) {
            self.n = n as u8 + 1;
            self.weights.resize(n + 1, 0);
            self.longer_log(random, (n + 1).min(OFFICES));
        } else {
            self.n = n as u8 - 1;
            self.weights.truncate(n - 1);
        }
    }

    /// Other weights, or one more or fewer than n says.
    fn other_weights(&mut self, random: &mut Random) {
        match random.below(5) {
            0 => self.weights.push(0),
            1 => self.weights = vec![0; self.weights.len()],
            2 => self.weights.clone_from(&self.present),
            _ => {
                let at = random.below(self.weights.len());
                self.weights.iter_mut().skip(at).take(1).for_each(|weight| *weight ^= 1 << random.below(16));
            }
        }
    }

    /// A longer log: by one entry, or up to a limit.
    fn longer_log(&mut self, random: &mut Random, n: usize) {
        let length = random.pick(&[self.log.len() + 1, LOG - TAIL + 1, LOG, LOG + 1]);
        while self.log.len() < length {
            self.log.push(any_entry(random, n));
        }
        self.settled = self.dropped.wrapping_add(self.log.len() as u64);
    }

    /// The same entries behind more or fewer dropped ones, so that the log begins past the receiver's, ends inside its
    /// dropped part, or is compared one place off.
    fn elsewhere(&mut self, random: &mut Random) {
        let by = random.pick(&[1, 2, self.log.len() as u64, self.log.len() as u64 + 1, 1 << 32]);
        let by = if random.percent(50) { by } else { by.min(self.dropped).wrapping_neg() };
        self.settled = self.settled.wrapping_add(by);
        self.dropped = self.dropped.wrapping_add(by);
    }

    /// Lengths that reach 2^63 with the log or with a tail, or pass it by one.
    fn at_the_limit(&mut self, random: &mut Random) {
        let longest = self.ballots.iter().map(|ballot| ballot.values.len() as u64).max().unwrap_or(0);
        self.settled = LENGTH - random.pick(&[0, longest]) + random.below(2) as u64;
        self.dropped = self.settled - self.log.len() as u64;
    }

    /// Changes one ballot: its office, its length, its values, or both; or one office has more of it than its part.
    fn change_ballot(&mut self, random: &mut Random, n: usize) {
        let count = self.ballots.len();
        if count == 0 {
            return;
        }
        let ballot = &mut self.ballots[random.below(count)];
        match random.below(6) {
            0 => ballot.office = random.pick(&[0, n as u8, 8, 255]),
            1 => ballot.length = random.pick(&[0, ballot.length ^ 1, 33, 255]),
            2 if !ballot.values.is_empty() => {
                let at = random.below(ballot.values.len());
                ballot.values[at] = if random.percent(50) { no_entry(random, n) } else { any_entry(random, n) };
            }
            3 => {
                let length = random.pick(&[31, 32, 32, 33]);
                ballot.values = (0..length).map(|at| issued_by(at % n, any_entry(random, n))).collect();
                ballot.length = length as u8;
            }
            4 if n > 1 => {
                ballot.values = crowded(random, n);
                ballot.length = ballot.values.len() as u8;
            }
            _ => ballot.values.clear(),
        }
    }
}

/// The bytes of a sound record's message with one part changed, or a few.
pub fn forged(random: &mut Random, sample: &Sample) -> Vec<u8> {
    let mut message = Forged::of(sample);
    for _ in 0..random.pick(&[1, 1, 1, 2, 3]) {
        message.change(random);
    }
    message.spell()
}

/// The bytes with one or a few of them changed, put in or left out.
pub fn damaged(random: &mut Random, mut bytes: Vec<u8>) -> Vec<u8> {
    for _ in 0..random.pick(&[1, 1, 2, 4]) {
        let front = bytes.len().min(54);
        let at = if random.percent(50) { random.below(front) } else { random.below(bytes.len()) };
        match random.below(7) {
            _ if bytes.is_empty() => bytes.push(0x53),
            0 => bytes[at] = random.bits() as u8,
            1 => bytes[at] ^= 1 << random.below(8),
            2 => bytes.truncate(at),
            3 => bytes.insert(at, random.pick(&[0, 1, 0x42, 0x45, 0x4C])),
            4 => drop(bytes.remove(at)),
            5 => bytes.truncate(bytes.len() - 1),
            _ => bytes.push(random.pick(&[0, 0x45, 0x4E])),
        }
    }
    bytes
}

/// Any bytes, with a proper head now and then.
pub fn any_bytes(random: &mut Random) -> Vec<u8> {
    let length = random.pick(&[0, 1, 2, 3, 27, 28, 36, 100, 7047]);
    let mut bytes: Vec<u8> =
        (0..length).map(|_| random.pick(&[0, 1, 2, 3, 0x42, 0x41, 0x45, 0x4E, 0x4C, 0x47])).collect();
    for (byte, mark) in bytes.iter_mut().zip([0x53, 0x48]) {
        *byte = mark;
    }
    bytes
}
