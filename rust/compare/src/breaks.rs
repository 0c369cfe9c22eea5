//! One clause of soundness broken, of a record that is sound.

use second::random::Random;
use second::record::{code_of, entry, is_move, line_of, Ballot, Record, CODES, LINES, LOG, OFFICES, TAIL};
use second::samples::{crowded, Sample};

use crate::folded::{break_folded, FOLDED};
use crate::samples::{huge, wrong_word};

/// A place from `from` to before `to`: the first, the last, or any.
fn place(random: &mut Random, from: usize, to: usize) -> usize {
    match random.below(3) {
        0 => from,
        1 => to - 1,
        _ => random.within(from, to - 1),
    }
}

/// The clauses of soundness that can be broken apart, but for those of dropped entries.
const PLAIN: [&str; 31] = [
    "log below 1024 words",
    "n is 0",
    "n above 8",
    "own office not below n",
    "a weight from place n on",
    "total 0",
    "settled length above 1024",
    "settled entry's office",
    "settled entry's line",
    "settled entry's code",
    "settled move to no office",
    "settled move of 0",
    "tail longer than 32",
    "ballot entry's office",
    "ballot entry's line",
    "ballot entry's code",
    "ballot's move to no office",
    "ballot's move of 0",
    "an unused cell",
    "a ballot from office n on",
    "a used cell from office n on",
    "settled length and tail above 1024",
    "a present weight",
    "present weights, their total kept",
    "a present weight from place n on",
    "a settled move that the present weights do not show",
    "a code",
    "codes at each other's lines",
    "a settled edit that the codes do not show",
    "a settled move that the codes show",
    "more of one office in a tail than its part",
];

/// How many clauses can be broken apart.
pub const CLAUSES: usize = PLAIN.len() + FOLDED.len();

/// A clause in words.
pub fn clause_name(clause: usize) -> &'static str {
    PLAIN.iter().chain(&FOLDED).nth(clause).expect("a clause")
}

/// Makes this many of the settled entries undropped ones; no noted length passes the new one.
fn hold(record: &mut Record, held: usize) {
    record.settled = record.kept.dropped.saturating_add(held as u64);
    record.noted = record.noted.map(|noted| noted.min(record.settled));
}

/// Breaks one clause of soundness of a record that is sound, or was before other clauses were broken.
pub fn break_clause(random: &mut Random, clause: usize, sample: &mut Sample) {
    match clause.checked_sub(PLAIN.len()) {
        Some(clause) => break_folded(random, clause, sample),
        None => break_plain(random, clause, sample),
    }
}

fn break_plain(random: &mut Random, clause: usize, sample: &mut Sample) {
    let Sample { record, log } = sample;
    let n = record.n.clamp(1, OFFICES);
    let office = random.below(n);
    let past = if n < OFFICES { random.within(n, OFFICES - 1) } else { OFFICES - 1 };
    match clause {
        0 => log.truncate(random.pick(&[0, 1, 31, 1023, 1023])),
        1 => record.n = 0,
        2 => record.n = huge(random),
        3 => record.own = random.pick(&[n, n, 8]).max(if random.percent(30) { huge(random) } else { n }),
        4 | 19 | 20 if n == OFFICES => record.n = past_office(record, n),
        4 => record.weights[past] = random.pick(&[1, u16::MAX]),
        5 => record.weights = [0; OFFICES],
        6 => hold(record, (log.len() + 1).max(LOG + 1).max(if random.percent(50) { huge(random) } else { 0 })),
        7..=11 => {
            let wrong = wrong_word(random, n, clause - 7);
            break_word(random, record, log, wrong);
        }
        12 => record.ballots[office].len = if random.percent(60) { TAIL + 1 } else { huge(random).max(TAIL + 1) },
        13..=17 => {
            let ballot = &mut record.ballots[office];
            ballot.len = ballot.len.clamp(1, TAIL);
            ballot.cells[place(random, 0, ballot.len)] = wrong_word(random, n, clause - 13);
            hold(record, record.held().min(LOG - TAIL));
        }
        18 => {
            let ballot = &mut record.ballots[office];
            ballot.len = ballot.len.min(TAIL - 1);
            let bits = random.pick(&[1, 1 << 31, 0x0005_0078]);
            ballot.cells[place(random, ballot.len, TAIL)] = bits;
        }
        19 => record.ballots[past].len = random.pick(&[1, 1, TAIL]),
        20 => record.ballots[past].cells[random.pick(&[0, TAIL - 1])] = random.pick(&[1, 1 << 31]),
        21 => too_long_a_path(record, log, office),
        22..=25 => return break_present(random, clause, sample),
        26..=29 => return break_codes(random, clause, sample),
        _ => crowd(random, record, office),
    }
    sample.derive(); // so that no other clause is broken
}

/// Gives one office more of a ballot than its part; where it is alone, more than a tail has.
fn crowd(random: &mut Random, record: &mut Record, office: usize) {
    let n = record.n.clamp(1, OFFICES);
    if n == 1 {
        record.ballots[office].len = TAIL + 1;
        return;
    }
    record.ballots[office] = Ballot::of(&crowded(random, n));
    hold(record, record.held().min(LOG - TAIL));
}

/// Breaks the present weights; where the clause cannot be broken so, one of them by itself.
fn break_present(random: &mut Random, clause: usize, sample: &mut Sample) {
    let before = sample.clone();
    let present = &mut sample.record.present;
    let n = sample.record.n.clamp(1, OFFICES);
    let (office, other) = (random.below(n), random.below(n));
    match clause {
        23 if present[office] > 0 && present[other] < u16::MAX => {
            present[office] -= 1;
            present[other] += 1;
        }
        24 if n < OFFICES => present[random.within(n, OFFICES - 1)] = random.pick(&[1, u16::MAX]),
        25 if random.percent(30) => *present = sample.record.kept.present,
        25 => {
            let present = *present;
            *sample = with_last(sample, entry(office, LINES + other as u32, 1));
            sample.record.present = present;
        }
        _ => {}
    }
    if sample.record.present == derived(sample).record.present {
        *sample = before;
        let weight = &mut sample.record.present[office];
        *weight = weight.wrapping_add(random.pick(&[1, 1, 256, u16::MAX]));
    }
}

/// Breaks the stored codes; where the clause cannot be broken so, one of them by itself.
fn break_codes(random: &mut Random, clause: usize, sample: &mut Sample) {
    let (before, held) = (sample.clone(), sample.record.held());
    let codes = &mut sample.record.codes;
    let any = random.below(codes.len());
    let line = random.pick(&[0, 1, 5, 62, 63, any]);
    match clause {
        27 => codes.swap(line, any),
        28 => {
            let (codes, edit) = (*codes, entry(0, line as u32, random.below(CODES as usize) as u32));
            *sample = with_last(sample, edit);
            sample.record.codes = codes;
        }
        29 => {
            let settled = sample.log.iter().take(held);
            if let Some(&word) = settled.rev().find(|&&word| is_move(word)) {
                codes[(line_of(word) % LINES) as usize] = code_of(word) + 1;
            }
        }
        _ => {}
    }
    if sample.record.codes == derived(sample).record.codes {
        *sample = before;
        let code = &mut sample.record.codes[line];
        *code = code.wrapping_add(random.pick(&[1, u32::MAX, 1, u32::MAX, 256, 1 << 16, 1 << 31]));
    }
}

/// The sample with present weights and codes that follow from what is kept and from its log.
fn derived(sample: &Sample) -> Sample {
    let mut derived = sample.clone();
    derived.derive();
    derived
}

/// The sample with this entry as its last settled one, or as a first one, and with what follows from that.
fn with_last(sample: &Sample, word: u32) -> Sample {
    let mut other = sample.clone();
    let last = other.record.held().saturating_sub(1);
    if let Some(place) = other.log.get_mut(last) {
        *place = word;
        hold(&mut other.record, last + 1);
        other.derive();
    }
    other
}

/// One office fewer than n, where the last one has a weight or a ballot; the weight is made if there is neither.
fn past_office(record: &mut Record, n: usize) -> usize {
    record.weights[n - 1] = record.weights[n - 1].max(1);
    record.own = 0;
    n - 1
}

/// Overwrites a settled word; settles one first if there is none.
fn break_word(random: &mut Random, record: &mut Record, log: &mut [u32], wrong: u32) {
    if log.is_empty() {
        return;
    }
    let held = record.held().clamp(1, LOG.min(log.len()));
    hold(record, held);
    log[place(random, 0, held)] = wrong;
}

/// Makes the settled length and the tail of one ballot 1,025, each within its own limit.
fn too_long_a_path(record: &mut Record, log: &mut [u32], office: usize) {
    let ballot = &mut record.ballots[office];
    ballot.len = ballot.len.clamp(1, TAIL);
    let held = LOG + 1 - ballot.len;
    if let Some(rest) = log.get_mut(record.held().min(LOG)..held) {
        rest.fill(0);
    }
    hold(record, held);
}
