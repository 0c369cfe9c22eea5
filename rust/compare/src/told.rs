//! What became of an edit, and how the next place stands: the whole answer and the lent buffer of both, compared.

use second::outcome::{outcome, Outcome};
use second::random::Random;
use second::record::{entry, office_of, Ballot, Record, DONE, LENGTH, LINES, OFFICES, TAIL};
use second::samples::{fair_beginning, Sample};
use second::standing::{standing, Standing};

use crate::alike::{same, same_lent, Lent};
use crate::breaks::{break_clause, CLAUSES};
use crate::engine;
use crate::samples::{any_sample, huge, no_entry, Family};

/// Compares what became of the own entries of the record before, with a buffer of about the length that is needed.
pub fn outcomes(random: &mut Random, before: &Record, after: &Record, log: &[u32]) -> Result<(u32, Outcome), String> {
    let (_, told) = outcome(before, after, log, &mut [0; TAIL]);
    let needed = told.pending + told.lost;
    let any = random.below(TAIL + 8);
    let words = random.pick(&[needed, needed, needed + 1, needed.saturating_sub(1), 0, any, TAIL]);
    let mut rest = Lent::new(&vec![random.bits() as u32; words]);
    let mut engine_rest = rest.clone();
    let engine = engine::outcome(before, after, log, engine_rest.part_mut());
    let answer = outcome(before, after, log, rest.part_mut());
    same(&format!("outcome into {words} words, before: {before:?}"), engine, answer)?;
    same_lent("the outcome's words", &engine_rest, &rest)?;
    Ok(answer)
}

/// Compares how the next place stands.
pub fn standings(record: &Record, log: &[u32]) -> Result<(u32, Standing), String> {
    let answer = standing(record, log);
    same("standing", engine::standing(record, log), answer)?;
    Ok(answer)
}

/// A record that may have been there before this one: with entries that were pending and are settled by now, or are
/// pending still, or neither; with something of it changed; or any other.
pub fn any_before(random: &mut Random, family: &Family, after: &Record, log: &[u32]) -> Record {
    let near = earlier(random, after, log);
    match random.below(12) {
        0 => any_sample(random).record,
        1 => family.sample(random, after.own.min(OFFICES - 1)).record,
        2 => broken(random, near, log),
        3 => altered(random, near),
        _ => near,
    }
}

/// The record with its settled length at an earlier place, and an own tail that begins with what was settled from there.
fn earlier(random: &mut Random, after: &Record, log: &[u32]) -> Record {
    let held = after.held().min(log.len());
    let back = random.pick(&[0, 0, 1, 2, 5, TAIL, TAIL + 1, held]).min(held);
    let own = after.own.min(OFFICES - 1);
    let mut path = [&log[held - back..held], after.ballots[own].tail()].concat();
    for _ in 0..random.pick(&[0, 0, 1, 3]) {
        path.push(entry(random.pick(&[own, own, 0]), random.below(LINES as usize) as u32, 7));
    }
    path.retain(|&word| office_of(word) < OFFICES);
    path.truncate(random.pick(&[TAIL, TAIL, back, back + 1, 1, 0]));
    if random.percent(30) && !path.is_empty() {
        let at = random.below(path.len());
        path[at] = entry(random.pick(&[own, office_of(path[at])]), 9, 9);
    }
    let mut before = *after;
    before.settled = after.settled.saturating_sub(back as u64);
    before.ballots[own] = Ballot::of(fair_beginning(&path, after.n.clamp(1, OFFICES)));
    let dropped = before.kept.dropped.saturating_sub(random.pick(&[0, 0, 1, 40]));
    before.kept.dropped = dropped.min(before.settled);
    before
}

/// The record with a clause of soundness broken.
fn broken(random: &mut Random, record: Record, log: &[u32]) -> Record {
    let mut sample = Sample { record, log: log.to_vec() };
    let clause = random.below(CLAUSES);
    break_clause(random, clause, &mut sample);
    sample.record
}

/// The record with one of the numbers changed that must be as they are after it.
fn altered(random: &mut Random, mut record: Record) -> Record {
    let (office, far) = (random.below(OFFICES), huge(random));
    match random.below(9) {
        0 => record.n = random.pick(&[0, 1, record.n.wrapping_add(1), record.n.wrapping_sub(1), far]),
        1 => record.own = random.pick(&[0, 7, 8, far]),
        2 => record.weights[office] = record.weights[office].wrapping_add(random.pick(&[1, 256, u16::MAX])),
        3 => {
            record.settled =
                random.pick(&[0, record.settled.wrapping_add(1), record.settled.wrapping_sub(1), far as u64])
        }
        4 => record.settled = random.pick(&[LENGTH, LENGTH + 1, u64::MAX, record.settled ^ 1 << 32]),
        5 => record.kept.dropped = random.pick(&[0, record.settled.wrapping_add(1), far as u64, u64::MAX]),
        6 => record.ballots[office].len = random.pick(&[0, 1, TAIL, TAIL + 1, far]),
        7 => record.ballots[office].cells[random.below(TAIL)] = random.pick(&[0, 1, entry(0, 5, 120)]),
        _ => record.ballots[office].cells[0] = no_entry(random, OFFICES),
    }
    record
}

/// Whether a done outcome has entries of two parts.
pub fn is_mixed((number, told): (u32, Outcome)) -> bool {
    number == DONE && [told.settled, told.pending, told.lost].iter().filter(|&&count| count > 0).count() > 1
}
