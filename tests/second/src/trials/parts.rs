//! A fair part of the tail: each office's entries at its part and one past it, in records, in messages and at an issue.

use super::boundaries::{A, B, D, WEIGHTS};
use super::cases::taking;
use super::Trials;
use crate::record::{entry, part, LOG, TAIL};
use crate::samples::{in_turn, Sample};

/// Writes the trials of parts.
pub(super) fn write(trials: &mut Trials) {
    for n in 1..=8 {
        records(trials, n);
        messages(trials, n);
        other_offices(trials, n);
        issues(trials, n);
        ends(trials, n);
    }
    settling(trials);
    growing(trials);
}

/// Entries of these offices, all different; every third a move where it is said.
fn entries(offices: &[usize], moves: bool) -> Vec<u32> {
    let word = |(at, &office): (usize, &usize)| match moves && at % 3 == 2 {
        true => entry(office, 64, 1 + at as u32),
        false => entry(office, at as u32 % 64, 600 + at as u32),
    };
    offices.iter().enumerate().map(word).collect()
}

/// A tail with this many entries of one office: together in front, together at the end, or scattered among this many
/// of others, which have at most one more than their part.
fn arranged(n: usize, office: usize, count: usize, others: usize, way: usize) -> Vec<usize> {
    let others: Vec<usize> = (0..n).filter(|&other| other != office).cycle().take(others).collect();
    let busy = vec![office; count];
    match way {
        0 => [busy, others].concat(),
        1 => [others, busy].concat(),
        _ => {
            let length = count.max(others.len());
            (0..length).flat_map(|at| [others.get(at), busy.get(at)]).flatten().copied().collect()
        }
    }
}

/// Tails in which the first or the last office has one entry fewer than its part, its part, or one more, alone or with
/// others, who have as much as fits.
fn tails(n: usize) -> Vec<Vec<u32>> {
    let mut tails = vec![];
    for office in [0, n - 1] {
        for count in [part(n) - 1, part(n), part(n) + 1] {
            let room = (TAIL - count.min(TAIL)).min((n - 1) * part(n));
            for (others, way) in [(0, 0), (room, 0), (room, 1), (room, 2), (room / 2, 2)] {
                let offices = arranged(n, office, count, others, way);
                tails.push(entries(&offices, false));
                tails.push(entries(&offices, true));
            }
        }
    }
    tails.retain(|tail| tail.len() <= TAIL);
    tails.dedup();
    tails
}

/// Each tail as the own ballot and as another's: whether the record is sound, and every call.
fn records(trials: &mut Trials, n: usize) {
    let weights = vec![7; n];
    trials.begin();
    trials.output(300);
    for (at, tail) in tails(n).iter().enumerate() {
        for holder in [0, n - 1] {
            trials.sample(&Sample::new(0, &weights, &[A], &[(holder, tail)]));
            trials.say("U");
        }
        if at % 5 == 0 {
            trials.all_calls();
        }
    }
}

/// Each tail in a message, as the sender's ballot and as another's.
fn messages(trials: &mut Trials, n: usize) {
    let weights = vec![7; n];
    trials.begin();
    for tail in tails(n) {
        for holder in [0, n - 1] {
            trials.message(&Sample::new(0, &weights, &[A], &[(holder, &tail)]).spelled());
            trials.sample(&Sample::new(n - 1, &weights, &[], &[]));
            trials.say("T");
        }
    }
}

/// Messages of n offices at one of three: the part is that of the message's own n.
fn other_offices(trials: &mut Trials, n: usize) {
    let weights = vec![40; n];
    trials.begin();
    trials.sample(&Sample::new(1, &WEIGHTS, &[], &[]));
    let counts = [part(n), part(n) + 1, part(3), part(3) + 1];
    for count in counts.into_iter().filter(|&count| count <= TAIL) {
        trials.message(&Sample::new(0, &weights, &[], &[(0, &vec![D; count])]).spelled());
        trials.say("T");
    }
}

/// Offices issue until they have their part, each behind the tail that the one before it made; then each once more.
/// An improper entry is said first.
fn issues(trials: &mut Trials, n: usize) {
    let mut sample = Sample::new(0, &vec![7; n], &[A], &[]);
    for office in (0..n).rev() {
        trials.begin();
        sample.record.ballots.swap(sample.record.own, office);
        sample.record.own = office;
        trials.sample(&sample);
        for at in 0..=part(n) {
            let line = if at % 4 == 3 { 64 } else { at };
            trials.say(&format!("I {line} {}", 1 + at));
        }
        for line in ["I 72 1", "I 64 0", "I 63 10000", "I 63 9999", "U", "V 63"] {
            trials.say(line);
        }
        sample.record = trials.state().record;
    }
    // All are heard of by the first office, which settles the whole tail: each has its part again.
    trials.output(400);
    trials.say("S");
    trials.say("E");
    let all = sample.record.ballots[sample.record.own];
    sample.record.ballots = [crate::record::Ballot::NONE; 8];
    sample.record.ballots[..n].fill(all);
    trials.sample(&sample);
    for line in ["U", "E", "I 1 1", "P"] {
        trials.say(line);
    }
}

/// A part that is full at the end of the log, and just before it: a full log is said first.
fn ends(trials: &mut Trials, n: usize) {
    let weights = vec![7; n];
    for short in [0, 1] {
        let settled = vec![A; LOG - part(n) - short];
        trials.begin();
        trials.sample(&Sample::new(n - 1, &weights, &settled, &[(n - 1, &vec![entry(n - 1, 1, 1); part(n)])]));
        for line in ["U", "I 63 10000", "I 1 2"] {
            trials.say(line);
        }
        trials.sample(&Sample::new(0, &weights, &settled, &[(0, &vec![entry(n - 1, 1, 1); part(n)])]));
        for line in ["I 1 2", "I 1 3", "U"] {
            trials.say(line);
        }
    }
}

/// Entries that are settled don't count; an entry that an election or a longer log takes out of the tail makes room.
fn settling(trials: &mut Trials) {
    let (mine, other) = (vec![B; 10], in_turn(3, 100, 30));
    for settled in [vec![B; 9], vec![B; 10], vec![B; 300]] {
        trials.begin();
        trials.sample(&Sample::new(1, &WEIGHTS, &settled, &[(1, &mine)]));
        for line in ["U", "I 5 1", "E"] {
            trials.say(line);
        }
        trials.sample(&Sample::new(1, &WEIGHTS, &settled, &[(0, &other), (1, &other), (2, &[B])]));
        for line in ["U", "I 5 1", "E", "I 5 1"] {
            trials.say(line);
        }
        trials.sample(&Sample::new(1, &WEIGHTS, &settled, &[(0, &mine), (1, &mine)]));
        for line in ["I 5 1", "E", "I 5 1", "I 5 2"] {
            trials.say(line);
        }
    }
}

/// Takes that lengthen and shorten tails at their part.
fn growing(trials: &mut Trials) {
    for n in [2, 3, 5, 7] {
        let weights = vec![7; n];
        let path = in_turn(n, 100, 2 * n * part(n));
        let full = n * part(n);
        for (theirs, their_tail, ours, our_tail) in [
            (0, full, 0, full - 1),
            (0, full, 0, 0),
            (1, full, 0, full),
            (1, full, 1, 1),
            (0, full, 1, full),
            (9, full, 0, 8),
        ] {
            let sender = Sample::new(0, &weights, &path[..theirs], &[(0, &path[theirs..theirs + their_tail])]);
            let own = &path[ours..ours + our_tail];
            taking(trials, &sender, &Sample::new(1, &weights, &path[..ours], &[(1, own), (n - 1, own)]));
            trials.say("I 5 1");
        }
    }
}
