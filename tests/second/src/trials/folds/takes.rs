//! Takes between offices that have dropped different parts of the same log, and of logs that differ.

use super::*;

pub(super) fn write(trials: &mut Trials) {
    parts(trials);
    differences(trials);
    noted(trials);
    order_of_refusals(trials);
    behind_made_up_entries(trials);
    paths(trials);
    damaged(trials);
}

/// An office that has settled the first entries of the path and dropped some of them; the rest is in its ballots.
fn at(own: usize, path: &[u32], dropped: usize, settled: usize) -> Sample {
    let tail = &path[settled..];
    let ballots: [(usize, &[u32]); 2] = [(own, tail), (2, &tail[..tail.len() / 2])];
    Sample::new(own, &WEIGHTS, &path[..settled], &ballots).without(dropped)
}

/// Every settled length of five entries and every part of it dropped, on both sides: 16 and 17, equality, and how many
/// places were compared.
fn parts(trials: &mut Trials) {
    let path = &PATH[..5];
    let lengths: Vec<(usize, usize)> =
        (0..=5).flat_map(|settled| (0..=settled).map(move |gone| (gone, settled))).collect();
    trials.begin();
    for &(gone, settled) in &lengths {
        trials.message(&at(0, path, gone, settled).message());
        for &(ours, length) in &lengths {
            trials.sample(&at(1, path, ours, length).noting(&[(2, length as u64)]));
            trials.say("T");
            if (gone + settled + ours + length) % 3 == 0 {
                for line in ["T", "D", "E", "P", "A"] {
                    trials.say(line);
                }
            }
        }
    }
}

/// Logs that differ at one place, dropped by one of them or by neither; a difference in a dropped part isn't met.
fn differences(trials: &mut Trials) {
    trials.begin();
    for place in 0..6 {
        let mut other = PATH;
        other[place] = entry(2, 9, 9);
        for (gone, settled) in [(0, 6), (1, 6), (2, 4), (5, 6), (6, 6), (3, 8)] {
            trials.message(&at(0, &other, gone, settled).message());
            for (ours, length) in [(0, 6), (1, 5), (2, 6), (4, 4), (5, 7), (6, 8)] {
                trials.sample(&at(1, &PATH, ours, length));
                trials.say("T");
            }
        }
    }
}

/// Messages of two offices, longer ones and shorter ones after each other; a fold after each.
fn noted(trials: &mut Trials) {
    for order in [[1, 5, 3, 8], [8, 5, 3, 1], [4, 4, 0, 6]] {
        trials.begin();
        trials.sample(&at(1, &PATH, 0, 4));
        for settled in order {
            for sender in [0, 2] {
                trials.message(&at(sender, &PATH, settled / 2, settled).message());
                for line in ["T", "D", "T", "U"] {
                    trials.say(line);
                }
            }
        }
    }
}

/// 16 and 17 after 7, 8 and 9, and before 10.
fn order_of_refusals(trials: &mut Trials) {
    let (past, inside) = (at(0, &PATH, 7, 8), at(0, &PATH, 0, 1));
    trials.begin();
    for sender in [past, inside] {
        for (own, weights) in [(0, WEIGHTS), (1, WEIGHTS), (0, [40, 35, 26]), (1, [40, 35, 26])] {
            let mut sender = sender.clone();
            sender.record.own = own;
            sender.record.weights[..3].copy_from_slice(&weights);
            let message = sender.spelled();
            trials.message(&message);
            trials.sample(&at(1, &PATH, 3, 5));
            trials.say("T");
            trials.cut(message.len() - 1);
            trials.say("T");
        }
    }
}

/// Offices behind entries that nobody knows: what both kept of them need not be alike.
fn behind_made_up_entries(trials: &mut Trials) {
    trials.begin();
    for (theirs, ours) in [(3, 3), (3, 4), (4, 3), (3, 9), (9, 3), (11, 3), (12, 3), (3, 12), (1 << 40, 1 << 40)] {
        let sender = office(0, Some(kept_of(theirs)), &PATH[..4]);
        trials.message(&sender.message());
        for noted in [0, ours] {
            trials.sample(&office(1, Some(kept_of(ours)), &PATH).noting(&[(0, noted), (2, ours + 2)]));
            for line in ["T", "A", "D", "T"] {
                trials.say(line);
            }
        }
    }
}

/// Ballots over dropped parts: kept, shortened, reset and adopted, where the log grows, is as long, or is longer.
fn paths(trials: &mut Trials) {
    let tails: [&[u32]; 4] = [&[], &PATH[4..6], &PATH[4..8], &[C, D]];
    trials.begin();
    for (gone, settled) in [(0, 2), (2, 4), (3, 5), (4, 4), (5, 5)] {
        for theirs in [&PATH[settled..], &[D], &[]] {
            let sender = Sample::new(0, &WEIGHTS, &PATH[..settled], &[(0, theirs), (1, &[B]), (2, theirs)]);
            trials.message(&sender.without(gone).message());
            for own in tails {
                for ours in [0, 2, 4] {
                    let receiver = Sample::new(1, &WEIGHTS, &PATH[..4], &[(0, &[A]), (1, own), (2, &PATH[4..6])]);
                    trials.sample(&receiver.without(ours));
                    trials.say("T");
                }
            }
        }
    }
}

/// Each byte of a folded message's head changed, and the message cut at every length.
fn damaged(trials: &mut Trials) {
    trials.begin();
    let receiver = at(1, &PATH, 2, 5);
    let bytes = at(0, &PATH, 3, 6).message();
    trials.message(&bytes);
    for (place, &byte) in bytes.iter().enumerate().take(40) {
        for other in [byte ^ 1, byte ^ 2, byte ^ 128, 0, 3, 7, 255] {
            trials.overwrite(place, other);
            trials.sample(&receiver);
            trials.say("T");
        }
        trials.overwrite(place, byte);
    }
    trials.sample(&receiver);
    for length in (0..bytes.len()).rev() {
        trials.cut(length);
        trials.say("T");
    }
}
