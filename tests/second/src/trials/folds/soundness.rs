//! Every clause of soundness about dropped entries and noted lengths, broken singly, and what just keeps to it.

use super::*;
use crate::record::Record;

/// A change of a record with dropped entries.
type Change = fn(&mut Record);

/// Changes after which a record with dropped entries is unsound: three of three offices' entries are dropped, two are
/// held, and lengths of 4 and 5 are noted.
const BREAKS: [Change; 40] = [
    |r| r.kept.counts[0] = 3,
    |r| r.kept.counts[0] = 1,
    |r| r.kept.counts[1] = 1,
    |r| r.kept.counts[7] = 1,
    |r| (r.kept.counts[0], r.kept.counts[3]) = (1, 1),
    |r| (r.kept.counts[0], r.kept.counts[1]) = (2 + (1 << 63), 1 << 63),
    |r| (r.kept.counts[0], r.kept.counts[1]) = (u64::MAX, 3),
    |r| r.kept.counts = [u64::MAX; 8],
    |r| r.kept.counts = [1 << 61; 8],
    |r| r.kept.counts = [0; 8],
    |r| r.kept.dropped = 2,
    |r| r.kept.dropped = 4,
    |r| r.kept.dropped = 0,
    |r| (r.kept.dropped, r.kept.counts) = (0, [0; 8]),
    |r| (r.kept.dropped, r.kept.counts[0]) = (6, 5),
    |r| (r.kept.dropped, r.kept.counts[0]) = (5 + (1 << 32), 4 + (1 << 32)),
    |r| (r.kept.dropped, r.kept.counts[0]) = (u64::MAX, u64::MAX - 1),
    |r| r.settled = 2,
    |r| r.settled = 0,
    |r| r.settled = 6,
    |r| r.settled = 5 + (1 << 32),
    |r| r.settled = 1 << 63,
    |r| r.settled = u64::MAX,
    |r| r.kept.present[0] += 1,
    |r| r.kept.present[1] -= 1,
    |r| (r.kept.present[0], r.kept.present[3]) = (r.kept.present[0] - 1, 1),
    |r| (r.kept.present[1], r.kept.present[7]) = (0, r.kept.present[1]),
    |r| r.kept.present = [0; 8],
    |r| r.kept.codes[0] = 10_001,
    |r| r.kept.codes[63] = 10_001,
    |r| r.kept.codes[9] = u32::MAX,
    |r| r.kept.codes[5] = 1 << 16,
    |r| r.noted[0] = 6,
    |r| r.noted[2] = 6,
    |r| r.noted[2] = u64::MAX,
    |r| r.noted[0] = 5 + (1 << 32),
    |r| r.noted[1] = 1,
    |r| r.noted[1] = 5,
    |r| r.noted[3] = 1,
    |r| r.noted[7] = 5,
];

/// Changes after which it is sound still: any kept codes and any kept weights of the right total, counts that are shared
/// out otherwise, noted lengths from 0 to the own one.
const KEEPS: [Change; 14] = [
    |_| {},
    |r| r.kept.codes[0] = 10_000,
    |r| r.kept.codes = [10_000; 64],
    |r| r.kept.codes = [0; 64],
    |r| r.kept.codes[63] = 1,
    |r| r.kept.present = [100, 0, 0, 0, 0, 0, 0, 0],
    |r| r.kept.present = [0, 0, 100, 0, 0, 0, 0, 0],
    |r| r.kept.present = [40, 35, 25, 0, 0, 0, 0, 0],
    |r| r.kept.counts = [3, 0, 0, 0, 0, 0, 0, 0],
    |r| r.kept.counts = [0, 0, 3, 0, 0, 0, 0, 0],
    |r| r.noted = [0; 8],
    |r| (r.noted[0], r.noted[2]) = (5, 5),
    |r| (r.noted[0], r.noted[2]) = (3, 2),
    |r| (r.noted[0], r.noted[2]) = (1, 3),
];

/// Changes of a record with nothing dropped, after which something is kept all the same, or too much is dropped.
const NOTHING: [Change; 11] = [
    |_| {},
    |r| r.kept.present.swap(0, 1),
    |r| (r.kept.present[0], r.kept.present[1]) = (39, 36),
    |r| r.kept.present[0] += 1,
    |r| r.kept.present = [0; 8],
    |r| r.kept.codes[5] = 121,
    |r| r.kept.codes[63] = 1,
    |r| r.kept.counts[0] = 1,
    |r| r.kept.counts = [1 << 61; 8],
    |r| (r.kept.dropped, r.kept.counts[1]) = (3, 3),
    |r| r.noted[0] = 3,
];

/// The office that is changed: all its present weights and codes follow from what is kept after the change.
fn whole(own: usize) -> Sample {
    office(own, Some(kept()), &PATH[..2]).noting(&[(0, 4), (2, 5)])
}

/// Each change by itself; every call refuses, or none does.
pub(super) fn write(trials: &mut Trials) {
    for change in BREAKS.into_iter().chain(KEEPS) {
        trials.begin();
        trials.sent(&whole(0).noting(&[(0, 0)]));
        trials.output(120);
        let mut sample = whole(1);
        change(&mut sample.record);
        sample.derive();
        trials.sample(&sample);
        trials.all_calls();
        trials.say("D");
    }
    for change in NOTHING {
        trials.begin();
        trials.sent(&office(0, None, &PATH[..2]));
        trials.output(120);
        let mut sample = office(1, None, &PATH[..2]);
        change(&mut sample.record);
        sample.derive();
        trials.sample(&sample);
        trials.all_calls();
    }
    other_effects(trials);
    single_numbers(trials);
}

/// Present weights and codes that follow from the founding instead of what is kept, or from what is kept alone.
fn other_effects(trials: &mut Trials) {
    trials.begin();
    let changes: [Change; 6] = [
        |r| r.present = [35, 40, 25, 0, 0, 0, 0, 0],
        |r| r.present = r.kept.present,
        |r| r.present.swap(0, 1),
        |r| r.codes = r.kept.codes,
        |r| r.codes[7] = 0,
        |r| r.codes[63] = 1,
    ];
    for change in changes {
        let mut sample = office(1, Some(kept()), &PATH[..3]);
        change(&mut sample.record);
        trials.sample(&sample);
        trials.say("U");
        trials.say("D");
    }
}

/// Each kept code one above its limit and at it; each noted length one above the own one and at it; each kept count one
/// more than it was.
fn single_numbers(trials: &mut Trials) {
    trials.begin();
    for line in 0..64 {
        for number in [10_000, 10_001] {
            let mut sample = whole(1);
            sample.record.kept.codes[line] = number;
            sample.derive();
            trials.sample(&sample);
            trials.say("U");
        }
    }
    for n in [1, 2, 5, 8] {
        for place in 0..OFFICES {
            for (noted, count) in [(0, 1), (1, 0), (2, 0), (3, 0)] {
                let mut sample = Sample::new(n - 1, &vec![7; n], &[A, D], &[]);
                sample.record.noted[place] = noted;
                sample.record.kept.counts[place] += count;
                trials.sample(&sample);
                trials.say("U");
                trials.say("D");
            }
        }
    }
}
