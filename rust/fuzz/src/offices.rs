//! The offices that are handed bytes, and what others would send them.

use second::record::{entry, Ballot, Kept, LENGTH, LINES, LOG, OFFICES, TAIL};
use second::samples::{fair_beginning, Sample};

/// Offices of one order: their weights, what all have dropped, and the entries behind it.
struct Order {
    weights: &'static [u16],
    dropped: u64,
    entries: Vec<u32>,
}

/// Where an office stands in its order: behind so many entries, of which it has dropped so many, with ballots of these
/// lengths.
#[derive(Clone, Copy)]
struct Place {
    own: usize,
    dropped: usize,
    settled: usize,
    tails: [usize; OFFICES],
}

/// An office that is handed bytes, and the order that it belongs to.
pub struct Office {
    order: Order,
    place: Place,
}

impl Order {
    /// Edits of the offices in turn, every fifth entry a move of weight to the office after the next.
    fn new(weights: &'static [u16], dropped: u64) -> Order {
        let n = weights.len();
        let any = |at: usize| match at % 5 {
            4 => entry(at % n, LINES + (at + 2) as u32 % n as u32, 1 + at as u32 % 3),
            _ => entry(at % n, at as u32 * 7 % LINES, at as u32 % 4 * 3333),
        };
        Order { weights, dropped, entries: (0..LOG + 3 * TAIL).map(any).collect() }
    }

    /// What all have dropped was office 0's, and did nothing but edit line 5.
    fn kept(&self) -> Kept {
        let mut weights = [0; OFFICES];
        weights[..self.weights.len()].copy_from_slice(self.weights);
        let mut kept = Kept::nothing(weights);
        if self.dropped > 0 {
            (kept.dropped, kept.counts[0], kept.codes[5]) = (self.dropped, self.dropped, 121);
        }
        kept
    }

    /// The record of the office at the place, with its log. Each other office is known to have all but the last entry;
    /// offices with an odd number have missed the next one.
    fn at(&self, place: Place) -> Sample {
        let n = self.weights.len();
        let (settled, rest) = self.entries.split_at(place.settled);
        let sample = Sample::new(place.own, self.weights, settled, &[]).behind(self.kept()).without(place.dropped);
        let Sample { mut record, log } = sample;
        for office in (0..n).filter(|&office| office != place.own) {
            record.noted[office] = record.settled.saturating_sub(1);
        }
        let room = TAIL.min(LOG - record.held()).min((LENGTH - record.settled) as usize);
        for (office, tail) in place.tails.into_iter().enumerate().take(n) {
            let path = &rest[office % 2..];
            record.ballots[office] = Ballot::of(fair_beginning(&path[..tail.min(room)], n));
        }
        Sample { record, log }
    }
}

impl Office {
    fn new(weights: &'static [u16], all_dropped: u64, place: Place) -> Office {
        Office { order: Order::new(weights, all_dropped), place }
    }

    /// Its record and log.
    pub fn sample(&self) -> Sample {
        self.order.at(self.place)
    }

    /// The record of another office where it stands, or of its own if there is no other.
    fn other(&self, dropped: usize, settled: usize, tails: [usize; OFFICES]) -> Sample {
        let own = (self.place.own + 1) % self.order.weights.len();
        self.order.at(Place { own, dropped, settled, tails })
    }

    /// Messages of another office: as far, before, ahead, with other ballots and more entries dropped; one that has dropped
    /// all entries of this office, and one that has only those which this office has dropped.
    pub fn messages(&self) -> Vec<Vec<u8>> {
        let Place { dropped, settled, tails, .. } = self.place;
        let longer = tails.map(|tail| tail + 2);
        [
            self.other(dropped, settled, longer),
            self.other(dropped / 2, settled - 1, longer),
            self.other(dropped, settled + 3, tails),
            self.other(dropped + 1, settled + 1, [TAIL; OFFICES]),
            self.other(settled, settled + 2, tails),
            self.other(dropped / 2, dropped, longer),
        ]
        .map(|sample| sample.message())
        .to_vec()
    }
}

/// The offices: of one, three and eight; with nothing dropped, some entries, or nearly 2^63; with ballots short and full;
/// with a log that is nearly full, or longer than it need be.
pub fn offices() -> Vec<Office> {
    let three: &[u16] = &[40, 35, 25];
    let eight: &[u16] = &[40, 35, 25, 20, 15, 10, 5, 0];
    let short = [3, 1, 0, 2, 0, 4, 1, 1];
    vec![
        Office::new(three, 0, Place { own: 0, dropped: 0, settled: 6, tails: short }),
        Office::new(three, 0, Place { own: 1, dropped: 4, settled: 9, tails: short }),
        Office::new(&[1], 0, Place { own: 0, dropped: 0, settled: 3, tails: [5; OFFICES] }),
        Office::new(eight, 0, Place { own: 3, dropped: 0, settled: 5, tails: [TAIL; OFFICES] }),
        Office::new(eight, 300, Place { own: 7, dropped: 10, settled: 14, tails: short }),
        Office::new(three, LENGTH - 16, Place { own: 2, dropped: 2, settled: 10, tails: [4; OFFICES] }),
        Office::new(three, 0, Place { own: 0, dropped: 0, settled: LOG - 5, tails: [3; OFFICES] }),
        Office::new(three, 0, Place { own: 1, dropped: 600, settled: LOG + 6, tails: short }),
    ]
}
