//! What became of each edit: when it was made, when it was settled at its office and at all, or that it was lost.

use std::collections::VecDeque;

use joukerpan::Entry;

/// What a supervisor wanted, from the first time that she made it on.
#[derive(Clone, Debug)]
pub struct Edit {
    pub entry: Entry,
    /// The hour in which it was first made.
    pub made: u32,
    /// How often it was made.
    pub times: u32,
    /// Whether its office was away when it was first made.
    pub away: bool,
    /// Whether it is a move of weight, which the measures leave out.
    pub moves: bool,
    /// The hours in which its own office, and the last of all, had settled it.
    pub own: Option<u32>,
    pub all: Option<u32>,
    /// Whether it was lost, the last time that it was made.
    pub lost: bool,
}

/// All edits of a run, those of each office that are neither settled nor lost there, and the order.
pub struct Ledger {
    pub edits: Vec<Edit>,
    /// Of each office, oldest first. The first few may be in the order already, unheard of at the office itself.
    open: Vec<VecDeque<usize>>,
    /// Of each office, how many of its open edits are in the order.
    placed: Vec<usize>,
    /// The edit at each place of the order.
    order: Vec<usize>,
    /// How many places every office has.
    everywhere: usize,
}

impl Ledger {
    pub fn new(offices: usize) -> Ledger {
        Ledger {
            edits: Vec::new(),
            open: vec![VecDeque::new(); offices],
            placed: vec![0; offices],
            order: Vec::new(),
            everywhere: 0,
        }
    }

    /// A new edit, not made yet; its number.
    pub fn enter(&mut self, entry: Entry, now: u32, away: bool) -> usize {
        let moves = entry.line >= 64;
        self.edits.push(Edit { entry, made: now, times: 0, away, moves, own: None, all: None, lost: false });
        self.edits.len() - 1
    }

    /// The edit was made, for the first time or again.
    pub fn made(&mut self, id: usize) {
        let edit = &mut self.edits[id];
        edit.times += 1;
        edit.lost = false;
        self.open[usize::from(edit.entry.office)].push_back(id);
    }

    /// An entry was settled at the end of the order, at some office for the first time.
    pub fn join(&mut self, entry: Entry) {
        let office = usize::from(entry.office);
        let id = self.open[office][self.placed[office]];
        assert_eq!(self.edits[id].entry, entry, "an entry of the order was issued, with those before it in view");
        self.placed[office] += 1;
        self.order.push(id);
    }

    /// The own office has settled its entry at this place of the order.
    pub fn settle_own(&mut self, office: usize, place: usize, now: u32) {
        let id = self.open[office].pop_front();
        assert_eq!(id, Some(self.order[place]), "own entries settle oldest first");
        self.placed[office] -= 1;
        self.edits[self.order[place]].own = Some(now);
    }

    /// The office's own entries that are pending there now; those of the open edits that are not are lost.
    pub fn keep(&mut self, office: usize, pending: &[Entry]) -> Vec<usize> {
        let kept = pending.len();
        assert!(self.placed[office] <= kept && kept <= self.open[office].len(), "no entry of the order is lost");
        let lost: Vec<usize> = self.open[office].drain(kept..).collect();
        for &id in &lost {
            self.edits[id].lost = true;
        }
        let open = self.open[office].iter().map(|&id| self.edits[id].entry);
        assert!(open.eq(pending.iter().copied()), "what is pending is what was made");
        lost
    }

    /// Every office that is not gone for good has this many places.
    pub fn heard_everywhere(&mut self, places: usize, now: u32) {
        while self.everywhere < places {
            self.edits[self.order[self.everywhere]].all = Some(now);
            self.everywhere += 1;
        }
    }

    /// How many edits of the office are open.
    pub fn open(&self, office: usize) -> usize {
        self.open[office].len()
    }
}
