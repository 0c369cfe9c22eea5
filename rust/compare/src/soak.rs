//! Eight offices for as long as it takes: edits, messages late, twice and never, elections, folds, restarts from stored
//! bytes. The engine and the second implementation make every call, and one order must be behind all offices, dropped
//! entries included.

use std::io::{self, stdout, Write};

use second::random::Random;
use second::record::{DONE, LINES, OFFICES};

mod desk;
mod order;
mod told;

use desk::Desk;
use order::Order;

/// Weights of the offices; they move some of it between them.
const WEIGHTS: [u16; OFFICES] = [40, 35, 30, 30, 25, 20, 15, 5];
/// Messages that may still come, at the most; one that is pushed out never comes.
const POOL: usize = 600;
/// Calls after which it is given up: nothing goes on any more.
const CALLS: u64 = 200_000_000;

/// What happened.
#[derive(Default)]
pub struct Counts {
    /// Calls that both made and answered alike.
    pub calls: u64,
    pub edits: u64,
    pub stopped: u64,
    pub sent: u64,
    pub taken: u64,
    pub inside: u64,
    pub elected: u64,
    pub folds: u64,
    pub folded: u64,
    pub dropped_too: u64,
    pub restarts: u64,
    pub forgotten: u64,
    /// Outcomes of takes, elections and folds, and entries that they told to be lost.
    pub told: u64,
    pub lost: u64,
}

/// A message on its way: to whom, and how often it has come.
struct Letter {
    to: usize,
    message: Vec<u8>,
    came: u64,
}

/// The offices, what is on its way between them, and what is known of the order.
struct World {
    random: Random,
    desks: Vec<Desk>,
    letters: Vec<Letter>,
    order: Order,
    counts: Counts,
    again: u64,
    never: u64,
}

type Outcome = Result<(), String>;

impl World {
    fn new(seed: u64) -> Result<World, String> {
        let desks = (0..OFFICES).map(|own| Desk::found(own, &WEIGHTS)).collect::<Result<_, _>>()?;
        let (random, order) = (Random::new(seed), Order::new(&WEIGHTS));
        Ok(World { random, desks, letters: vec![], order, counts: Counts::default(), again: 0, never: 0 })
    }

    /// One event at one of the offices.
    fn step(&mut self) -> Outcome {
        let own = self.random.below(OFFICES);
        match self.random.below(100) {
            0 => (0..self.random.within(1, 4)).try_for_each(|_| self.edit(own)),
            1..=19 => self.send(own),
            20..=74 => self.deliver(),
            75..=92 => self.desks[own].elect(&mut self.counts),
            93..=95 => self.desks[own].fold(&mut self.counts),
            96 => self.restart(own),
            _ => self.desks[own].read(&mut self.random, &mut self.counts),
        }
    }

    /// An edit of one of all lines, now and then a move of weight.
    fn edit(&mut self, own: usize) -> Outcome {
        let random = &mut self.random;
        let (line, code) = match random.below(40) {
            0 => (LINES + random.below(OFFICES) as u32, random.within(1, 9) as u32),
            _ => (random.below(LINES as usize) as u32, random.below(10_000) as u32),
        };
        self.desks[own].issue(line, code, &mut self.counts)
    }

    /// Stores the office, and sends its message to every other one; one in four is lost.
    fn send(&mut self, own: usize) -> Outcome {
        let message = self.desks[own].send(&mut self.order, &mut self.counts)?;
        for to in (0..OFFICES).filter(|&to| to != own) {
            if self.random.percent(25) {
                self.never += 1;
                continue;
            }
            let letter = Letter { to, message: message.clone(), came: 0 };
            if self.letters.len() < POOL {
                self.letters.push(letter);
            } else {
                let at = self.random.below(POOL);
                self.never += u64::from(self.letters[at].came == 0);
                self.letters[at] = letter;
            }
        }
        Ok(())
    }

    /// One of the letters comes, any of them, the newer ones more often; some come again later.
    fn deliver(&mut self) -> Outcome {
        if self.letters.is_empty() {
            return Ok(());
        }
        let last = self.letters.len() - 1;
        let at = if self.random.percent(60) {
            last - self.random.below(last.min(30) + 1)
        } else {
            self.random.below(last + 1)
        };
        let Letter { to, message, came } = &mut self.letters[at];
        self.again += u64::from(*came > 0);
        *came += 1;
        self.desks[*to].take(message, &mut self.counts)?;
        if self.random.percent(80) {
            self.letters.swap_remove(at);
        }
        Ok(())
    }

    /// The office is killed and goes on from its stored bytes; now and then it was stored just before.
    fn restart(&mut self, own: usize) -> Outcome {
        if self.random.percent(50) {
            self.desks[own].store(&mut self.order, &mut self.counts)?;
        }
        self.desks[own].restart(&mut self.counts)
    }

    /// Everybody hears everybody until nothing changes.
    fn hear_all(&mut self) -> Outcome {
        loop {
            let before: Vec<_> = self.desks.iter().map(Desk::record).collect();
            for own in 0..OFFICES {
                for from in (0..OFFICES).filter(|&from| from != own) {
                    let message = self.desks[from].send(&mut self.order, &mut self.counts)?;
                    self.desks[own].take(&message, &mut self.counts)?;
                    self.desks[own].elect(&mut self.counts)?;
                    self.desks[own].store(&mut self.order, &mut self.counts)?;
                }
            }
            if self.desks.iter().map(Desk::record).eq(before) {
                return Ok(());
            }
        }
    }

    fn run(&mut self, edits: u64) -> Outcome {
        while self.counts.edits < edits {
            if self.counts.calls > CALLS {
                return Err(format!("only {} edits in {CALLS} calls", self.counts.edits));
            }
            self.step()?;
        }
        self.hear_all()?;
        self.order.check(&self.desks)
    }

    fn print(&self, output: &mut impl Write) -> io::Result<()> {
        let Counts { calls, edits, stopped, sent, taken, inside, elected, folds, folded, .. } = &self.counts;
        let Counts { dropped_too, restarts, forgotten, told, lost, .. } = &self.counts;
        writeln!(output, "{edits} edits made, {stopped} times a full part or log; {} settled", self.order.length())?;
        writeln!(output, "{elected} entries settled by elections, each place at several offices")?;
        writeln!(output, "{told} outcomes told, {lost} edits lost by them, none of which was settled")?;
        writeln!(
            output,
            "{sent} messages sent, {taken} takes done; {} came again, {} never came",
            self.again, self.never
        )?;
        writeln!(output, "{inside} takes of old messages (17), none with 10 or 16")?;
        writeln!(output, "{folds} folds dropped {folded} entries, {dropped_too} takes dropped some too")?;
        writeln!(
            output,
            "{restarts} restarts from stored bytes, {forgotten} of them forgot calls that were not stored"
        )?;
        writeln!(output, "{calls} calls alike; one order of {} entries behind all offices", self.order.length())
    }
}

/// Runs until so many edits are made and prints what happened; says whether all was as it should be.
pub fn run(seed: u64, edits: u64) -> io::Result<bool> {
    let mut output = stdout().lock();
    let mut world = World::new(seed).map_err(io::Error::other)?;
    if let Err(difference) = world.run(edits) {
        writeln!(output, "seed {seed}, call {}: {difference}", world.counts.calls)?;
        return Ok(false);
    }
    world.print(&mut output)?;
    Ok(true)
}

/// Whether a number is done.
fn done(number: u32) -> bool {
    number == DONE
}
