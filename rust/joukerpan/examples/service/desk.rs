//! One office's thread: an event comes; take, elect, store, send. It is killed now and then.

use std::error::Error;
use std::fs;
use std::path::PathBuf;
use std::sync::mpsc::Receiver;

use joukerpan::{Office, Outcome, Refused};

use crate::dice::Dice;
use crate::lost::hear;
use crate::network::{Event, Network};
use crate::storage::{store, stored};

/// An office is killed at one of so many events, at one of three places.
const KILLED_AT: usize = 25;

/// An office folds where so many entries are settled and not dropped. A service waits for more: 1,024 are the most.
const FOLDED_AT: usize = 10;

/// What outlives the office's process: its file, its inbox, and what this run counts.
pub struct Desk<'a> {
    pub own: usize,
    pub file: PathBuf,
    pub inbox: Receiver<Event>,
    pub network: &'a Network,
    pub dice: Dice,
    pub sent: Vec<Vec<u8>>,
    pub edits: usize,
    pub lost: usize,
    pub kills: usize,
}

/// How a process ended.
enum End {
    Killed,
    Stopped,
}

/// Works an event into the office, elects, and folds; answers how many edits were made and what became of those that were
/// pending. Any other refused message than an old one ends the office here, since each was sent by one of them. A service
/// may pass over bytes from elsewhere, and stops at `OtherLog` and `BeginsPast`.
fn work(office: &mut Office, event: Event) -> Result<(usize, Outcome), Refused> {
    let (mut edits, mut outcome) = (0, Outcome::default());
    match event {
        Event::Message(message) => match hear(office, &message) {
            Err(Refused::EndsInside) => {} // an old message: all that it has settled is settled and dropped here
            heard => outcome = heard?,
        },
        Event::Turn(Some((line, code)), _done) => match office.issue(line, code) {
            Err(Refused::PartFull) => {} // the supervisor waits until some of her edits are decided
            issued => {
                issued?;
                (edits, outcome) = (1, office.elect());
            }
        },
        Event::Turn(None, _done) => {}
        Event::Stop => {}
    }
    if office.settled().len() > FOLDED_AT {
        outcome = outcome.then(office.fold());
    }
    Ok((edits, outcome))
}

impl Desk<'_> {
    /// Runs the office, and again from its file whenever it was killed.
    pub fn run(mut self) -> Result<Self, Box<dyn Error + Send + Sync>> {
        while let End::Killed = self.serve()? {
            self.kills += 1;
        }
        Ok(self)
    }

    /// The service loop. All that it knows of the office is what the file holds.
    fn serve(&mut self) -> Result<End, Box<dyn Error + Send + Sync>> {
        let mut office = stored(&self.file)?;
        loop {
            let event = self.inbox.recv()?;
            if let Event::Stop = event {
                return Ok(End::Stopped);
            }
            let due = matches!(event, Event::Turn(..));
            let (edits, outcome) = work(&mut office, event)?;
            let changed = edits > 0 || outcome.changed;
            let killed = self.dice.below(3 * KILLED_AT);
            match killed {
                0 => return Ok(End::Killed), // before the store: as if the event had never come
                1 => {
                    fs::write(self.file.with_extension("new"), &office.to_bytes()[..500])?;
                    return Ok(End::Killed); // in the middle of the store: the same
                }
                _ if changed => store(&office, &self.file)?,
                _ => {}
            }
            self.edits += edits; // from here on the supervisor may see them
            self.lost += outcome.lost.len();
            if killed == 2 {
                return Ok(End::Killed); // after the store: this message is never sent
            }
            if changed || due {
                self.sent.push(office.message());
                self.network.send(self.own, &self.sent, &mut self.dice);
            }
        }
    }
}
