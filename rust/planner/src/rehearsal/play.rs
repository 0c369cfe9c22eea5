//! A script played on the engine, line by line, with what each line did.

use joukerpan::{Office, Refused};

use super::notes::{self, Note};
use super::script::{self, Command, SLOTS};

/// A line of the script: its text, the answer that the rehearsal program prints, and what it did.
pub struct Turn {
    pub line: String,
    pub answer: String,
    pub act: Act,
}

/// What a line did.
pub enum Act {
    /// Nothing: a line of another form, or a founding that was refused.
    Nothing,
    /// Offices were founded with these weights.
    Founded(Vec<u16>),
    /// An office made a call.
    Call { office: usize, notes: Vec<Note>, message: Option<Message> },
}

/// A message's part in a call. Messages have numbers, in the order in which they are sent.
#[derive(Clone, Copy)]
pub enum Message {
    Sent { number: usize, slot: usize },
    Taken { number: usize },
}

struct Sent {
    number: usize,
    bytes: Vec<u8>,
}

/// The offices and the message slots.
#[derive(Default)]
pub struct Stage {
    offices: Vec<Office>,
    slots: [Option<Sent>; SLOTS],
    sent: usize,
}

type Played = (String, Act);

impl Stage {
    /// Plays one line.
    pub fn play(&mut self, line: &[u8]) -> Turn {
        let played = script::command(line).and_then(|command| self.act(command));
        let (answer, act) = played.unwrap_or_else(|| ("?".to_string(), Act::Nothing));
        Turn { line: String::from_utf8_lossy(line).into_owned(), answer, act }
    }

    /// The command's answer; none where its office isn't there.
    fn act(&mut self, command: Command) -> Option<Played> {
        match command {
            Command::Found { n, weights } => Some(self.found(n, &weights)),
            Command::Issue { office, line, code } => self.issue(office, line, code),
            Command::Send { office, slot } => self.send(office, slot),
            Command::Take { office, slot } => self.take(office, slot),
            Command::Elect { office } => self.elect(office),
            Command::View { office, line } => self.view(office, line),
        }
    }

    fn found(&mut self, n: u32, given: &[u16]) -> Played {
        let n = n as usize;
        let mut weights = given.to_vec();
        weights.resize(n.clamp(given.len(), 9), 0);
        let beyond = weights.split_off(n.min(weights.len()));
        let founded: Result<Vec<Office>, Refused> = match beyond.iter().any(|&weight| weight > 0) {
            true => Err(Refused::Founding),
            false => (0..n.max(1)).map(|own| Office::found(own, &weights)).collect(),
        };
        match founded {
            Err(refused) => (format!("f {}", refused.number()), Act::Nothing),
            Ok(offices) => {
                self.offices = offices;
                self.slots = Default::default();
                ("f 0".to_string(), Act::Founded(weights))
            }
        }
    }

    fn issue(&mut self, office: usize, line: u32, code: u32) -> Option<Played> {
        let issued = self.offices.get_mut(office)?.issue(line, code);
        let notes = match issued {
            Ok(()) => vec![notes::issued(line, code)],
            Err(refused) => vec![notes::refused(refused)],
        };
        Some((format!("i {}", number(issued)), Act::Call { office, notes, message: None }))
    }

    fn send(&mut self, office: usize, slot: usize) -> Option<Played> {
        let bytes = self.offices.get(office)?.message();
        let (answer, number) = (format!("s 0 {}", bytes.len()), self.sent);
        let notes = vec![Note::plain(format!("sends, {} bytes", bytes.len()))];
        self.slots[slot] = Some(Sent { number, bytes });
        self.sent += 1;
        Some((answer, Act::Call { office, notes, message: Some(Message::Sent { number, slot }) }))
    }

    fn take(&mut self, office: usize, slot: usize) -> Option<Played> {
        let before = self.offices.get(office)?.clone();
        let (bytes, sent) = match &self.slots[slot] {
            Some(sent) => (&sent.bytes[..], Some(sent.number)),
            None => (&[][..], None),
        };
        let taken = self.offices[office].take(bytes).map(|_| ());
        let notes = match taken {
            Ok(()) => notes::taken(&before, &self.offices[office]),
            Err(refused) => vec![notes::refused(refused)],
        };
        let own = taken == Err(Refused::OwnMessage);
        let message = sent.filter(|_| !own).map(|number| Message::Taken { number });
        Some((format!("t {}", number(taken)), Act::Call { office, notes, message }))
    }

    fn elect(&mut self, office: usize) -> Option<Played> {
        let before = self.offices.get(office)?.clone();
        let count = self.offices[office].elect().grown;
        let notes = notes::elected(&before, &self.offices[office]);
        Some((format!("e 0 {count}"), Act::Call { office, notes, message: None }))
    }

    fn view(&mut self, office: usize, line: u32) -> Option<Played> {
        let office_there = self.offices.get(office)?;
        let viewed = office_there.settled_frame(line).and_then(|code| Ok((code, office_there.tentative_frame(line)?)));
        let shown = |code: Option<u32>| code.map_or("-".to_string(), |code| code.to_string());
        let (settled, tentative) = viewed.unwrap_or_default();
        let notes = match viewed {
            Ok(_) => {
                vec![Note::plain(format!("line {line}: settled {}, tentative {}", shown(settled), shown(tentative)))]
            }
            Err(refused) => vec![notes::refused(refused)],
        };
        let answer = format!("v {} {} {}", number(viewed.map(|_| ())), shown(settled), shown(tentative));
        Some((answer, Act::Call { office, notes, message: None }))
    }
}

/// The number of an answer: 0 for done.
fn number(answer: Result<(), Refused>) -> u32 {
    answer.err().map_or(0, Refused::number)
}
