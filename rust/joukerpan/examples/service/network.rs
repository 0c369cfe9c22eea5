//! A bad network: inboxes between threads, and messages that are lost, late or come twice.

use std::sync::atomic::{AtomicUsize, Ordering::Relaxed};
use std::sync::mpsc::{channel, sync_channel, Receiver, Sender, SyncSender};

use crate::dice::Dice;

/// What comes to an office's thread.
pub enum Event {
    /// Another office's message.
    Message(Vec<u8>),
    /// It is time to send, and the supervisor may have issued an entry: its line and code.
    /// What it holds last is dropped when the event is done.
    Turn(Option<(u32, u32)>, Sender<()>),
    /// The run ends.
    Stop,
}

/// The way to every office, and what became of the messages.
pub struct Network {
    inboxes: Vec<SyncSender<Event>>,
    pub delivered: AtomicUsize,
    pub lost: AtomicUsize,
    pub repeated: AtomicUsize,
}

impl Network {
    /// A network and the inbox of each office.
    pub fn new(offices: usize) -> (Network, Vec<Receiver<Event>>) {
        let (inboxes, ends) = (0..offices).map(|_| sync_channel(16)).unzip();
        let [delivered, lost, repeated] = [(); 3].map(|()| AtomicUsize::new(0));
        (Network { inboxes, delivered, lost, repeated }, ends)
    }

    /// An office's turn, and its supervisor's edit. Returns when it is done.
    pub fn turn(&self, office: usize, edit: Option<(u32, u32)>) {
        let (held, done) = channel();
        self.tell(office, Event::Turn(edit, held));
        done.recv().expect_err("nothing is sent, only dropped");
    }

    /// The run ends for the office.
    pub fn stop(&self, office: usize) {
        self.tell(office, Event::Stop);
    }

    fn tell(&self, office: usize, event: Event) {
        let _ = self.inboxes[office].send(event); // an office that failed has no inbox any more
    }

    /// Sends the newest of an office's messages to every other one: a quarter is lost, and with a quarter
    /// goes an older one once more. A message to a full inbox is lost too.
    pub fn send(&self, from: usize, messages: &[Vec<u8>], dice: &mut Dice) {
        let Some(newest) = messages.last() else { return };
        for to in (0..self.inboxes.len()).filter(|&to| to != from) {
            match dice.below(4) {
                0 => self.count(&self.lost),
                1 => {
                    self.count(&self.repeated);
                    self.deliver(to, newest);
                    self.deliver(to, &messages[dice.below(messages.len())]);
                }
                _ => self.deliver(to, newest),
            }
        }
    }

    fn deliver(&self, to: usize, message: &[u8]) {
        match self.inboxes[to].try_send(Event::Message(message.to_vec())) {
            Ok(()) => self.count(&self.delivered),
            Err(_) => self.count(&self.lost),
        }
    }

    fn count(&self, of: &AtomicUsize) {
        of.fetch_add(1, Relaxed);
    }
}
