//! How often a rehearsal script shows what it is meant to show.

use std::collections::BTreeMap;
use std::io::{Read, Result, Write};

use crate::elect::{step, Tally};
use crate::lines::each_line;
use crate::message::read;
use crate::record::{is_move, office_of, part, Ballot, Record, DONE, LOG_FULL, OFFICES, PART_FULL};
use crate::rehearsal::{Command, Office, World, SLOTS};
use crate::take::{adopt_all, drop_too, grow, refusal};

/// Who sent the message in a slot, and who has taken it.
#[derive(Clone, Copy)]
struct Sent {
    sender: usize,
    record: Record,
    taken: [bool; OFFICES],
}

#[derive(Default)]
struct Survey {
    world: World,
    sent: [Option<Sent>; SLOTS],
    counts: BTreeMap<String, usize>,
}

impl Survey {
    fn add(&mut self, name: &str, count: usize) {
        if count > 0 {
            *self.counts.entry(name.to_string()).or_default() += count;
        }
    }

    fn most(&mut self, name: &str, value: usize) {
        let most = self.counts.entry(name.to_string()).or_default();
        *most = value.max(*most);
    }

    /// Counts what a line shows, and runs it.
    fn line(&mut self, line: &[u8]) {
        self.add("lines", 1);
        let command = Command::parse(line);
        match command {
            Some(Command::Take(k, m)) => self.before_take(k, m),
            Some(Command::Elect(k)) => self.before_elect(k),
            _ => {}
        }
        let Some(answer) = command.and_then(|command| self.world.run(command)) else {
            self.add("answer ?", 1);
            return;
        };
        self.add(&format!("answer {} {}", char::from(answer.letter), answer.number), 1);
        if let Some(Command::Issue(k, ..)) = command {
            let record = self.world.offices[k].record;
            self.count_issue(&record, answer.number);
        }
        if answer.letter == b'v' {
            for (name, code) in [("code that is 0 viewed", Some(0)), ("line with no edit yet viewed", None)] {
                self.add(name, answer.values().iter().filter(|&&value| value == code).count());
            }
        }
        if answer.number != DONE {
            return;
        }
        match command {
            Some(Command::Found(..)) => self.sent = [None; SLOTS],
            Some(Command::Send(k, m)) => self.after_send(k, m),
            _ => {}
        }
    }

    /// Counts what an issue that gave this number shows of parts of the tail.
    fn count_issue(&mut self, record: &Record, number: u32) {
        let Record { n, own, ballots, .. } = record;
        let tail = ballots[*own].tail();
        self.most("longest tail", tail.len());
        let full = |office: usize| tail.iter().filter(|&&word| office_of(word) == office).count() == part(*n);
        let behind = number == DONE && (0..*n).any(|office| office != *own && full(office));
        for (name, shown) in [
            ("issue at a full log with a full part", number == LOG_FULL && full(*own)),
            ("issue behind another office's full part", behind),
            (&format!("part full among {n}"), number == PART_FULL),
            (&format!("every part full among {n}"), number == PART_FULL && tail.len() == n * part(*n)),
        ] {
            self.add(name, usize::from(shown));
        }
    }

    fn after_send(&mut self, k: usize, m: usize) {
        if self.sent[m].is_some_and(|sent| sent.taken == [false; OFFICES]) {
            self.add("message lost", 1);
        }
        let record = self.world.offices[k].record;
        self.most("longest log sent", record.settled as usize);
        self.sent[m] = Some(Sent { sender: k, record, taken: [false; OFFICES] });
    }

    fn before_take(&mut self, k: usize, m: usize) {
        let (Some(office), Some(slot)) = (self.world.offices.get(k), self.world.slots.get(m)) else {
            return;
        };
        let Some(message) = read(slot.message()) else {
            return;
        };
        let Office { mut record, mut log } = *office;
        if refusal(&record, &log, &message).0 != DONE {
            return;
        }
        drop_too(&mut record, &mut log, &message);
        let before = record;
        grow(&mut record, &mut log, &message);
        let grown = record;
        let shorter = message.settled() < record.settled;
        adopt_all(&mut record, &log, &message);
        self.count_take(&before, &grown, &record, shorter);
        self.count_delivery(k, m);
    }

    /// Counts what growing and adopting did.
    fn count_take(&mut self, before: &Record, grown: &Record, after: &Record, shorter: bool) {
        let none = |ballot: &Ballot| ballot.len == 0;
        if grown.settled > before.settled {
            let pairs = || before.ballots.iter().zip(&grown.ballots).filter(|(old, _)| !none(old));
            let reset = pairs().filter(|(_, new)| none(new)).count();
            let kept = pairs().count() - reset;
            self.add("log grown by a take", 1);
            self.add("weight moved by a take", usize::from(grown.present != before.present));
            self.add("ballot reset by a grown log", reset);
            self.add("ballot kept by a grown log", kept);
        }
        let adopted = grown.ballots.iter().zip(&after.ballots).filter(|(old, new)| old != new).count();
        self.add("path adopted", adopted);
        if shorter {
            self.add("path adopted from a shorter log", adopted);
            self.add("message with a shorter log", 1);
        }
        if grown.ballots[after.own] != after.ballots[after.own] {
            self.add("own path adopted", 1);
        }
        if before == after {
            self.add("take that changed nothing", 1);
        }
    }

    /// Counts late and repeated deliveries.
    fn count_delivery(&mut self, k: usize, m: usize) {
        let Some(mut sent) = self.sent[m] else {
            return;
        };
        if self.world.offices[sent.sender].record != sent.record {
            self.add("message taken late", 1);
        }
        if sent.taken[k] {
            self.add("message taken again", 1);
        }
        sent.taken[k] = true;
        self.sent[m] = Some(sent);
    }

    fn before_elect(&mut self, k: usize) {
        let Some(office) = self.world.offices.get(k) else {
            return;
        };
        let Office { mut record, mut log } = *office;
        let (mut count, first) = (0, record);
        while let Some(winner) = Tally::of(&record, &log[..record.held()]).winner() {
            self.count_win(&record, &log, winner, &first);
            let before = record.present;
            step(&mut record, &mut log);
            count += 1;
            if is_move(winner) {
                self.add("move settled by an election", 1);
                self.add("move without effect", usize::from(record.present == before));
            }
        }
        self.add("entry settled by an election", count);
        self.most("longest log", record.settled as usize);
        if count > 1 {
            self.add("election of two or more entries", 1);
        }
    }

    /// Counts what a step shows that this entry wins; `first` is the record before the first step.
    fn count_win(&mut self, record: &Record, log: &[u32], winner: u32, first: &Record) {
        let voted = || record.ballots.iter().filter(|ballot| ballot.len > 0);
        let others = voted().filter(|ballot| ballot.cells[0] != winner).count();
        if others > 0 {
            self.add("contested win", 1);
            self.add("ballot reset by an election", others);
        }
        if voted().count() < record.n {
            self.add("win with offices unheard", 1);
        }
        let (settled, began) = (&log[..record.held()], &log[..first.held()]);
        let under = |present| Record { present, ..*record };
        let otherwise = |record: &Record, settled| Tally::of(record, settled).winner() != Some(winner);
        for (name, shown) in [
            ("win that the founding weights do not give", otherwise(&under(record.weights), settled)),
            ("win by weight moved in the same election", otherwise(&under(first.present), settled)),
            ("tie won", Tally::of(record, settled).tied(winner)),
            ("tie won by fewer entries, the value being higher", otherwise(record, &[])),
            ("tie won by entries settled in the same election", otherwise(record, began)),
        ] {
            self.add(name, usize::from(shown));
        }
    }
}

/// Counts what the script on the input shows, a line of output for each sight.
pub fn survey(input: impl Read, mut output: impl Write) -> Result<()> {
    let mut survey = Survey::default();
    each_line(input, |line| {
        survey.line(line);
        Ok(())
    })?;
    for (name, count) in &survey.counts {
        writeln!(output, "{count:8} {name}")?;
    }
    output.flush()
}
