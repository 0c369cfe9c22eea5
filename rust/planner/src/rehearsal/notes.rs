//! What a call did at its office, in a few words each: edits, votes, settled and lost entries.

use std::collections::BTreeMap;

use joukerpan::{Entry, EntryKind, Office, Record, Refused};

use crate::folding::{dropped, news, path};

/// How many entries of a list are named.
const NAMED: usize = 3;

/// What a note is about, by which it is drawn.
#[derive(Clone, Copy, Debug, PartialEq)]
pub enum Kind {
    Tentative,
    Settled,
    Lost,
    Plain,
}

/// A few words about what happened.
#[derive(Clone, Debug, PartialEq)]
pub struct Note {
    pub kind: Kind,
    pub text: String,
}

impl Note {
    pub fn plain(text: String) -> Note {
        Note { kind: Kind::Plain, text }
    }
}

/// An edit, or a move of weight, was made.
pub fn issued(line: u32, code: u32) -> Note {
    let entry = Entry { office: 0, line: line as u8, code: code as u16 };
    let verb = if line < 64 { "edits: " } else { "moves: " };
    Note { kind: Kind::Tentative, text: format!("{verb}{}", named(entry)) }
}

/// A call was refused, and why.
pub fn refused(refused: Refused) -> Note {
    let why = match refused {
        Refused::NoEntry => "outside the limits",
        Refused::LogFull => "the log is full",
        Refused::NoMessage => "no message",
        Refused::OtherOffices => "another frame's",
        Refused::OwnMessage => "its own message",
        Refused::OtherLog => "another log",
        Refused::PartFull => "its part is full",
        _ => "not possible",
    };
    Note::plain(format!("refused ({}): {why}", refused.number()))
}

fn named(entry: Entry) -> String {
    match entry.kind() {
        EntryKind::Edit { line, code } => format!("line {line} is {code}"),
        EntryKind::Move { to, weight } => format!("weight {weight} to office {to}"),
    }
}

/// What a take has done.
pub fn taken(before: &Office, after: &Office) -> Vec<Note> {
    let mut notes = listed(Kind::Settled, "settled: ", &news(before, after));
    notes.extend(listed(Kind::Tentative, "votes for: ", &new_votes(before, after)));
    notes.extend(listed(Kind::Lost, "lost: ", &lost(before, after)));
    notes.extend(heard(before, after));
    notes.extend(weights(before, after));
    if notes.is_empty() {
        notes.push(noted(before, after).unwrap_or_else(|| Note::plain("nothing new".to_string())));
    }
    notes
}

/// Of whom it is known now that it has settled more, which folding asks for.
fn noted(before: &Office, after: &Office) -> Option<Note> {
    let of = (0..after.offices()).find(|&of| before.record().noted[of] != after.record().noted[of])?;
    Some(Note::plain(format!("knows what {of} has settled")))
}

/// What an election has done.
pub fn elected(before: &Office, after: &Office) -> Vec<Note> {
    let mut notes = listed(Kind::Settled, "settles: ", &news(before, after));
    let tally = Tally::of(before.record());
    if notes.is_empty() {
        notes.push(Note::plain("no entry wins".to_string()));
    }
    if let Some(words) = tally.words() {
        notes.push(Note::plain(words));
    }
    notes.extend(listed(Kind::Lost, "lost: ", &lost(before, after)));
    notes.extend(weights(before, after));
    notes
}

/// The present weights, where they have changed.
fn weights(before: &Office, after: &Office) -> Option<Note> {
    let now: Vec<String> = after.present().iter().map(u16::to_string).collect();
    (before.present() != after.present()).then(|| Note::plain(format!("weights: {}", now.join(", "))))
}

/// The list's first entries, one to a note, and how many more there are.
fn listed(kind: Kind, verb: &str, words: &[u32]) -> Vec<Note> {
    let mut notes: Vec<Note> = Vec::new();
    for (place, &word) in words.iter().take(NAMED).enumerate() {
        let verb = if place == 0 || kind == Kind::Lost { verb } else { "" };
        notes.push(Note { kind, text: format!("{verb}{}", named(Entry::from(word))) });
    }
    if words.len() > NAMED {
        notes.push(Note { kind, text: format!("and {} more", words.len() - NAMED) });
    }
    notes
}

/// The entries of the own ballot that are not settled and that it did not have before.
fn new_votes(before: &Office, after: &Office) -> Vec<u32> {
    let from = dropped(after);
    let (old, new) = (path(before, before.own(), from), path(after, after.own(), from));
    let shared = old.iter().zip(&new).take_while(|(old, new)| old == new).count();
    new[shared.max(after.settled().len())..].to_vec()
}

/// The own entries that were pending and are neither pending nor settled.
fn lost(before: &Office, after: &Office) -> Vec<u32> {
    let own = |word: &&u32| usize::from(Entry::from(**word).office) == after.own();
    let settled = news(before, after).iter().filter(own).count();
    before.pending().into_iter().skip(settled + after.pending().len()).map(Entry::value).collect()
}

/// Whose votes were heard that were not known before.
fn heard(before: &Office, after: &Office) -> Option<Note> {
    let from = dropped(after);
    let new = |of: &usize| after.record().ballots[*of].len > 0 && path(before, *of, from) != path(after, *of, from);
    let offices: Vec<String> =
        (0..after.offices()).filter(|&of| of != after.own()).filter(new).map(|of| of.to_string()).collect();
    match &offices[..] {
        [] => None,
        [one] => Some(Note::plain(format!("knows the vote of {one}"))),
        many => Some(Note::plain(format!("knows the votes of {}", many.join(", ")))),
    }
}

/// The votes of the first election step.
struct Tally {
    /// The weights of the entries voted for, greatest first.
    weights: Vec<u32>,
    unheard: u32,
}

impl Tally {
    fn of(record: &Record) -> Tally {
        let (mut votes, mut unheard) = (BTreeMap::<u32, u32>::new(), 0);
        for office in 0..record.n {
            let weight = u32::from(record.summary.present[office]);
            match record.ballots[office].cells[..record.ballots[office].len].first() {
                Some(&entry) => *votes.entry(entry).or_default() += weight,
                None => unheard += weight,
            }
        }
        let mut weights: Vec<u32> = votes.into_values().collect();
        weights.sort_unstable_by(|one, other| other.cmp(one));
        Tally { weights, unheard }
    }

    /// None without votes.
    fn words(&self) -> Option<String> {
        let votes: Vec<String> = self.weights.iter().map(u32::to_string).collect();
        let unheard = self.unheard;
        match &votes[..] {
            [] => None,
            [one] => Some(format!("{one} for, {unheard} unheard")),
            many => Some(format!("{}, {unheard} unheard", many.join(" against "))),
        }
    }
}

#[cfg(test)]
mod tests {
    use joukerpan::Office;

    use super::taken;

    #[test]
    fn a_take_that_only_notes_a_length_says_so() {
        let [mut here, mut there] = [0, 1].map(|own| Office::found(own, &[2, 1]).unwrap());
        here.issue(5, 120).unwrap();
        here.elect();
        there.take(&here.message()).unwrap();
        let words = |before: &Office, after: &Office| taken(before, after)[0].text.clone();
        let before = here.clone();
        here.take(&there.message()).unwrap();
        assert_eq!(words(&before, &here), "knows what 1 has settled");
        assert_eq!(words(&here, &here.clone()), "nothing new");
    }
}
