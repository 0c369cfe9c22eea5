//! Taking a message: what its sender has dropped goes first, then the longer log, then every path that extends the known
//! one.

use crate::fold::drop_first;
use crate::message::{read, Message};
use crate::record::*;

/// How many places of the logs were compared, and the record after the message in the bytes.
pub fn take(mut record: Record, log: &mut [u32], bytes: &[u8]) -> (u32, usize, Record) {
    if !sound(&record, log) {
        return (UNSOUND, 0, record);
    }
    let Some(message) = read(bytes) else {
        return (NO_MESSAGE, 0, record);
    };
    let (number, places) = refusal(&record, log, &message);
    if number == DONE {
        drop_too(&mut record, log, &message);
        grow(&mut record, log, &message);
        adopt_all(&mut record, log, &message);
        note(&mut record, &message);
    }
    (number, places, record)
}

/// The number that a message of the layout is refused with, or done, and how many places of the logs were compared.
pub(crate) fn refusal(record: &Record, log: &[u32], message: &Message) -> (u32, usize) {
    let dropped = record.kept.dropped;
    if message.n != record.n || message.weights != record.weights {
        return (OTHER_WEIGHTS, 0);
    }
    if message.sender == record.own {
        return (OWN_MESSAGE, 0);
    }
    if message.dropped > record.settled {
        return (BEGINS_PAST, 0);
    }
    if message.settled() < dropped {
        return (ENDS_INSIDE, 0);
    }
    // From the last place that both still have back to the first, up to and including the first difference met.
    let (first, end) = (dropped.max(message.dropped), record.settled.min(message.settled()));
    let ours = &log[(first - dropped) as usize..(end - dropped) as usize];
    match message.entries(first, end).rev().zip(ours.iter().rev()).position(|(theirs, &ours)| theirs != ours) {
        Some(before) => (LOGS_PART, before + 1),
        None => (DONE, ours.len()),
    }
}

/// Drops what the message's sender had dropped.
pub(crate) fn drop_too(record: &mut Record, log: &mut [u32], message: &Message) {
    let count = message.dropped.saturating_sub(record.kept.dropped);
    drop_first(record, log, count as usize);
}

/// Writes the entries that the message's log has beyond the settled log, moves the weights and stores the codes that
/// they have. Every ballot whose path extends the new log keeps its path; any other becomes none.
pub(crate) fn grow(record: &mut Record, log: &mut [u32], message: &Message) {
    let (old, new) = (record.settled, message.settled());
    if new <= old {
        return;
    }
    let missing = &mut log[record.held()..][..(new - old) as usize];
    for (place, value) in missing.iter_mut().zip(message.entries(old, new)) {
        *place = value;
    }
    record.settled = new;
    record.present = weights_after(record.present, missing);
    record.codes = codes_after(&record.codes, missing);
    for ballot in record.ballots.iter_mut().filter(|ballot| ballot.len > 0) {
        if ballot.len > missing.len() && ballot.cells.starts_with(missing) {
            ballot.shorten(missing.len());
        } else {
            *ballot = Ballot::NONE;
        }
    }
}

/// Adopts the sender's path as the own one, and each other office's path, where it extends the known one.
pub(crate) fn adopt_all(record: &mut Record, log: &[u32], message: &Message) {
    let theirs = (message.settled() - record.kept.dropped) as usize;
    let between = &log[theirs..record.held()];
    for office in 0..record.n {
        let source = if office == record.own { message.sender } else { office };
        adopt(&mut record.ballots[office], between, message.tail(source));
    }
}

/// The ballot becomes the path that the tail makes after the message's log, if this extends the ballot's path.
/// `between` is the settled log from the end of the message's log on.
fn adopt(ballot: &mut Ballot, between: &[u32], mut tail: impl ExactSizeIterator<Item = u32>) {
    if tail.len() <= between.len() + ballot.len {
        return;
    }
    let known = between.iter().chain(ballot.tail());
    if !known.zip(&mut tail).all(|(&ours, theirs)| ours == theirs) {
        return;
    }
    for value in tail {
        ballot.cells[ballot.len] = value;
        ballot.len += 1;
    }
}

/// Notes the sender's settled length, if none of its messages had a longer one.
fn note(record: &mut Record, message: &Message) {
    let noted = &mut record.noted[message.sender];
    *noted = message.settled().max(*noted);
}
