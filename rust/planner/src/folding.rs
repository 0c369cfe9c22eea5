//! Folding (request (xiv)), the one place that knows of it: what the rest of the simulator asks of an office's log,
//! whose first entries go once every office is known to have them. Everything else counts by whole lengths.

use joukerpan::{Office, Outcome, Refused};

/// Drops what every office is known to have; answers how many entries went.
pub fn fold(office: &mut Office) -> usize {
    places(office.fold().dropped)
}

/// How many entries the office has dropped so far.
pub fn dropped(office: &Office) -> usize {
    places(office.dropped())
}

/// The length of the office's settled log, dropped entries included.
pub fn whole_length(office: &Office) -> usize {
    places(office.settled_length())
}

fn places(count: u64) -> usize {
    usize::try_from(count).expect("a run settles few entries")
}

/// The office takes a message of another one. That its log ends inside what is dropped here is old news: all of it
/// is known, and nothing changes.
pub fn take(office: &mut Office, message: &[u8]) -> Outcome {
    match office.take(message) {
        Ok(outcome) => outcome,
        Err(Refused::EndsInside) => Outcome::default(),
        Err(refused) => unreachable!("a sent message of another office is taken: {refused}"),
    }
}

/// The entries that the office has settled since it was as it was before.
pub fn news(before: &Office, after: &Office) -> Vec<u32> {
    after.settled()[whole_length(before) - dropped(after)..].to_vec()
}

/// The path of an office's ballot as this office knows it, from that place of the whole order on. No earlier part of
/// it may be asked for than this office still has.
pub fn path(office: &Office, of: usize, from: usize) -> Vec<u32> {
    let ballot = &office.record().ballots[of];
    [&office.settled()[from - dropped(office)..], &ballot.cells[..ballot.len]].concat()
}

#[cfg(test)]
mod tests {
    use joukerpan::{Office, Refused};

    use super::{dropped, fold, news, path, take, whole_length};

    /// Two offices of which the first decides; it has settled two edits, and both have them.
    fn offices() -> [Office; 2] {
        let [mut here, mut there] = [0, 1].map(|own| Office::found(own, &[2, 1]).unwrap());
        here.issue(5, 120).unwrap();
        here.issue(6, 130).unwrap();
        here.elect();
        take(&mut there, &here.message());
        take(&mut here, &there.message());
        [here, there]
    }

    #[test]
    fn what_both_have_is_dropped_and_still_counted() {
        let [mut here, mut there] = offices();
        assert_eq!((fold(&mut here), dropped(&here), whole_length(&here)), (2, 2, 2));
        take(&mut there, &here.message());
        assert_eq!((dropped(&there), whole_length(&there)), (2, 2));
    }

    #[test]
    fn news_and_paths_count_from_the_whole_order() {
        let [mut here, mut there] = offices();
        let before = there.clone();
        fold(&mut here);
        here.issue(7, 140).unwrap();
        here.elect();
        here.issue(8, 150).unwrap();
        take(&mut there, &here.message());
        assert_eq!(news(&before, &there), here.settled());
        assert_eq!(path(&there, 0, 2), [here.settled(), &[here.pending()[0].value()]].concat());
        assert_eq!(path(&before, 0, 2), []);
    }

    #[test]
    fn an_old_message_is_old_news() {
        let old = Office::found(1, &[2, 1]).unwrap().message();
        let [mut here, _] = offices();
        fold(&mut here);
        let before = here.clone();
        assert_eq!(here.clone().take(&old), Err(Refused::EndsInside));
        take(&mut here, &old);
        assert!(here == before);
    }
}
