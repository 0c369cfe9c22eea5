//! Many lines as of an earlier place: the frame as it stood after the first p settled entries.

use crate::record::*;

/// Most lines that are named together.
pub const NAMED: usize = LINES as usize;

/// The stored code of each line named, in their order, as of place p, no edit yet past them; and how many words of the
/// log were read, backward from p until every line had its edit or all that is not dropped was read. Of a line with no
/// edit among these the kept code is given.
pub fn earlier(record: &Record, log: &[u32], p: u64, lines: &[u32]) -> (u32, usize, Codes) {
    let nothing = Record::ZERO.codes;
    if !sound(record, log) {
        return (UNSOUND, 0, nothing);
    }
    if lines.iter().any(|&line| line >= LINES) {
        return (NO_ENTRY, 0, nothing);
    }
    let kept = &record.kept;
    if !(kept.dropped..=record.settled).contains(&p) || lines.len() > NAMED {
        return (NO_PLACE, 0, nothing);
    }
    let (words, codes) = walk(&log[..(p - kept.dropped) as usize], lines, kept.codes);
    let answer = |at: usize| lines.get(at).map_or(0, |&line| codes[line as usize]);
    (DONE, words, std::array::from_fn(answer))
}

/// Walks the entries backward until each of the lines has its edit: how many were read, and the stored codes, in which
/// each of the lines has the one that it met.
fn walk(entries: &[u32], lines: &[u32], mut codes: Codes) -> (usize, Codes) {
    let mut missing = lines.iter().fold(0_u64, |named, &line| named | 1 << line);
    let mut words = 0;
    for &word in entries.iter().rev() {
        if missing == 0 {
            break;
        }
        words += 1;
        let line = line_of(word);
        if line < LINES && missing >> line & 1 == 1 {
            missing ^= 1 << line;
            codes[line as usize] = stored(Some(code_of(word)));
        }
    }
    (words, codes)
}
