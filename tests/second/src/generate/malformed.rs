//! Lines of every improper form, among proper ones.

use super::{histories, weights, Script};
use crate::random::Random;

/// Lines that are improper as they stand, or that have a place that isn't there.
const FIXED: [&[u8]; 52] = [
    b"",
    b" ",
    b"?",
    b"f",
    b"f ",
    b"f 03 1",
    b"f 3 01",
    b"f 3 40 35 25 ",
    b"f  3 40 35 25",
    b" f 3 40 35 25",
    b"f 3  40 35 25",
    b"f 3 40 35 65536",
    b"f 65536 1",
    b"f 8 1 2 3 4 5 6 7 8 9",
    b"f 1 1 0 0 0 0 0 0 0 0",
    b"f 3 40 35 25\r",
    b"f\t3 40 35 25",
    b"f 3 40 35 25\0",
    b"f 3 40,35,25",
    b"F 3 40 35 25",
    b"i",
    b"i 0",
    b"i 0 5",
    b"i 0 5 120 1",
    b"i 0 5 0120",
    b"i 00 5 120",
    b"i 0 5 -1",
    b"i 0 5 +1",
    b"i 0 5 1e2",
    b"i 0 5 99999",
    b"i 0 5 18446744073709551616",
    b"i 0 5 4294967296",
    b"i 8 5 120",
    b"i 255 5 120",
    b"i 256 5 120",
    b"i0 5 120",
    b"ii 0 5 120",
    b"s 0",
    b"s 0 4",
    b"s 8 0",
    b"s 0 0 0",
    b"s 0 256",
    b"t 0",
    b"t 0 4",
    b"t 65535 0",
    b"t 0 0\0",
    b"e",
    b"e 0 0",
    b"e 9",
    b"v 0",
    b"v 0 5 5",
    b"v 0 \xFF",
];

/// Proper lines to be damaged.
const PROPER: [&[u8]; 7] =
    [b"f 3 40 35 25", b"f 8 1 2 3 4 5 6 7 8", b"i 0 5 120", b"s 0 1", b"t 1 0", b"e 0", b"v 0 63"];

/// Lengths around the limit and far beyond.
const LENGTHS: [usize; 9] = [55, 56, 126, 127, 128, 129, 130, 300, 10_000];

/// Calls before a done `f`, refused foundings, and improper lines in between.
pub(super) fn malformed(script: &mut Script) {
    if script.n() == 0 {
        for line in [&b"i 0 5 120"[..], b"s 0 0", b"t 0 0", b"e 0", b"v 0 5", b"f 3", b"f 0", b"f 9 1", b"e 0"] {
            script.say(line);
        }
    }
    if script.random.percent(70) {
        let n = script.random.within(1, 8);
        let given = weights(&mut script.random, n);
        script.found(&given);
    }
    for _ in 0..script.random.within(10, 60) {
        let line = improper(&mut script.random);
        script.say(&line);
        proper(script);
    }
    if script.random.percent(30) {
        histories::contested(script);
    }
}

/// One proper call, if there are offices; its office or slot may not be there.
fn proper(script: &mut Script) {
    let random = &mut script.random;
    let (office, slot) = (random.below(9), random.below(5));
    match random.below(6) {
        0 => script.call('i', &[office, slot, 7]),
        1 => script.call('s', &[office, slot]),
        2 => script.call('t', &[office, slot]),
        3 => script.call('e', &[office]),
        4 => script.call('v', &[office, slot]),
        _ => {}
    }
}

/// A line that is most likely improper.
fn improper(random: &mut Random) -> Vec<u8> {
    match random.below(6) {
        0 | 1 => random.pick(&FIXED).to_vec(),
        2 | 3 => damaged(random),
        4 => stretched(random),
        _ => (0..random.below(40)).map(|_| any_byte(random)).collect(),
    }
}

/// Any byte but a newline.
fn any_byte(random: &mut Random) -> u8 {
    match random.below(256) as u8 {
        b'\n' => b' ',
        byte => byte,
    }
}

/// A proper line with one byte changed, left out or put in.
fn damaged(random: &mut Random) -> Vec<u8> {
    let mut line = random.pick(&PROPER).to_vec();
    let at = random.below(line.len());
    let byte = random.pick(b" 0159fistev\r\t\0?-.\x80");
    match random.below(4) {
        0 => line[at] = byte,
        1 => line[at] = any_byte(random),
        2 => line.insert(at, byte),
        _ => drop(line.remove(at)),
    }
    line
}

/// A proper line made this long by spaces, digits, zeros or anything.
fn stretched(random: &mut Random) -> Vec<u8> {
    let mut line = random.pick(&PROPER).to_vec();
    let length = random.pick(&LENGTHS);
    let filler = random.pick(b" 0159f\0");
    if random.percent(50) {
        line.resize(length.max(line.len()), filler);
        return line;
    }
    while line.len() < length {
        line.extend_from_slice(b" 1");
    }
    line.truncate(length);
    line
}
