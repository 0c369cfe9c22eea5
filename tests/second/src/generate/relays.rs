//! Messages that relay stations repeat and swap: one history three times over, as it is, with each message delivered
//! twice, and with each pair of messages in the other order.

use super::histories::{call, Habit, CONTEST};
use super::Script;

/// One such history of few offices.
pub(super) fn relays(script: &mut Script) {
    let start = script.written();
    let n = script.random.within(2, 5);
    let level = script.random.within(1, 50);
    let given: Vec<usize> = (0..n).map(|_| script.random.pick(&[level, level, 2 * level])).collect();
    script.found(&given);
    let habit = Habit { lines: 3, moves: script.random.pick(&[0, 20]), ..CONTEST };
    for _ in 0..script.random.within(5, 30) {
        for _ in 0..script.random.below(8) {
            call(script, &habit);
        }
        pair(script);
    }
    let lines = script.lines_since(start);
    for line in &lines {
        let times = if is_take(line) { 2 } else { 1 };
        (0..times).for_each(|_| script.say(line));
    }
    swapped(&lines).iter().for_each(|line| script.say(line));
}

/// Two offices send, one of them the other's message too now and then, and a third takes both.
fn pair(script: &mut Script) {
    let (first, second, receiver) = (script.office(), script.office(), script.office());
    let (slot, other) = (script.slot(), script.slot());
    script.call('s', &[first, slot]);
    if script.random.percent(30) {
        script.call('t', &[second, slot]);
    }
    script.call('s', &[second, other]);
    script.call('t', &[receiver, slot]);
    script.call('t', &[receiver, other]);
    if script.random.percent(50) {
        script.call('e', &[receiver]);
    }
}

fn is_take(line: &[u8]) -> bool {
    line.starts_with(b"t ")
}

/// The lines, where two takes of one office that follow each other are in the other order.
fn swapped(lines: &[Vec<u8>]) -> Vec<Vec<u8>> {
    let mut lines = lines.to_vec();
    let mut at = 0;
    while at + 1 < lines.len() {
        // The letter, a space and the office's digit.
        let pair = is_take(&lines[at]) && lines[at].get(..3) == lines[at + 1].get(..3);
        if pair {
            lines.swap(at, at + 1);
        }
        at += if pair { 2 } else { 1 };
    }
    lines
}
