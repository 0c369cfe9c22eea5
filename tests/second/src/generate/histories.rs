//! Rounds of calls at freshly founded offices.

use super::{weights, Script};
use crate::record::{part, CODES, LINES, LOG, OFFICES};

/// How often each call is made, in parts of their sum, and what is issued.
pub(super) struct Habit {
    pub(super) issue: usize,
    pub(super) send: usize,
    pub(super) take: usize,
    pub(super) elect: usize,
    pub(super) view: usize,
    /// Lines that are edited.
    pub(super) lines: usize,
    /// Codes that are given.
    pub(super) codes: usize,
    /// How many in a hundred issues and views are outside the limits.
    pub(super) outside: usize,
    /// How many in a hundred issues move weight.
    pub(super) moves: usize,
}

const PLAIN: Habit =
    Habit { issue: 25, send: 20, take: 35, elect: 12, view: 8, lines: 64, codes: 10_000, outside: 3, moves: 0 };

pub(super) const CONTEST: Habit =
    Habit { issue: 18, send: 24, take: 40, elect: 14, view: 4, lines: 2, codes: 4, outside: 0, moves: 0 };

/// Makes one call. Slots are few, so that messages are taken late, twice or never.
pub(super) fn call(script: &mut Script, habit: &Habit) {
    let Habit { issue, send, take, elect, view, .. } = *habit;
    let (office, slot) = (script.office(), script.slot());
    let at = script.random.below(issue + send + take + elect + view);
    if at < issue {
        issue_one(script, office, habit);
    } else if at < issue + send {
        script.call('s', &[office, slot]);
    } else if at < issue + send + take {
        script.call('t', &[office, slot]);
    } else if at < issue + send + take + elect {
        script.call('e', &[office]);
    } else {
        let (line, _) = edit(script, habit);
        script.call('v', &[office, line]);
    }
}

/// A line and a code, some of them outside the limits.
fn edit(script: &mut Script, habit: &Habit) -> (usize, usize) {
    let random = &mut script.random;
    let (line, code) = (random.below(habit.lines), random.below(habit.codes));
    if !random.percent(habit.outside) {
        return (line, code);
    }
    match random.below(4) {
        0 | 1 => (random.pick(&[64, 65, 71, 72, 255, 256, 320, 65535]), code),
        2 => (line, random.pick(&[10_000, 10_001, 16_384, 65_535])),
        _ => (random.pick(&[63, 64]), random.pick(&[9999, 10_000])),
    }
}

/// A line and a code that move weight from the office, by its own record around what the move may be; seldom no move.
fn move_from(script: &mut Script, office: usize) -> (usize, usize) {
    let (first, second, present) = (script.office(), script.office(), script.present(office));
    let to = if first == office { second } else { first };
    let (has, room) = (present[office], usize::from(u16::MAX) - present[to]);
    let random = &mut script.random;
    let weight = random.pick(&[1, has / 3, has / 2, has, has + 1, room.min(has), has.min(room + 1)]);
    let (line, code) = (LINES as usize + to, weight.clamp(1, CODES as usize - 1));
    match random.below(50) {
        0 => (line, 0),
        1 => (LINES as usize + script.n(), code),
        _ => (line, code),
    }
}

fn issue_one(script: &mut Script, office: usize, habit: &Habit) {
    let moves = script.random.percent(habit.moves);
    let (line, code) = if moves { move_from(script, office) } else { edit(script, habit) };
    script.call('i', &[office, line, code]);
}

/// The office sends, and each other office takes, most of the time; now and then one takes again.
fn spread(script: &mut Script, sender: usize, percent: usize) {
    let slot = script.slot();
    script.call('s', &[sender, slot]);
    for office in 0..script.n() {
        if office != sender && script.random.percent(percent) {
            script.call('t', &[office, slot]);
            if script.random.percent(10) {
                script.call('t', &[office, slot]);
            }
        }
    }
}

/// Any number of offices, any weights, all calls; sometimes a founding that is refused.
pub(super) fn mixed(script: &mut Script) {
    let n = script.random.within(1, OFFICES);
    let mut given = weights(&mut script.random, n);
    script.found(&given);
    if script.random.percent(20) {
        match script.random.below(4) {
            0 => script.call('f', &[n]),
            1 => script.call('f', &[0, 1]),
            2 => script.call('f', &[9, 1, 1]),
            _ => {
                given.insert(0, n - 1);
                script.call('f', &given);
            }
        }
    }
    let few = script.random.percent(50);
    let habit = if few { Habit { lines: 3, codes: 9, ..PLAIN } } else { PLAIN };
    let habit = Habit { moves: script.random.pick(&[0, 0, 10, 50]), ..habit };
    for _ in 0..script.random.within(40, 400) {
        call(script, &habit);
    }
}

/// Few offices with level weights that edit the same one or two lines before they have heard of each other.
pub(super) fn contested(script: &mut Script) {
    let n = script.random.within(2, 4);
    let level = script.random.within(1, 50);
    let mut given = vec![level; n];
    if n > 2 && script.random.percent(30) {
        given[n - 1] = script.random.pick(&[0, 2 * level]);
    }
    script.found(&given);
    let habit = Habit { lines: script.random.within(1, 2), ..CONTEST };
    for _ in 0..script.random.within(2, 8) {
        contest(script, &habit);
    }
}

/// Most offices issue before they hear of each other; then most send.
fn contest(script: &mut Script, habit: &Habit) {
    for office in 0..script.n() {
        if script.random.percent(80) {
            issue_one(script, office, habit);
        }
    }
    for office in 0..script.n() {
        if script.random.percent(70) {
            spread(script, office, 70);
        }
    }
    for _ in 0..script.random.within(2, 15) {
        call(script, habit);
    }
}

/// Few offices move weight and edit one line, apart or behind each other's moves. Weights are level, uneven, or as
/// large as can be or nearly so.
pub(super) fn moves(script: &mut Script) {
    let n = script.random.within(2, 4);
    let level = script.random.pick(&[1, 2, 10, 50, 5000]);
    let given = match script.random.below(4) {
        0 | 1 => vec![level; n],
        2 => (1..n).map(|_| script.random.pick(&[level, 2 * level, 0])).chain([level]).collect(),
        _ => (0..n).map(|_| 65535 - script.random.below(3) * level).collect(),
    };
    script.found(&given);
    let habit = Habit { lines: 1, moves: script.random.pick(&[40, 70]), ..CONTEST };
    for _ in 0..script.random.within(2, 6) {
        contest(script, &habit);
        for _ in 0..2 {
            let office = script.office();
            for _ in 0..script.random.within(1, 3) {
                issue_one(script, office, &habit);
            }
            spread(script, office, 80);
        }
        let office = script.office();
        script.call('e', &[office]);
        spread(script, office, 80);
    }
}

/// Level offices edit apart, or behind an entry that all know, and hear each other out: every election is a tie.
/// In between one office's entries are settled in a row, so that logs grow long and counts part.
pub(super) fn ties(script: &mut Script) {
    let n = script.random.pick(&[2, 2, 3, 4]);
    let level = script.random.within(1, 50);
    script.found(&vec![level; n]);
    for _ in 0..script.random.within(5, 60) {
        if script.random.percent(50) {
            let office = script.office();
            for _ in 0..script.random.pick(&[1, 1, 1, 2, 3, 8, 17]) {
                issue_one(script, office, &CONTEST);
            }
            spread(script, office, 100);
        }
        if script.random.percent(75) {
            (0..n).for_each(|office| issue_one(script, office, &CONTEST));
            (0..n).for_each(|office| spread(script, office, 100));
        }
        let office = script.office();
        script.call('e', &[office]);
        spread(script, office, 100);
    }
}

/// Offices none of which can win alone fill their part of the tail. Others add behind it until each has its part.
pub(super) fn tails(script: &mut Script) {
    let n = script.random.pick(&[1, 2, 2, 3, 3, 4, 5, 6, 7, 8]);
    let level = script.random.within(1, 50);
    script.found(&vec![level; n]);
    let habit = Habit { moves: script.random.pick(&[0, 0, 30]), ..PLAIN };
    for _ in 0..script.random.within(2, 6) {
        let office = script.office();
        if script.random.percent(40) {
            relay(script, office, &habit);
        } else {
            let part = part(n);
            let length = script.random.pick(&[part - 3, part - 1, part, part + 1]);
            issue_often(script, office, &habit, length);
        }
        spread(script, office, 60);
        let second = script.office();
        if script.random.percent(40) {
            script.call('e', &[second]);
        }
        for _ in 0..script.random.below(5) {
            issue_one(script, second, &habit);
        }
        for _ in 0..script.random.within(1, 25) {
            call(script, &habit);
        }
    }
}

fn issue_often(script: &mut Script, office: usize, habit: &Habit, times: usize) {
    for _ in 0..times {
        issue_one(script, office, habit);
    }
}

/// Each office takes the tail from the one before it and fills its part behind it; most hear of what it became, and the
/// first tries once more.
fn relay(script: &mut Script, first: usize, habit: &Habit) {
    let n = script.n();
    let mut from = first;
    for office in (0..n).map(|step| (first + step) % n) {
        if office != first {
            let slot = script.slot();
            script.call('s', &[from, slot]);
            script.call('t', &[office, slot]);
        }
        let times = part(n) + script.random.pick(&[0, 0, 1]);
        issue_often(script, office, habit, times);
        from = office;
    }
    spread(script, from, 90);
    issue_one(script, first, habit);
}

/// One office outweighs the others: the log grows to its end, and the last entries are the office's part of a tail;
/// others catch up late and in long pieces. An office alone has only itself to move weight to.
pub(super) fn long(script: &mut Script) {
    let n = script.random.within(1, 3);
    let mut given = vec![1; n];
    given[0] = 10;
    script.found(&given);
    let (habit, part) = (Habit { moves: if n == 1 { 30 } else { 0 }, ..PLAIN }, part(n));
    let mut rounds = 0;
    while script.left > 0 && script.settled(0) < LOG && rounds < 400 {
        rounds += 1;
        let length = match (LOG - part).checked_sub(script.settled(0)) {
            Some(0) => part + 3,
            Some(missing) if missing <= part => missing,
            _ => script.random.pick(&[5, part / 2, part - 1, part, part, part + 1]),
        };
        for _ in 0..length {
            issue_one(script, 0, &habit);
        }
        if script.random.percent(30) {
            spread(script, 0, 50);
            let early = script.office();
            script.call('e', &[early]);
        }
        if script.random.percent(90) {
            script.call('e', &[0]);
        }
        for _ in 0..script.random.below(6) {
            call(script, &PLAIN);
        }
    }
    spread(script, 0, 100);
    for _ in 0..script.random.within(20, 60) {
        call(script, &PLAIN);
    }
}
