//! The calls that are timed, on states of every size.

use std::hint::black_box;

use joukerpan_sys as engine;
use joukerpan_sys::Weights;
use second::calls as plain;
use second::message::LONGEST;
use second::record::{sound, stored, LINES, LOG, OFFICES, TAIL};
use second::samples::Sample;

use super::further::{folding_cases, further_cases};
use super::states::{state, Ballots, Entries, State, WEIGHTS};
use super::{call, Call, Case, ALL_LINES, LINE_BY_LINE};
use crate::by_value;
use crate::engine::to_engine;

/// Soundness, which every other call tests first.
fn sound_case(of: State, cases: &mut Vec<Case>) {
    let Sample { record, log } = state(of, 0);
    let proved = to_engine(&record);
    let (a, b, c) = (log.clone(), log.clone(), log);
    cases.push(Case {
        call: "sound".into(),
        state: of,
        engine: call!(unsafe { engine::joukerpan_sound(*black_box(&proved), a.as_ptr(), LOG) }),
        second: call!(sound(black_box(&record), &b)),
        by_value: call!(unsafe { by_value::sound(*black_box(&record), c.as_ptr(), LOG) }),
    });
}

/// The other calls that only read.
fn reading_cases(of: State, cases: &mut Vec<Case>) {
    let Sample { record, log } = state(of, 0);
    let proved = to_engine(&record);
    let logs = || (log.clone(), log.clone(), log.clone());
    let mut case = |call: &str, engine: Call, second: Call, by_value: Call| {
        cases.push(Case { call: call.into(), state: of, engine, second, by_value });
    };
    let (a, b, c) = logs();
    case(
        "settled",
        call!(unsafe { engine::joukerpan_settled(*black_box(&proved), a.as_ptr(), LOG) }),
        call!(plain::settled(black_box(&record), &b)),
        call!(unsafe { by_value::settled(*black_box(&record), c.as_ptr(), LOG) }),
    );
    let ((a, b, c), line) = (logs(), 5);
    case(
        "settled frame",
        call!(line => unsafe { engine::joukerpan_settled_frame(*black_box(&proved), a.as_ptr(), LOG, line) }),
        call!(line => plain::settled_frame(black_box(&record), &b, line)),
        call!(line => unsafe { by_value::settled_frame(*black_box(&record), c.as_ptr(), LOG, line) }),
    );
    let ((a, b, c), line) = (logs(), 63);
    case(
        "tentative frame, no entry",
        call!(line => unsafe { engine::joukerpan_tentative_frame(*black_box(&proved), a.as_ptr(), LOG, line) }),
        call!(line => plain::tentative_frame(black_box(&record), &b, line)),
        call!(line => unsafe { by_value::tentative_frame(*black_box(&record), c.as_ptr(), LOG, line) }),
    );
}

/// The settled frame whole: in one call, and by a call for each line.
fn all_lines_cases(of: State, cases: &mut Vec<Case>) {
    let Sample { record, log } = state(of, 0);
    let proved = to_engine(&record);
    let logs = || (log.clone(), log.clone(), log.clone());
    let mut case = |call: &str, engine: Call, second: Call, by_value: Call| {
        cases.push(Case { call: call.into(), state: of, engine, second, by_value });
    };
    let (a, b, c) = logs();
    case(
        ALL_LINES,
        call!(unsafe { engine::joukerpan_all_lines(*black_box(&proved), a.as_ptr(), LOG) }),
        call!(plain::settled_codes(black_box(&record), &b)),
        call!(unsafe { by_value::all_lines(*black_box(&record), c.as_ptr(), LOG) }),
    );
    let (a, b, c) = logs();
    case(
        LINE_BY_LINE,
        each_line(move |line| unsafe {
            let framed = engine::joukerpan_settled_frame(*black_box(&proved), a.as_ptr(), LOG, line);
            stored(framed.coded.then_some(framed.code))
        }),
        each_line(move |line| stored(plain::settled_frame(black_box(&record), &b, line).1)),
        each_line(move |line| unsafe { by_value::settled_frame(*black_box(&record), c.as_ptr(), LOG, line) }),
    );
}

/// A closure that makes the call for each line.
fn each_line(mut code: impl FnMut(u32) -> u32 + 'static) -> Call {
    Box::new(move || {
        for line in 0..LINES {
            black_box(code(black_box(line)));
        }
    })
}

/// Issue, which changes the record alone, and send.
fn writing_cases(of: State, cases: &mut Vec<Case>) {
    let Sample { record, log } = state(of, 0);
    let proved = to_engine(&record);
    let logs = || (log.clone(), log.clone(), log.clone());
    let mut case = |call: &str, engine: Call, second: Call, by_value: Call| {
        cases.push(Case { call: call.into(), state: of, engine, second, by_value });
    };
    let ((a, b, c), (line, code)) = (logs(), (5, 120));
    case(
        "issue",
        call!(line, code => unsafe { engine::joukerpan_issue(*black_box(&proved), a.as_ptr(), LOG, line, code) }),
        call!(line, code => plain::issue(*black_box(&record), &b, line, code)),
        call!(line, code => unsafe { by_value::issue(*black_box(&record), c.as_ptr(), LOG, line, code) }),
    );
    let (a, b, c) = logs();
    let (mut d, mut e, mut f) = (vec![0; LONGEST], vec![0; LONGEST], vec![0; LONGEST]);
    case(
        "send",
        call!(unsafe { engine::joukerpan_send(*black_box(&proved), a.as_ptr(), LOG, d.as_mut_ptr(), LONGEST) }),
        call!(second::message::send(black_box(&record), &b, black_box(&mut e))),
        call!(unsafe { by_value::send(*black_box(&record), c.as_ptr(), LOG, f.as_mut_ptr(), LONGEST) }),
    );
}

/// An election. Its words past the settled ones are the same after every call.
fn elect_case(of: State, cases: &mut Vec<Case>) {
    let Sample { record, log } = state(of, 0);
    let proved = to_engine(&record);
    let (mut a, mut b, mut c) = (log.clone(), log.clone(), log);
    cases.push(Case {
        call: "elect".into(),
        state: of,
        engine: call!(unsafe { engine::joukerpan_elect(*black_box(&proved), a.as_mut_ptr(), LOG) }),
        second: call!(second::elect::elect(*black_box(&record), &mut b)),
        by_value: call!(unsafe { by_value::elect(*black_box(&record), c.as_mut_ptr(), LOG) }),
    });
}

/// A take, from a sender of this state. Its words past the settled ones are the same after every call.
fn take_case(name: &str, receiver: State, sender: State, cases: &mut Vec<Case>) {
    let Sample { record, log } = state(receiver, 0);
    let proved = to_engine(&record);
    let (mut a, mut b, mut c) = (log.clone(), log.clone(), log);
    let message = state(sender, 1).message();
    let (d, e, f) = (message.clone(), message.clone(), message);
    cases.push(Case {
        call: format!("take, {name}"),
        state: sender,
        engine: call!(unsafe { engine::joukerpan_take(*black_box(&proved), a.as_mut_ptr(), LOG, d.as_ptr(), d.len()) }),
        second: call!(second::take::take(*black_box(&record), &mut b, black_box(&e))),
        by_value: call!(unsafe { by_value::take(*black_box(&record), c.as_mut_ptr(), LOG, f.as_ptr(), f.len()) }),
    });
}

/// Founding; nothing in it grows, and no record is handed over.
fn found_case(cases: &mut Vec<Case>) {
    let (a, b, c) = (vec![0; LOG], vec![0; LOG], vec![0; LOG]);
    let (n, own, of) = (OFFICES, 0, WEIGHTS);
    cases.push(Case {
        call: "found".into(),
        state: State::FOUNDED,
        engine: call!(n, own, of => unsafe { engine::joukerpan_found(n, own, Weights { of }, a.as_ptr(), LOG) }),
        second: call!(n, own, of => plain::found(n, own, of, &b)),
        by_value: call!(n, own, of => unsafe { by_value::found(n, own, Weights { of }, c.as_ptr(), LOG) }),
    });
}

/// Every call on this state, and takes from a sender of it.
fn all_cases(of: State, cases: &mut Vec<Case>) {
    sound_case(of, cases);
    reading_cases(of, cases);
    further_cases(of, cases);
    all_lines_cases(of, cases);
    writing_cases(of, cases);
    elect_case(of, cases);
    take_case("nothing new", of, of, cases);
    if of.settled > 0 || of.ballots == Ballots::FULL {
        take_case("all new", State::FOUNDED, of, cases);
    }
    if of.settled > 0 {
        folding_cases(of, cases);
    }
}

/// All cases, by their call.
pub fn cases() -> Vec<Case> {
    let mut cases = vec![];
    found_case(&mut cases);
    for entries in [Entries::Edits, Entries::Moves] {
        for ballots in [Ballots::EMPTY, Ballots::FULL] {
            for settled in [0, 256, LOG - ballots.entries()] {
                let of = State { settled, entries, ballots };
                if !(entries == Entries::Moves && of.is_empty()) {
                    all_cases(of, &mut cases);
                }
            }
        }
    }
    for each in [1, 2, 4, 8, 16, 24, 31] {
        sound_case(State { ballots: Ballots::Alike(each), ..State::FOUNDED }, &mut cases);
    }
    elect_case(State { settled: LOG - TAIL, ballots: Ballots::Apart, ..State::FOUNDED }, &mut cases);
    cases.retain(|case| case.is_shown());
    cases.sort_by(|a, b| a.call.cmp(&b.call));
    cases
}
