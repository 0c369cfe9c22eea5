//! Calls that came later: earlier places, version vectors, forecasts, what supervisors are told, folding.

use std::hint::black_box;

use joukerpan_sys as engine;
use joukerpan_sys::{Weights, VECTORS_MAX};
use second::record::{LINES, LOG, OFFICES, TAIL};
use second::samples::Sample;

use super::states::{doubled, state, State, WEIGHTS};
use super::{call, Call, Case};
use crate::by_value;
use crate::engine::to_engine;

/// Calls that only read: all lines as of the last place, and a forecast.
fn reading_cases(of: State, cases: &mut Vec<Case>) {
    let Sample { record, log } = state(of, 0);
    let proved = to_engine(&record);
    let logs = || (log.clone(), log.clone(), log.clone());
    let mut case = |call: &str, engine: Call, second: Call, by_value: Call| {
        cases.push(Case { call: call.into(), state: of, engine, second, by_value });
    };
    let lines: [u32; LINES as usize] = std::array::from_fn(|line| line as u32);
    let ((a, b, c), p) = (logs(), record.settled);
    case(
        "earlier frame, 64 lines",
        call!(p => unsafe {
            engine::joukerpan_frame_at(*black_box(&proved), a.as_ptr(), LOG, p, lines.as_ptr(), lines.len())
        }),
        call!(p => second::earlier::earlier(black_box(&record), &b, p, &lines)),
        call!(p => unsafe { by_value::frame_at(*black_box(&record), c.as_ptr(), LOG, p, lines.as_ptr(), lines.len()) }),
    );
    let ((a, b, c), of) = (logs(), WEIGHTS);
    case(
        "forecast",
        call!(of => unsafe {
            engine::joukerpan_forecast(*black_box(&proved), a.as_ptr(), LOG, Weights { of }, Weights { of })
        }),
        call!(of => second::forecast::forecast(black_box(&record), &b, of, of)),
        call!(of => unsafe { by_value::forecast(*black_box(&record), c.as_ptr(), LOG, Weights { of }, Weights { of }) }),
    );
}

/// Version vectors written, and one compared.
fn vector_cases(of: State, cases: &mut Vec<Case>) {
    let Sample { record, log } = state(of, 0);
    let proved = to_engine(&record);
    let logs = || (log.clone(), log.clone(), log.clone());
    let mut case = |call: &str, engine: Call, second: Call, by_value: Call| {
        cases.push(Case { call: call.into(), state: of, engine, second, by_value });
    };
    let (a, b, c) = logs();
    let (mut d, mut e, mut f) = (vec![0; VECTORS_MAX], vec![0; VECTORS_MAX], vec![0; VECTORS_MAX]);
    case(
        "write vectors",
        call!(unsafe {
            engine::joukerpan_write_vectors(*black_box(&proved), a.as_ptr(), LOG, d.as_mut_ptr(), d.len())
        }),
        call!(second::archive::write_vectors(black_box(&record), &b, black_box(&mut e))),
        call!(unsafe { by_value::write_vectors(*black_box(&record), c.as_ptr(), LOG, f.as_mut_ptr(), f.len()) }),
    );
    let ((a, b, c), vector) = (logs(), [1; VECTORS_MAX / (OFFICES + 1)]);
    case(
        "compare vector",
        call!(unsafe {
            engine::joukerpan_compare_vector(*black_box(&proved), a.as_ptr(), LOG, vector.as_ptr(), vector.len())
        }),
        call!(second::archive::compare_vector(black_box(&record), &b, black_box(&vector))),
        call!(unsafe { by_value::compare_vector(*black_box(&record), c.as_ptr(), LOG, vector.as_ptr(), vector.len()) }),
    );
}

/// How the next place stands; and what became of the own entries by an election, which settles all of a full tail.
fn told_cases(of: State, cases: &mut Vec<Case>) {
    let Sample { record, log } = state(of, 0);
    let proved = to_engine(&record);
    let mut case = |call: &str, engine: Call, second: Call, by_value: Call| {
        cases.push(Case { call: call.into(), state: of, engine, second, by_value });
    };
    let (a, b, c) = (log.clone(), log.clone(), log.clone());
    case(
        "standing",
        call!(unsafe { engine::joukerpan_standing(*black_box(&proved), a.as_ptr(), LOG) }),
        call!(second::standing::standing(black_box(&record), &b)),
        call!(unsafe { by_value::standing(*black_box(&record), c.as_ptr(), LOG) }),
    );
    let mut log = log;
    let (_, _, after) = second::elect::elect(record, &mut log);
    let elected = to_engine(&after);
    let (a, b, c) = (log.clone(), log.clone(), log);
    let (mut d, mut e, mut f) = ([0; TAIL], [0; TAIL], [0; TAIL]);
    case(
        "outcome",
        call!(unsafe {
            let (before, after) = (*black_box(&proved), *black_box(&elected));
            engine::joukerpan_outcome(before, after, a.as_ptr(), LOG, d.as_mut_ptr(), TAIL)
        }),
        call!(second::outcome::outcome(black_box(&record), black_box(&after), &b, &mut e)),
        call!(unsafe {
            let (before, after) = (*black_box(&record), *black_box(&after));
            by_value::outcome(before, after, c.as_ptr(), LOG, f.as_mut_ptr(), TAIL)
        }),
    );
}

/// The calls that only read.
pub fn further_cases(of: State, cases: &mut Vec<Case>) {
    reading_cases(of, cases);
    vector_cases(of, cases);
    told_cases(of, cases);
}

/// A fold that drops half of the log, one that drops nothing, and a take whose sender has dropped half of it. The words
/// of the log are the same after every call.
pub fn folding_cases(of: State, cases: &mut Vec<Case>) {
    let Sample { record, log } = doubled(of, 0);
    let proved = to_engine(&record);
    let mut case = |call: &str, engine: Call, second: Call, by_value: Call| {
        cases.push(Case { call: call.into(), state: of, engine, second, by_value });
    };
    let (mut a, mut b, mut c) = (log.clone(), log.clone(), log.clone());
    case(
        "fold, half of the log",
        call!(unsafe { engine::joukerpan_fold(*black_box(&proved), a.as_mut_ptr(), LOG) }),
        call!(second::fold::fold(*black_box(&record), &mut b)),
        call!(unsafe { by_value::fold(*black_box(&record), c.as_mut_ptr(), LOG) }),
    );
    let message = doubled(of, 1).without(of.settled / 2).message();
    let (mut a, mut b, mut c) = (log.clone(), log.clone(), log);
    let (d, e, f) = (message.clone(), message.clone(), message);
    case(
        "take, half dropped by it",
        call!(unsafe { engine::joukerpan_take(*black_box(&proved), a.as_mut_ptr(), LOG, d.as_ptr(), d.len()) }),
        call!(second::take::take(*black_box(&record), &mut b, black_box(&e))),
        call!(unsafe { by_value::take(*black_box(&record), c.as_mut_ptr(), LOG, f.as_ptr(), f.len()) }),
    );
    let Sample { record, log } = doubled(of, 0).without(of.settled / 2);
    let proved = to_engine(&record);
    let (mut a, mut b, mut c) = (log.clone(), log.clone(), log);
    case(
        "fold, nothing, half dropped before",
        call!(unsafe { engine::joukerpan_fold(*black_box(&proved), a.as_mut_ptr(), LOG) }),
        call!(second::fold::fold(*black_box(&record), &mut b)),
        call!(unsafe { by_value::fold(*black_box(&record), c.as_mut_ptr(), LOG) }),
    );
}
