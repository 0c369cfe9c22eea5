//! The deepest stack of each of the engine's calls, measured on a painted stack of its own.

use std::arch::asm;
use std::hint::black_box;
use std::io::{stdout, Result, Write};
use std::mem::transmute;

use joukerpan_sys as engine;
use joukerpan_sys::{
    Compared, Earlier, Elected, Folded, Foreseen, Founded, Framed, Issued, Lines, Part, Sent, Sheet, Taken, Tallied,
    Told, Weights, Written, COUNT, HOUSEHOLD,
};
use second::message::LONGEST;
use second::random::Random;
use second::record::{LOG, OFFICES, TAIL};
use second::samples::Sample;

use crate::benchmark::{state, Ballots, Entries, State};
use crate::engine::to_engine;
use crate::samples::{any_sample, Family};

/// Words of the painted stack.
const WORDS: usize = 1 << 14;
const PAINT: u64 = 0x9E37_79B9_7F4A_7C15;
/// Random samples that each call is tried on, beside the largest ones.
const SAMPLES: usize = 3000;

type Log = (*const u32, usize);

/// The calls, or functions that return at once: what these use is the caller's, for arguments and answer.
struct Calls {
    found: unsafe extern "C" fn(usize, usize, Weights, *const u32, usize) -> Founded,
    sound: unsafe extern "C" fn(engine::Record, *const u32, usize) -> bool,
    issue: unsafe extern "C" fn(engine::Record, *const u32, usize, u32, u32) -> Issued,
    settled: unsafe extern "C" fn(engine::Record, *const u32, usize) -> Part,
    all_lines: unsafe extern "C" fn(engine::Record, *const u32, usize) -> Lines,
    settled_frame: unsafe extern "C" fn(engine::Record, *const u32, usize, u32) -> Framed,
    tentative_frame: unsafe extern "C" fn(engine::Record, *const u32, usize, u32) -> Framed,
    elect: unsafe extern "C" fn(engine::Record, *mut u32, usize) -> Elected,
    send: unsafe extern "C" fn(engine::Record, *const u32, usize, *mut u8, usize) -> Sent,
    take: unsafe extern "C" fn(engine::Record, *mut u32, usize, *const u8, usize) -> Taken,
    sheet: unsafe extern "C" fn(engine::Record, *const u32, usize, *const u8, usize) -> Sheet,
    fold: unsafe extern "C" fn(engine::Record, *mut u32, usize) -> Folded,
    frame_at: unsafe extern "C" fn(engine::Record, *const u32, usize, u64, *const u32, usize) -> Earlier,
    write_vectors: unsafe extern "C" fn(engine::Record, *const u32, usize, *mut u8, usize) -> Written,
    compare_vector: unsafe extern "C" fn(engine::Record, *const u32, usize, *const u8, usize) -> Compared,
    forecast: unsafe extern "C" fn(engine::Record, *const u32, usize, Weights, Weights) -> Foreseen,
    outcome: unsafe extern "C" fn(engine::Record, engine::Record, *const u32, usize, *mut u32, usize) -> Told,
    standing: unsafe extern "C" fn(engine::Record, *const u32, usize) -> Tallied,
}

extern "C" fn nothing() {}

impl Calls {
    fn of_the_engine() -> Calls {
        Calls {
            found: engine::joukerpan_found,
            sound: engine::joukerpan_sound,
            issue: engine::joukerpan_issue,
            settled: engine::joukerpan_settled,
            all_lines: engine::joukerpan_all_lines,
            settled_frame: engine::joukerpan_settled_frame,
            tentative_frame: engine::joukerpan_tentative_frame,
            elect: engine::joukerpan_elect,
            send: engine::joukerpan_send,
            take: engine::joukerpan_take,
            sheet: engine::joukerpan_sheet,
            fold: engine::joukerpan_fold,
            frame_at: engine::joukerpan_frame_at,
            write_vectors: engine::joukerpan_write_vectors,
            compare_vector: engine::joukerpan_compare_vector,
            forecast: engine::joukerpan_forecast,
            outcome: engine::joukerpan_outcome,
            standing: engine::joukerpan_standing,
        }
    }

    #[allow(clippy::missing_transmute_annotations)]
    fn empty() -> Calls {
        let nothing = nothing as extern "C" fn();
        // SAFETY: by the C convention a function may be called with arguments that it does not read, and
        // the answers are forgotten unread.
        unsafe {
            Calls {
                found: transmute(nothing),
                sound: transmute(nothing),
                issue: transmute(nothing),
                settled: transmute(nothing),
                all_lines: transmute(nothing),
                settled_frame: transmute(nothing),
                tentative_frame: transmute(nothing),
                elect: transmute(nothing),
                send: transmute(nothing),
                take: transmute(nothing),
                sheet: transmute(nothing),
                fold: transmute(nothing),
                frame_at: transmute(nothing),
                write_vectors: transmute(nothing),
                compare_vector: transmute(nothing),
                forecast: transmute(nothing),
                outcome: transmute(nothing),
                standing: transmute(nothing),
            }
        }
    }
}

/// All that the calls are handed.
struct Input {
    sample: Sample,
    message: Vec<u8>,
    output: Vec<u8>,
}

impl Input {
    fn log(&self) -> Log {
        (self.sample.log.as_ptr(), self.sample.log.len())
    }
}

type Call = (&'static str, fn(&Calls, &mut Input));

/// Forgets an answer that may not have been written.
fn forget<T>(answer: std::mem::MaybeUninit<T>) {
    black_box(answer.as_ptr());
}

/// Makes a call and forgets its answer.
macro_rules! call {
    ($function:expr, $($argument:expr),*) => {{
        // SAFETY: the pointers name the input's buffers, which nothing else uses during the call.
        let answer = unsafe { std::mem::MaybeUninit::new(black_box($function)($($argument),*)) };
        forget(answer)
    }};
}

const CALLS: [Call; 18] = [
    ("found", |calls, input| {
        let (log, length) = input.log();
        call!(calls.found, 3, 0, Weights { of: [1; OFFICES] }, log, length)
    }),
    ("sound", |calls, input| {
        let (log, length) = input.log();
        // A bool that is not written may be no bool, so its bits are not looked at.
        // SAFETY: as in `call!`.
        let sound: unsafe extern "C" fn(engine::Record, *const u32, usize) -> u64 = unsafe { transmute(calls.sound) };
        call!(sound, to_engine(&input.sample.record), log, length)
    }),
    ("issue", |calls, input| {
        let (log, length) = input.log();
        call!(calls.issue, to_engine(&input.sample.record), log, length, 5, 120)
    }),
    ("settled", |calls, input| {
        let (log, length) = input.log();
        call!(calls.settled, to_engine(&input.sample.record), log, length)
    }),
    ("all lines", |calls, input| {
        let (log, length) = input.log();
        call!(calls.all_lines, to_engine(&input.sample.record), log, length)
    }),
    ("settled frame", |calls, input| {
        let (log, length) = input.log();
        call!(calls.settled_frame, to_engine(&input.sample.record), log, length, 5)
    }),
    ("tentative frame", |calls, input| {
        let (log, length) = input.log();
        call!(calls.tentative_frame, to_engine(&input.sample.record), log, length, 5)
    }),
    ("elect", |calls, input| {
        let log = &mut input.sample.log;
        call!(calls.elect, to_engine(&input.sample.record), log.as_mut_ptr(), log.len())
    }),
    ("send", |calls, input| {
        let (log, length) = input.log();
        let output = &mut input.output;
        call!(calls.send, to_engine(&input.sample.record), log, length, output.as_mut_ptr(), output.len())
    }),
    ("take", |calls, input| {
        let log = &mut input.sample.log;
        let message = &input.message;
        let record = to_engine(&input.sample.record);
        call!(calls.take, record, log.as_mut_ptr(), log.len(), message.as_ptr(), message.len())
    }),
    ("sheet", |calls, input| {
        let (log, length) = input.log();
        let bytes = ALL_LINES;
        call!(calls.sheet, to_engine(&input.sample.record), log, length, bytes.as_ptr(), bytes.len())
    }),
    ("fold", |calls, input| {
        let log = &mut input.sample.log;
        call!(calls.fold, to_engine(&input.sample.record), log.as_mut_ptr(), log.len())
    }),
    ("earlier frame", |calls, input| {
        let ((log, length), lines, p) = (input.log(), NAMED, input.sample.record.settled);
        call!(calls.frame_at, to_engine(&input.sample.record), log, length, p, lines.as_ptr(), lines.len())
    }),
    ("write vectors", |calls, input| {
        let (log, length) = input.log();
        let output = &mut input.output;
        call!(calls.write_vectors, to_engine(&input.sample.record), log, length, output.as_mut_ptr(), output.len())
    }),
    ("compare vector", |calls, input| {
        let (log, length) = input.log();
        let bytes = &ALL_LINES[..COUNT * input.sample.record.n.min(OFFICES)];
        call!(calls.compare_vector, to_engine(&input.sample.record), log, length, bytes.as_ptr(), bytes.len())
    }),
    ("forecast", |calls, input| {
        let ((log, length), bound) = (input.log(), Weights { of: input.sample.record.present });
        call!(calls.forecast, to_engine(&input.sample.record), log, length, bound, bound)
    }),
    ("outcome", |calls, input| {
        let ((log, length), record) = (input.log(), to_engine(&input.sample.record));
        let mut rest = [0; TAIL];
        call!(calls.outcome, record, record, log, length, rest.as_mut_ptr(), rest.len())
    }),
    ("standing", |calls, input| {
        let (log, length) = input.log();
        call!(calls.standing, to_engine(&input.sample.record), log, length)
    }),
];

/// Every line of the frame.
const NAMED: &[u32] = &{
    let mut lines = [0; 64];
    let mut line = 0;
    while line < 64 {
        lines[line] = line as u32;
        line += 1;
    }
    lines
};

/// A household of each line.
const ALL_LINES: &[u8] = &{
    let mut bytes = [0; 64 * HOUSEHOLD];
    let mut line = 0;
    while line < 64 {
        let at = HOUSEHOLD * line;
        (bytes[at], bytes[at + 1], bytes[at + 2], bytes[at + 6]) = (0x48, 0x52, line as u8, 1);
        line += 1;
    }
    bytes
};

/// What runs on the painted stack.
struct Job<'a> {
    call: fn(&Calls, &mut Input),
    calls: &'a Calls,
    input: &'a mut Input,
}

extern "C" fn run(job: &mut Job) {
    (job.call)(job.calls, job.input)
}

/// Bytes of the painted stack that the job writes.
fn depth(paint: &mut [u64], job: &mut Job) -> usize {
    paint.fill(PAINT);
    let run = run as extern "C" fn(&mut Job);
    // SAFETY: the stack is the painted memory while `run` runs, and its end is aligned as a call wants it;
    // `run` returns, since nothing in it unwinds; r12 is kept by it and has the former stack.
    unsafe {
        let top = paint.as_mut_ptr().add(WORDS);
        asm!(
            "xchg rsp, r12",
            "call r13",
            "mov rsp, r12",
            inout("r12") top => _,
            in("r13") run,
            in("rdi") job,
            clobber_abi("C"),
        );
    }
    let untouched = paint.iter().position(|&word| word != PAINT).expect("the job writes its return address");
    8 * (WORDS - untouched)
}

/// The largest inputs there are, and random ones.
fn inputs() -> Vec<Input> {
    let mut random = Random::new(1);
    let mut inputs = vec![];
    for (settled, ballots) in [(992, Ballots::FULL), (992, Ballots::Apart), (0, Ballots::FULL), (LOG, Ballots::EMPTY)] {
        for entries in [Entries::Edits, Entries::Moves] {
            let of = State { settled, entries, ballots };
            let message = state(of, 1).message();
            inputs.push(Input { sample: state(of, 0), message: message.clone(), output: vec![0; LONGEST] });
            inputs.push(Input { sample: state(State::FOUNDED, 0), message, output: vec![0; 20] });
        }
    }
    for _ in 0..SAMPLES {
        let family = Family::new(&mut random);
        let message = family.sample(&mut random, 0).message();
        let own = family.office(&mut random);
        let sample = if random.percent(90) { family.sample(&mut random, own) } else { any_sample(&mut random) };
        inputs.push(Input { sample, message, output: vec![0; LONGEST] });
    }
    inputs
}

/// Prints the deepest stack of each call; says whether all are within the painted stack.
pub fn print() -> Result<bool> {
    let mut output = stdout().lock();
    let mut paint = vec![PAINT; WORDS];
    let mut inputs = inputs();
    let (engine, empty) = (Calls::of_the_engine(), Calls::empty());
    writeln!(output, "| Call | Stack of the engine, bytes | With arguments and answer, bytes |")?;
    writeln!(output, "|---|---:|---:|")?;
    let mut deepest = 0;
    for (name, call) in CALLS {
        let mut whole = 0;
        let mut own = 0;
        for input in &mut inputs {
            let base = depth(&mut paint, &mut Job { call, calls: &empty, input });
            let all = depth(&mut paint, &mut Job { call, calls: &engine, input });
            whole = whole.max(all);
            own = own.max(all - base);
        }
        deepest = deepest.max(whole);
        writeln!(output, "| {name} | {own} | {whole} |")?;
    }
    writeln!(output, "\ndeepest: {deepest} bytes")?;
    Ok(deepest < 8 * WORDS)
}
