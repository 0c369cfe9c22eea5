//! The engine beside the second implementation on bytes that libFuzzer chooses by what the second implementation does
//! with them: messages, households and version vectors (tests/fuzz).
//!
//! The first byte of an input chooses the call (take, household sheet or standings to a vector) and the second one the
//! office (`offices`); the others are handed over. The engine gets them, its log and its output in memory that ends at a
//! page which nobody may touch.

use std::cell::RefCell;
use std::ffi::c_int;
use std::fmt::Debug;
use std::slice;

use compare::alike::same;
use compare::engine;
use second::archive::{compare_vector, write_vectors};
use second::elect::elect;
use second::fold::fold;
use second::message::{send, LONGEST};
use second::record::{sound, Record, DONE, LINES, LOG};
use second::samples::Sample;
use second::sheet::{sheet, Row};
use second::take::take;

mod guarded;
mod mutate;
pub mod offices;

use guarded::Guarded;
use offices::{offices, Office};

/// Most bytes that are handed over.
const MOST: usize = 1 << 16;
/// Most words of a log.
const WORDS: usize = 2 * LOG;

/// The offices, and the memory that the engine is lent.
struct Desk {
    offices: Vec<Sample>,
    bytes: Guarded<u8>,
    log: Guarded<u32>,
    output: Guarded<u8>,
}

/// The number and count that a call answers, with the record.
type Answer<C> = (u32, C, Record);

/// Says where two buffers part, if they do.
fn same_all<T: Copy + PartialEq + Debug>(what: &str, engine: &[T], second: &[T]) -> Result<(), String> {
    match engine.iter().zip(second).position(|(ours, theirs)| ours != theirs) {
        None => same(what, engine.len(), second.len()),
        Some(at) => same(&format!("{what} at {at}"), engine[at], second[at]),
    }
}

/// Says where two answers or the logs that they leave part, if they do.
fn same_state<C: PartialEq + Debug>(
    call: &str,
    (engine, engine_log): (Answer<C>, &[u32]),
    (second, log): (Answer<C>, &[u32]),
) -> Result<(), String> {
    same(&format!("{call}'s numbers"), (engine.0, engine.1), (second.0, second.1))?;
    same(&format!("{call}'s record"), engine.2, second.2)?;
    same_all(&format!("{call}'s log"), engine_log, log)
}

impl Desk {
    fn new() -> Desk {
        let offices: Vec<Sample> = offices().iter().map(Office::sample).collect();
        assert!(offices.iter().all(|office| sound(&office.record, &office.log)), "an office is sound");
        Desk { offices, bytes: Guarded::new(MOST), log: Guarded::new(WORDS), output: Guarded::new(LONGEST) }
    }

    /// Hands the call that the input chooses its bytes.
    fn call(&mut self, input: &[u8]) -> Result<(), String> {
        let [call, office, bytes @ ..] = input else { return Ok(()) };
        let office = usize::from(*office) % self.offices.len();
        let bytes = &bytes[..bytes.len().min(MOST)];
        match call % 3 {
            0 => self.take(office, bytes),
            1 => self.sheet(office, bytes),
            _ => self.compare_vector(office, bytes),
        }
    }

    /// Takes the message, and goes on with the office that has taken it: writes, elects and folds.
    fn take(&mut self, office: usize, message: &[u8]) -> Result<(), String> {
        let Sample { record, mut log } = self.offices[office].clone();
        let lent = self.log.lend(&log);
        let engine = engine::take(&record, lent, self.bytes.lend(message));
        let answer = take(record, &mut log, message);
        same_state("take", (engine, lent), (answer, &log))?;
        if answer.0 != DONE {
            return Ok(());
        }
        self.write(&answer.2, &log)?;
        let lent = self.log.lend(&log);
        let engine = engine::elect(&answer.2, lent);
        let answer = elect(answer.2, &mut log);
        same_state("elect", (engine, lent), (answer, &log))?;
        let lent = self.log.lend(&log);
        let engine = engine::fold(&answer.2, lent);
        let answer = fold(answer.2, &mut log);
        same_state("fold", (engine, lent), (answer, &log))
    }

    /// Writes the message and the version vectors, each into an output of just its length and into one that is shorter.
    fn write(&mut self, record: &Record, log: &[u32]) -> Result<(), String> {
        let mut output = [0; LONGEST];
        let lengths = [send(record, log, &mut output).1, write_vectors(record, log, &mut output).1];
        for length in lengths.into_iter().flat_map(|length| [length, length.saturating_sub(1)]) {
            output.fill(0xA5);
            let (output, log) = (&mut output[..length], &*self.log.lend(log));
            let lent = self.output.lend(output);
            same("send", engine::send(record, log, lent), send(record, log, output))?;
            same_all("send's output", lent, output)?;
            same("vectors", engine::write_vectors(record, log, lent), write_vectors(record, log, output))?;
            same_all("the vectors' output", lent, output)?;
        }
        Ok(())
    }

    fn sheet(&mut self, office: usize, households: &[u8]) -> Result<(), String> {
        let Sample { record, log } = &self.offices[office];
        let engine = engine::sheet(record, self.log.lend(log), self.bytes.lend(households));
        let (number, mut rows) = sheet(record, log, households);
        let count = rows.len();
        rows.resize(LINES as usize, Row { class: None, total: 0 });
        same("sheet", engine, (number, count, rows))
    }

    fn compare_vector(&mut self, office: usize, vector: &[u8]) -> Result<(), String> {
        let Sample { record, log } = &self.offices[office];
        let engine = engine::compare_vector(record, self.log.lend(log), self.bytes.lend(vector));
        let (number, standings) = compare_vector(record, log, vector);
        same("standings", engine, (number, standings.map(|standing| standing as u32)))
    }
}

thread_local! {
    static DESK: RefCell<Desk> = RefCell::new(Desk::new());
}

/// What libFuzzer calls: hands an input to both, and where their answers part says so and aborts.
///
/// # Safety
///
/// The pointer names that many bytes.
#[no_mangle]
#[allow(non_snake_case)]
pub unsafe extern "C" fn LLVMFuzzerTestOneInput(data: *const u8, size: usize) -> c_int {
    let input = if size == 0 { &[] } else { slice::from_raw_parts(data, size) };
    if let Err(difference) = DESK.with_borrow_mut(|desk| desk.call(input)) {
        eprintln!("{difference}");
        std::process::abort();
    }
    0
}
