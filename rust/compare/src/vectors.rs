//! Version vectors: what is written to outputs of any length, and how the log and the paths stand to random and damaged
//! vectors, compared.

use second::archive::{compare_vector, write_vectors, COUNT_SIZE as COUNT, PATHS};
use second::random::Random;
use second::record::{Record, OFFICES};
use second::samples::{any_vector, Sample};

use crate::alike::{same, same_lent, Lent};
use crate::engine;
use crate::samples::Family;

/// Most bytes of an office's vectors.
const MOST: usize = COUNT * OFFICES * PATHS;

/// Writes the vectors into outputs of lengths around theirs; answers the number.
pub fn write(random: &mut Random, record: &Record, log: &[u32]) -> Result<u32, String> {
    let n = record.n.min(OFFICES);
    let whole = COUNT * n * (n + 1);
    let (any, near) = (random.below(MOST + 100), whole.saturating_sub(random.below(COUNT * n + 1)));
    let length = random.pick(&[whole, whole, whole + 1, whole.saturating_sub(1), 0, near, any, MOST]);
    let mut output = Lent::new(&vec![random.bits() as u8; length]);
    let mut engine_output = output.clone();
    let engine = engine::write_vectors(record, log, engine_output.part_mut());
    let answer = write_vectors(record, log, output.part_mut());
    same(&format!("vectors into {length} bytes"), engine, answer)?;
    same_lent("the vectors' output", &engine_output, &output)?;
    Ok(answer.0)
}

/// Compares the standings to the bytes; answers the number and the standings, each as a number.
fn compare(record: &Record, log: &[u32], bytes: &[u8]) -> Result<(u32, [u32; PATHS]), String> {
    let (number, standings) = compare_vector(record, log, bytes);
    let answer = (number, standings.map(|standing| standing as u32));
    same(&format!("standings to {bytes:02X?}"), engine::compare_vector(record, log, bytes), answer)?;
    Ok(answer)
}

/// A vector near those of the record, with as many offices as there may be.
fn near(random: &mut Random, record: &Record, log: &[u32]) -> Vec<u8> {
    let record = Record { n: record.n.clamp(1, OFFICES), ..*record };
    any_vector(random, &Sample { record, log: log.to_vec() })
}

/// The standings to a vector near those of the record, at times with a bit changed or bytes more or fewer, or to any
/// bytes.
pub fn any(random: &mut Random, record: &Record, log: &[u32]) -> Result<(u32, [u32; PATHS]), String> {
    let mut bytes = near(random, record, log);
    let at = random.below(bytes.len());
    match random.below(16) {
        0 if !bytes.is_empty() => bytes[at] ^= 1 << random.below(8),
        1 if !bytes.is_empty() => drop(bytes.remove(at)),
        2 => bytes.insert(at, random.pick(&[0, 1, 4])),
        3 => bytes.iter_mut().for_each(|byte| *byte = random.bits() as u8),
        4 => bytes = vec![0; random.below(MOST + 1)],
        _ => {}
    }
    compare(record, log, &bytes)
}

/// Each length of a vector up to those of all paths together, and each value of each byte of one.
pub fn compare_layouts(random: &mut Random) -> Result<(), String> {
    let family = Family::new(random);
    let own = family.office(random);
    let Sample { record, log } = family.sample(random, own);
    let mut vectors = vec![0; MOST];
    write_vectors(&record, &log, &mut vectors);
    for length in 0..=MOST {
        compare(&record, &log, &vectors[..length])?;
    }
    let vector = &vectors[..COUNT * record.n];
    for at in 0..vector.len() {
        for value in 0..=u8::MAX {
            let mut other = vector.to_vec();
            other[at] = value;
            compare(&record, &log, &other)?;
        }
    }
    Ok(())
}
