//! Writes the inputs that tests/fuzz begins with: `fuzz FOLDER`.

use std::io::{Error, Result};
use std::path::Path;

use second::archive::{write_vectors, COUNT_SIZE};
use second::record::LINES;
use second::samples::Sample;
use second::sheet::household;

mod offices;

use offices::offices;

/// The vectors of the settled log and of the last path.
fn vectors(sample: &Sample) -> [Vec<u8>; 2] {
    let size = COUNT_SIZE * sample.record.n;
    let mut vectors = vec![0; size * (1 + sample.record.n)];
    write_vectors(&sample.record, &sample.log, &mut vectors);
    [&vectors[..size], &vectors[vectors.len() - size..]].map(<[u8]>::to_vec)
}

/// A household of each fourth line from this one on.
fn households(first: usize) -> Vec<u8> {
    (first as u8..LINES as u8).step_by(4).flat_map(|line| household(line, u32::from(line) << 24 | 1)).collect()
}

fn main() -> Result<()> {
    let folder = std::env::args().nth(1).ok_or_else(|| Error::other("usage: fuzz FOLDER"))?;
    for (at, office) in offices().iter().enumerate() {
        let sample = office.sample();
        let inputs =
            [("take", office.messages()), ("sheet", vec![households(at)]), ("vector", vectors(&sample).to_vec())];
        for (call, (name, inputs)) in inputs.into_iter().enumerate() {
            for (number, bytes) in inputs.into_iter().enumerate() {
                let input = [vec![call as u8, at as u8], bytes].concat();
                std::fs::write(Path::new(&folder).join(format!("{name}-{at}-{number}")), input)?;
            }
        }
    }
    Ok(())
}
