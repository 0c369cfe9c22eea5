//! The shortest script that still shows a difference.

use std::fs::{remove_file, write, File};
use std::io::{Error, Result};
use std::path::Path;
use std::process::{Command, Stdio};

/// Lines of the script that are all needed: without any one of them the difference is gone.
/// The script as it stands is taken to show it.
pub fn shrink(script: &[u8], mut differs: impl FnMut(&[u8]) -> Result<bool>) -> Result<Vec<u8>> {
    let mut lines: Vec<&[u8]> = script.split_inclusive(|&byte| byte == b'\n').collect();
    lines.truncate(shortest_beginning(&lines, &mut differs)?);
    let mut piece = lines.len().div_ceil(2);
    while piece > 0 {
        let before = lines.len();
        drop_pieces(&mut lines, piece, &mut differs)?;
        if piece > 1 {
            piece = piece.div_ceil(2).min(lines.len().max(1));
        } else if lines.len() == before {
            piece = 0;
        }
    }
    Ok(lines.concat())
}

/// How many lines the shortest beginning has that shows the difference.
fn shortest_beginning(lines: &[&[u8]], differs: &mut impl FnMut(&[u8]) -> Result<bool>) -> Result<usize> {
    let (mut without, mut with) = (0, lines.len());
    while with - without > 1 {
        let middle = without + (with - without) / 2;
        if differs(&lines[..middle].concat())? {
            with = middle;
        } else {
            without = middle;
        }
    }
    Ok(with)
}

/// Leaves out, from the back to the front, each piece of this many lines that isn't needed.
fn drop_pieces(lines: &mut Vec<&[u8]>, piece: usize, differs: &mut impl FnMut(&[u8]) -> Result<bool>) -> Result<()> {
    let mut end = lines.len();
    while end > 0 {
        let start = end.saturating_sub(piece);
        let rest = [&lines[..start], &lines[end..]].concat();
        if differs(&rest.concat())? {
            *lines = rest;
        }
        end = start;
    }
    Ok(())
}

/// Whether the program fails on the script, or answers otherwise than expected. The script is handed over in a file.
pub fn program_differs(program: &[&str], script: &[u8], expected: &[u8], file: &Path) -> Result<bool> {
    let (&name, arguments) = program.split_first().ok_or_else(|| Error::other("no program"))?;
    write(file, script)?;
    let output = Command::new(name).args(arguments).stdin(File::open(file)?).stderr(Stdio::null()).output()?;
    remove_file(file)?;
    Ok(!output.status.success() || output.stdout != expected)
}
