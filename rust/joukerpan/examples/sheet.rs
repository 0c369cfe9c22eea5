//! A household sheet: reads household records from a file and prints class and total, a line each; `-` for the
//! class of the households that no one has coded.
//!
//!     sheet OFFICE HOUSEHOLDS     an office as it was stored (`Office::to_bytes`), and a file of records
//!     sheet                       an office and a file of its own making
//!
//! A file that takes more than one piece to read shows how far it is on standard error.

use std::error::Error;
use std::fs::{self, File};
use std::io::{self, Read};
use std::path::{Path, PathBuf};
use std::{env, process};

use joukerpan::{Household, Office};

/// Bytes that are read at a time.
const PIECE: u64 = 1 << 20;

/// The bytes of a file.
fn read(file: &Path) -> io::Result<Vec<u8>> {
    let mut input = File::open(file)?;
    let length = input.metadata()?.len();
    let mut bytes = Vec::new();
    while input.by_ref().take(PIECE).read_to_end(&mut bytes)? > 0 {
        if length > PIECE {
            eprint!("\rread {} of {} bytes", bytes.len(), length);
        }
    }
    if length > PIECE {
        eprintln!();
    }
    Ok(bytes)
}

/// An office that has settled four lines, and a file of 300,000 households.
fn own_making(folder: &Path) -> Result<(Office, PathBuf), Box<dyn Error>> {
    let mut office = Office::found(0, &[1])?;
    for (line, code) in [(5, 120), (6, 130), (7, 120), (8, 0)] {
        office.issue(line, code)?;
    }
    office.elect();
    let households: Vec<Household> =
        (0..300_000).map(|i| Household { line: 5 + (i % 5) as u8, weight: i % 1000 }).collect();
    let file = folder.join("households");
    fs::write(&file, Household::to_bytes(&households))?;
    Ok((office, file))
}

fn print(office: &Office, households: &Path) -> Result<(), Box<dyn Error>> {
    for row in &office.sheet(&read(households)?)? {
        match row.class {
            Some(code) => println!("{code} {}", row.total),
            None => println!("- {}", row.total),
        }
    }
    Ok(())
}

fn main() -> Result<(), Box<dyn Error>> {
    let arguments: Vec<PathBuf> = env::args_os().skip(1).map(PathBuf::from).collect();
    if let [office, households] = &arguments[..] {
        return print(&Office::from_bytes(&fs::read(office)?)?, households);
    }
    let folder = env::temp_dir().join(format!("joukerpan-sheet-{}", process::id()));
    fs::create_dir_all(&folder)?;
    let (office, households) = own_making(&folder)?;
    let printed = print(&office, &households);
    fs::remove_dir_all(&folder)?;
    printed
}
