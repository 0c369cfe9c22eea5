//! An office in a file that always holds a whole one.

use std::fs::{self, File};
use std::io::{self, ErrorKind, Write};
use std::path::Path;

use joukerpan::Office;

/// Stores the office: writes beside the file, syncs, renames, and syncs the folder that has the name.
/// Send and show nothing of the office before this has returned; where it fails, stop the office.
pub fn store(office: &Office, file: &Path) -> io::Result<()> {
    let beside = file.with_extension("new");
    let mut new = File::create(&beside)?;
    new.write_all(&office.to_bytes())?;
    new.sync_all()?;
    fs::rename(&beside, file)?;
    let folder = file.parent().filter(|folder| *folder != Path::new("")).unwrap_or(Path::new("."));
    File::open(folder)?.sync_all()
}

/// The office that was stored last. A file that is missing or damaged is an error, and the office is
/// not founded again: its number has voted.
pub fn stored(file: &Path) -> io::Result<Office> {
    Office::from_bytes(&fs::read(file)?).map_err(|unreadable| io::Error::new(ErrorKind::InvalidData, unreadable))
}
