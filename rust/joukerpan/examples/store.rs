//! An office stored in a file and read back; a damaged file is refused.

#[path = "service/storage.rs"]
mod storage;

use std::error::Error;
use std::{env, fs, process};

use joukerpan::Office;
use storage::{store, stored};

fn main() -> Result<(), Box<dyn Error>> {
    let folder = env::temp_dir().join(format!("joukerpan-store-{}", process::id()));
    fs::create_dir_all(&folder)?;
    let file = folder.join("office-0");

    let mut office = Office::found(0, &[60, 40])?;
    office.issue(5, 120)?;
    office.elect();
    office.issue(5, 121)?;
    store(&office, &file)?; // now its frames may be shown and its message sent

    assert_eq!(stored(&file)?, office);
    let mut bytes = fs::read(&file)?;
    println!("{} bytes hold the office", bytes.len());

    bytes[11] = 9; // nine offices
    fs::write(&file, &bytes)?;
    println!("{}", stored(&file).expect_err("the check sum is another"));
    fs::remove_dir_all(&folder)?;
    Ok(())
}
