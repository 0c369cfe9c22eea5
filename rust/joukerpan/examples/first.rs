//! Three offices; office 0 edits line 5, office 2 hears of it and settles it.

use joukerpan::{Office, Refused};

fn main() -> Result<(), Refused> {
    let weights = [40, 35, 25];
    let mut office0 = Office::found(0, &weights)?;
    let mut office2 = Office::found(2, &weights)?;

    office0.issue(5, 120)?;
    let message = office0.message(); // bytes, for the service to carry

    office2.take(&message)?;
    let count = office2.elect().grown;
    match office2.settled_frame(5)? {
        Some(code) => println!("settled {count}, line 5 is {code}"),
        None => println!("settled {count}, line 5 has no edit yet"),
    }
    Ok(())
}
