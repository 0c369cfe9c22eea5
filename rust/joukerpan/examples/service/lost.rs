//! A message worked in, and what became of the supervisor's edits by it.

use joukerpan::{Office, Outcome, Refused};

/// Takes the message and elects. The outcome names the own edits, and moves of weight, that are lost by it, the oldest
/// first: the service tells its supervisor, or issues them again.
pub fn hear(office: &mut Office, message: &[u8]) -> Result<Outcome, Refused> {
    Ok(office.take(message)?.then(office.elect()))
}
