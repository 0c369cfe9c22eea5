//! A rehearsal (document 01): its script read, played on the engine, and drawn.

mod notes;
mod picture;
mod play;
mod script;

use play::Stage;

/// The answers that the rehearsal program prints for the script.
pub fn answers(script: &[u8]) -> String {
    let mut stage = Stage::default();
    script::lines(script).iter().map(|line| stage.play(line).answer + "\n").collect()
}

/// The script as a picture.
pub fn drawn(name: &str, script: &[u8]) -> String {
    let mut stage = Stage::default();
    let turns: Vec<play::Turn> = script::lines(script).iter().map(|line| stage.play(line)).collect();
    picture::draw(name, &turns)
}
