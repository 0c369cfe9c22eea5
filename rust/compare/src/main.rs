//! The proved engine beside the second implementation, call by call.

use std::io::{Error, ErrorKind, Result};
use std::process::ExitCode;

use compare::{alike, engine};

mod benchmark;
mod breaks;
mod by_value;
mod calls;
mod earlier;
mod folded;
mod forecasts;
mod forge;
mod households;
mod samples;
mod sheets;
mod soak;
mod stack;
mod tally;
mod told;
mod vectors;

const USAGE: &str = "usage:
  compare calls SEED ROUNDS     random records, logs, messages and outputs; stops at the first difference
  compare benchmark             times of both, as a Markdown table
  compare households            times of the household sheet alone
  compare stack                 deepest stack of each of the engine's calls
  compare soak SEED EDITS       eight offices that fold, restart and hear each other badly, until so many edits are made";

/// An error about the arguments.
fn wrong(what: &str) -> Error {
    Error::new(ErrorKind::InvalidInput, format!("{what}\n{USAGE}"))
}

/// The number that an argument spells.
fn number(word: &str) -> Result<u64> {
    word.parse().map_err(|_| wrong(&format!("{word} is not a number")))
}

/// Runs a command; says whether it was all as it should be.
fn run(words: &[&str]) -> Result<bool> {
    match *words {
        ["calls", seed, rounds] => calls::compare(number(seed)?, number(rounds)?),
        ["benchmark"] => benchmark::print().map(|()| true),
        ["households"] => households::print(&mut std::io::stdout().lock()).map(|()| true),
        ["stack"] => stack::print(),
        ["soak", seed, edits] => soak::run(number(seed)?, number(edits)?),
        _ => Err(wrong("no such command")),
    }
}

fn main() -> ExitCode {
    let words: Vec<String> = std::env::args().skip(1).collect();
    let words: Vec<&str> = words.iter().map(String::as_str).collect();
    match run(&words) {
        Ok(true) => ExitCode::SUCCESS,
        Ok(false) => ExitCode::FAILURE,
        // Whoever read the output has gone: nothing is left to say.
        Err(error) if error.kind() == ErrorKind::BrokenPipe => ExitCode::FAILURE,
        Err(error) => {
            eprintln!("compare: {error}");
            ExitCode::from(2)
        }
    }
}
