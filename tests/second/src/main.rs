//! The program around the second implementation.

use std::fs::read;
use std::io::{stdin, stdout, Error, ErrorKind, Result, Write};
use std::path::PathBuf;
use std::process::ExitCode;

use second::rehearsal::rehearse;
use second::shrink::{program_differs, shrink};
use second::survey::survey;
use second::tables::{self, print_tables};
use second::trial::trial;
use second::{generate, trials};

const USAGE: &str = "usage:
  second rehearse < SCRIPT                  answer a rehearsal script
  second generate KIND SEED LINES           write one: mixed contested moves ties tails long relays
                                            malformed everything
  second survey < SCRIPT                    count what it shows
  second trial < SCRIPT                     answer a trial script
  second generate-trials KIND SEED COUNT    write one: boundaries elections takes damaged random sheets earlier
                                            vectors forecasts folds
  second tables < WEIGHTS                   print every small ballot table with what is elected from it
  second generate-tables SEED               write weights, now and then something else
  second shrink rehearse|trial FILE PROGRAM ARGUMENT…
                                            the least of the script in FILE that PROGRAM answers otherwise";

/// An error about the arguments.
fn wrong(what: &str) -> Error {
    Error::new(ErrorKind::InvalidInput, format!("{what}\n{USAGE}"))
}

/// The number that an argument spells.
fn number(word: &str) -> Result<u64> {
    word.parse().map_err(|_| wrong(&format!("{word} is not a number")))
}

/// What this program answers to a script.
fn answers(language: &str, script: &[u8]) -> Result<Vec<u8>> {
    let mut output = vec![];
    match language {
        "rehearse" => rehearse(script, &mut output)?,
        "trial" => trial(script, &mut output)?,
        _ => return Err(wrong("no such language")),
    }
    Ok(output)
}

/// The least of the script in the file that the program answers otherwise.
fn shrunk(language: &str, file: &str, program: &[&str]) -> Result<Vec<u8>> {
    let script = read(file)?;
    let part = PathBuf::from(format!("{file}.part"));
    let differs = |script: &[u8]| program_differs(program, script, &answers(language, script)?, &part);
    if !differs(&script)? {
        return Err(wrong("there is no difference"));
    }
    shrink(&script, differs)
}

/// What the words ask for, on the output.
fn run(words: &[&str]) -> Result<()> {
    let mut output = stdout().lock();
    let text = match *words {
        ["rehearse"] => return rehearse(stdin().lock(), output),
        ["trial"] => return trial(stdin().lock(), output),
        ["tables"] => return print_tables(stdin().lock(), output),
        ["generate-tables", seed] => Some(tables::input(number(seed)?)),
        ["survey"] => return survey(stdin().lock(), output),
        ["generate", kind, seed, lines] => generate::script(kind, number(seed)?, number(lines)? as usize),
        ["generate-trials", kind, seed, count] => trials::script(kind, number(seed)?, number(count)? as usize),
        ["shrink", language, file, ref program @ ..] => Some(shrunk(language, file, program)?),
        _ => return Err(wrong("no such command")),
    };
    output.write_all(&text.ok_or_else(|| wrong("no such kind"))?)?;
    output.flush()
}

fn main() -> ExitCode {
    let words: Vec<String> = std::env::args().skip(1).collect();
    let words: Vec<&str> = words.iter().map(String::as_str).collect();
    match run(&words) {
        Ok(()) => ExitCode::SUCCESS,
        // Whoever read the output has gone: nothing is left to say.
        Err(error) if error.kind() == ErrorKind::BrokenPipe => ExitCode::FAILURE,
        Err(error) => {
            eprintln!("second: {error}");
            ExitCode::from(2)
        }
    }
}
