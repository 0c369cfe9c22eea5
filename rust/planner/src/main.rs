//! The planner's desk: what weights and message intervals do to a survey's edits, before it starts.
//!
//! Every simulated office is the proved engine's; docs/PLANNING.md of the repository says what a planner learns.

mod chart;
mod dice;
mod exchange;
mod folding;
mod ledger;
mod measures;
mod paper;
mod plots;
mod rehearsal;
mod settings;
mod simulation;
mod svg;
mod table;
mod world;

use std::path::{Path, PathBuf};
use std::process::ExitCode;

use measures::measure;
use settings::Settings;

/// Runs to a point of a plot.
const PLOT_RUNS: u64 = 20;

const USAGE: &str = "\
planner run [SETTING]... [vs SETTING...]...   simulates; a row of the table for each: the first settings, then
                                              these with the changes after each vs
planner paper [NUMBER]...                     source document 001's experiment; numbers: offices=8 chance=70 until=20
                                              hot=2 hotshare=90 tokenshare=95 pass=50 runs=1000 seed=1
planner plots FOLDER [RUNS]                   writes the plots of docs/PLANNING.md, so many runs to a point
planner picture SCRIPT                        a rehearsal script as a picture, SVG
planner pictures FOLDER                       draws every script of the folder, NAME.txt, as NAME.svg beside it
planner answers SCRIPT                        what the rehearsal program answers to it
";

fn main() -> ExitCode {
    let words: Vec<String> = std::env::args().skip(1).collect();
    let words: Vec<&str> = words.iter().map(String::as_str).collect();
    let done = match words.split_first() {
        Some((&"run", settings)) => simulate(settings),
        Some((&"paper", numbers)) => experiment(numbers),
        Some((&"answers", [script])) => read(script).map(|bytes| rehearsal::answers(&bytes)),
        Some((&"picture", [script])) => picture(Path::new(script)),
        Some((&"pictures", [folder])) => pictures(folder),
        Some((&"plots", [folder])) => plot(folder, PLOT_RUNS),
        Some((&"plots", [folder, runs])) => match runs.parse() {
            Ok(runs @ 1..) => plot(folder, runs),
            _ => Err(format!("not a number of runs: {runs}")),
        },
        _ => Err(format!("{USAGE}\nsettings, with what they are if not named:\n{}", settings::HELP)),
    };
    match done {
        Ok(text) => {
            print!("{text}");
            ExitCode::SUCCESS
        }
        Err(why) => {
            eprintln!("{why}");
            ExitCode::from(2)
        }
    }
}

/// The table of the settings that the words name.
fn simulate(words: &[&str]) -> Result<String, String> {
    let groups: Vec<&[&str]> = words.split(|word| *word == "vs").collect();
    let mut base = Settings::default();
    groups[0].iter().try_for_each(|word| base.set(word))?;
    let mut rows = Vec::new();
    for (place, group) in groups.iter().enumerate() {
        let mut settings = base.clone();
        if place > 0 {
            group.iter().try_for_each(|word| settings.set(word))?;
        }
        settings.check()?;
        let name = if group.is_empty() { "as it is".to_string() } else { group.join(" ") };
        rows.push((settings, name));
    }
    let rows: Vec<_> = rows.into_iter().map(|(settings, name)| (name.clone(), measure(&settings, &name))).collect();
    Ok(table::table(&rows))
}

/// The table of the source document's experiment.
fn experiment(words: &[&str]) -> Result<String, String> {
    let mut parameters = paper::Parameters::default();
    words.iter().try_for_each(|word| parameters.set(word))?;
    Ok(paper::table(&parameters))
}

fn read(file: impl AsRef<Path>) -> Result<Vec<u8>, String> {
    let file = file.as_ref();
    std::fs::read(file).map_err(|error| format!("{}: {error}", file.display()))
}

fn write(file: &Path, text: &str) -> Result<String, String> {
    std::fs::write(file, text).map_err(|error| format!("{}: {error}", file.display()))?;
    Ok(format!("{}\n", file.display()))
}

/// The picture of a rehearsal script, named by its file.
fn picture(file: &Path) -> Result<String, String> {
    let name = file.file_stem().map_or("".into(), |stem| stem.to_string_lossy());
    Ok(rehearsal::drawn(&name, &read(file)?))
}

/// Draws each script of the folder, NAME.txt, as NAME.svg beside it; answers the pictures' names.
fn pictures(folder: &str) -> Result<String, String> {
    let entries = std::fs::read_dir(folder).map_err(|error| format!("{folder}: {error}"))?;
    let mut scripts: Vec<PathBuf> = entries.filter_map(|entry| Some(entry.ok()?.path())).collect();
    scripts.retain(|file| file.extension().is_some_and(|ending| ending == "txt"));
    scripts.sort();
    scripts.iter().map(|script| write(&script.with_extension("svg"), &picture(script)?)).collect()
}

/// Writes every plot to the folder; answers their names.
fn plot(folder: &str, runs: u64) -> Result<String, String> {
    plots::PLOTS.iter().map(|(name, chart)| write(&Path::new(folder).join(name), &chart(runs).draw())).collect()
}
