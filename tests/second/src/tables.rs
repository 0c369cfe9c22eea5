//! Every small ballot sheet: all tables of three offices whose tails have at most two entries, each with line 0 and
//! code 0, and what is elected from each.

use std::io::{Read, Result, Write};

use crate::calls::found;
use crate::elect::elect;
use crate::lines::{each_line, numbers_of, LINE};
use crate::random::Random;
use crate::record::{entry, office_of, Ballot, DONE, LOG, OFFICES};

/// Offices of a table.
const VOTERS: usize = 3;

/// Three tails.
pub type Table = [Vec<u32>; VOTERS];

/// The tails of at most two entries: shorter ones first, then by values.
pub fn tails() -> Vec<Vec<u32>> {
    let entries: Vec<u32> = (0..VOTERS).map(|office| entry(office, 0, 0)).collect();
    let one = entries.iter().map(|&first| vec![first]);
    let two = entries.iter().flat_map(|&first| entries.iter().map(move |&second| vec![first, second]));
    std::iter::once(vec![]).chain(one).chain(two).collect()
}

/// All tables, by office 0's tail, then 1's, then 2's.
pub fn tables() -> Vec<Table> {
    let tails = tails();
    let mut tables = vec![];
    for first in &tails {
        for second in &tails {
            for third in &tails {
                tables.push([first.clone(), second.clone(), third.clone()]);
            }
        }
    }
    tables
}

/// The entries that elect settles from an empty log; the number if founding refuses the weights.
pub fn elected(weights: [u16; VOTERS], table: &Table) -> std::result::Result<Vec<u32>, u32> {
    let mut all = [0; OFFICES];
    all[..VOTERS].copy_from_slice(&weights);
    let mut log = [0; LOG];
    let (number, mut record) = found(VOTERS, 0, all, &log);
    if number != DONE {
        return Err(number);
    }
    for (ballot, tail) in record.ballots.iter_mut().zip(table) {
        *ballot = Ballot::of(tail);
    }
    let (_, count, _) = elect(record, &mut log);
    Ok(log[..count].to_vec())
}

/// The entries' office digits, or a dash.
fn spelled(entries: &[u32]) -> String {
    if entries.is_empty() {
        return "-".into();
    }
    entries.iter().map(|&word| office_of(word).to_string()).collect()
}

/// The weights on the input, if it is one line of three numbers.
fn read_weights(input: impl Read) -> Result<Option<[u16; VOTERS]>> {
    let mut lines = vec![];
    each_line(input, |line| {
        // A second line is enough to know that there is one.
        if lines.len() < 2 {
            lines.push(line.to_vec());
        }
        Ok(())
    })?;
    let [line] = &lines[..] else {
        return Ok(None);
    };
    let mut numbers = [0; VOTERS];
    let count = numbers_of(line, u16::MAX.into(), &mut numbers);
    Ok((line.len() <= LINE && count == Some(VOTERS)).then_some(numbers.map(|number| number as u16)))
}

/// Prints every table with what is elected from it, by the weights on the input.
pub fn print_tables(input: impl Read, mut output: impl Write) -> Result<()> {
    let Some(weights) = read_weights(input)? else {
        return output.write_all(b"?\n");
    };
    let mut text = String::new();
    for table in tables() {
        match elected(weights, &table) {
            Ok(settled) => {
                let [first, second, third] = table.map(|tail| spelled(&tail));
                text += &format!("{first} {second} {third} {}\n", spelled(&settled));
            }
            Err(number) => {
                text = format!("{number}\n");
                break;
            }
        }
    }
    output.write_all(text.as_bytes())?;
    output.flush()
}

/// An input for the program: weights of every kind, now and then something else.
pub fn input(seed: u64) -> Vec<u8> {
    let mut random = Random::new(seed);
    let level = random.within(1, 60);
    let any = |random: &mut Random| match random.below(8) {
        0 => random.below(65_536),
        1 => random.pick(&[65_535, 65_534, 32_768, 1]),
        2 => 0,
        3..=5 => level,
        _ => random.within(0, 100),
    };
    let weights = [any(&mut random), any(&mut random), any(&mut random)];
    let line = weights.map(|weight| weight.to_string()).join(" ");
    let text = match random.below(12) {
        0 => line,
        1 => random.pick(&["", "\n", "0 0 0\n", "0 0 0", " 1 1 1\n", "1 1\n", "1 1 1 1\n", "1  1 1\n"]).into(),
        2 => {
            random.pick(&["01 1 1\n", "1 1 65536\n", "1 1 1 \n", "1 1 1\r\n", "a 1 1\n", "1\t1 1\n", "-1 1 1\n"]).into()
        }
        3 => format!("{line}\n\n"),
        4 => format!("{line}\n{line}"),
        _ => format!("{line}\n"),
    };
    text.into_bytes()
}
