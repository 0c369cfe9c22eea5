//! Times of the household sheet: the engine's, an idiomatic one's, and a plain sum's over the same bytes.

use std::hint::black_box;
use std::io::{Result, Write};
use std::time::Instant;

use joukerpan_sys as engine;
use joukerpan_sys::{Row, HOUSEHOLD, HOUSEHOLDS};
use second::calls::settled_codes;
use second::record::{LINES, LOG};
use second::samples::Sample;

use crate::benchmark::{median, state, Ballots, Entries, State};
use crate::engine::to_engine;

/// Rounds of calls; their order changes from round to round.
const ROUNDS: usize = 61;

/// In which order the lines of the households come.
#[derive(Clone, Copy)]
enum Order {
    Mixed,
    Sorted,
}

/// The bytes of this many households; mixed ones by a generator of numbers (splitmix64).
fn households(count: usize, order: Order) -> Vec<u8> {
    let mut state = 22_u64;
    let mut bytes = Vec::with_capacity(HOUSEHOLD * count);
    for at in 0..count {
        state = state.wrapping_add(0x9E37_79B9_7F4A_7C15);
        let mut bits = (state ^ (state >> 30)).wrapping_mul(0xBF58_476D_1CE4_E5B9);
        bits = (bits ^ (bits >> 27)).wrapping_mul(0x94D0_49BB_1331_11EB);
        let line = match order {
            Order::Mixed => bits as u8 % LINES as u8,
            Order::Sorted => (at * LINES as usize / count) as u8,
        };
        bytes.extend([0x48, 0x52, line]);
        bytes.extend(((bits >> 32) as u32).to_be_bytes());
    }
    bytes
}

/// The sheet as one would write it: sums by line, then rows by code. None where the bytes are no households.
fn sheet(codes: &[u32], bytes: &[u8]) -> Option<Vec<Row>> {
    let records = bytes.chunks_exact(HOUSEHOLD);
    if !records.remainder().is_empty() || records.len() > HOUSEHOLDS {
        return None;
    }
    let mut totals = [None; LINES as usize];
    for record in records {
        let [0x48, 0x52, line, weight @ ..] = record else { return None };
        let total: &mut Option<u64> = totals.get_mut(usize::from(*line))?;
        *total.get_or_insert(0) += u64::from(u32::from_be_bytes(weight.try_into().ok()?));
    }
    Some(rows(codes, totals))
}

/// The same with two arrays in place of an option for each line.
fn sheet_by_arrays(codes: &[u32], bytes: &[u8]) -> Option<Vec<Row>> {
    let records = bytes.chunks_exact(HOUSEHOLD);
    if !records.remainder().is_empty() || records.len() > HOUSEHOLDS {
        return None;
    }
    let (mut met, mut totals) = ([false; LINES as usize], [0; LINES as usize]);
    for record in records {
        let [0x48, 0x52, line, weight @ ..] = record else { return None };
        let line = usize::from(*line);
        *met.get_mut(line)? = true;
        totals[line] += u64::from(u32::from_be_bytes(weight.try_into().ok()?));
    }
    let mut pools = [None; LINES as usize];
    for (pool, (met, total)) in pools.iter_mut().zip(met.into_iter().zip(totals)) {
        *pool = met.then_some(total);
    }
    Some(rows(codes, pools))
}

/// The rows of the lines that are met, pooled by code.
fn rows(codes: &[u32], totals: [Option<u64>; LINES as usize]) -> Vec<Row> {
    let met = codes.iter().zip(totals).filter_map(|(&class, total)| Some(Row { class, total: total? }));
    let mut rows: Vec<Row> = met.collect();
    rows.sort_by_key(|row| row.class);
    rows.dedup_by(|next, kept| {
        let same = next.class == kept.class;
        kept.total += if same { next.total } else { 0 };
        same
    });
    rows
}

fn plain_sum(bytes: &[u8]) -> u64 {
    bytes.iter().map(|&byte| u64::from(byte)).sum()
}

/// Nanoseconds of a call.
fn time<A>(call: impl FnOnce() -> A) -> f64 {
    let start = Instant::now();
    black_box(call());
    start.elapsed().as_nanos() as f64
}

/// Prints a table of the times for a million households, mixed and sorted by line, and for fewer.
pub fn print(output: &mut impl Write) -> Result<()> {
    writeln!(
        output,
        "\n| Households | Lines | Engine, µs | Idiomatic, µs | Ratio | By two arrays, µs | Ratio | Engine, bytes a ns | Plain sum, bytes a ns |"
    )?;
    writeln!(output, "|---:|---|---:|---:|---:|---:|---:|---:|---:|")?;
    for (count, order, name) in [
        (HOUSEHOLDS, Order::Mixed, "mixed"),
        (HOUSEHOLDS, Order::Sorted, "sorted"),
        (10_000, Order::Mixed, "mixed"),
        (100, Order::Mixed, "mixed"),
    ] {
        print_row(count, order, name, output)?;
    }
    Ok(())
}

fn print_row(count: usize, order: Order, name: &str, output: &mut impl Write) -> Result<()> {
    let Sample { record, log } = state(State { settled: 256, entries: Entries::Edits, ballots: Ballots::EMPTY }, 0);
    let proved = to_engine(&record);
    let bytes = households(count, order);
    let engine = |bytes: &[u8]| unsafe {
        engine::joukerpan_sheet(*black_box(&proved), log.as_ptr(), LOG, bytes.as_ptr(), bytes.len())
    };
    let plain = |bytes: &[u8]| sheet(&settled_codes(black_box(&record), &log).1, bytes);
    let arrays = |bytes: &[u8]| sheet_by_arrays(&settled_codes(black_box(&record), &log).1, bytes);
    let answer = engine(&bytes);
    assert_eq!(Some(answer.rows[..answer.count].to_vec()), plain(&bytes));
    assert_eq!(plain(&bytes), arrays(&bytes));
    let mut times = [(); 4].map(|()| vec![]);
    let mut ratios = [(); 2].map(|()| vec![]);
    for round in 0..ROUNDS {
        let first = if round % 2 == 0 { time(|| engine(black_box(&bytes))) } else { 0.0 };
        let idiomatic = time(|| plain(black_box(&bytes)));
        let by_arrays = time(|| arrays(black_box(&bytes)));
        let proved = if round % 2 == 0 { first } else { time(|| engine(black_box(&bytes))) };
        let sum = time(|| plain_sum(black_box(&bytes)));
        for (all, one) in times.iter_mut().zip([proved, idiomatic, by_arrays, sum]) {
            all.push(one);
        }
        ratios[0].push(proved / idiomatic);
        ratios[1].push(proved / by_arrays);
    }
    let [proved, idiomatic, by_arrays, sum] = times.map(median);
    let [ratio, ratio_by_arrays] = ratios.map(median);
    let (rate, sum_rate) = (bytes.len() as f64 / proved, bytes.len() as f64 / sum);
    writeln!(
        output,
        "| {count} | {name} | {:.1} | {:.1} | {ratio:.2} | {:.1} | {ratio_by_arrays:.2} | {rate:.1} | {sum_rate:.1} |",
        proved / 1000.0,
        idiomatic / 1000.0,
        by_arrays / 1000.0
    )
}
