//! Measures as a table in plain text.

use crate::measures::{Delay, Folding, Measures};

const HEAD: [&str; 16] = [
    "setting",
    "edits",
    "mean",
    "median",
    "95th",
    "mean",
    "median",
    "95th",
    "settled",
    "lost",
    "stuck",
    "made",
    "away, not",
    "messages",
    "bytes",
    "still",
];

/// Above the head: which columns are of what.
const GROUPS: [(usize, usize, &str); 3] =
    [(2, 5, "settled, own office"), (5, 8, "settled, all"), (13, 15, "each settled")];

/// The rows under a head, in columns.
pub fn table(rows: &[(String, Measures)]) -> String {
    let mut lines: Vec<Vec<String>> = vec![HEAD.iter().map(|head| head.to_string()).collect()];
    lines.extend(rows.iter().map(|(name, measures)| cells(name, measures)));
    let widths: Vec<usize> =
        (0..HEAD.len()).map(|at| lines.iter().map(|line| line[at].chars().count()).max().unwrap_or(0)).collect();
    let mut text = groups(&widths);
    for line in &lines {
        text.push_str(&spaced(line, &widths));
    }
    for (name, measures) in rows {
        let notes = [full(measures), measures.folding.map(folded)];
        text.extend(notes.into_iter().flatten().map(|note| format!("{name}: {note}\n")));
    }
    text
}

/// In how many runs the log was full, and when.
fn full(measures: &Measures) -> Option<String> {
    let years = measures.full_at? / (24.0 * 365.25);
    let share = percent(measures.full);
    Some(format!("the log of {share} of the runs was full, after {years:.1} years on average"))
}

/// What folding came to.
fn folded(folding: Folding) -> String {
    let Folding { settled, dropped, most, silent } = folding;
    let words = |(had, most)| format!("; the office gone for good had {had:.1} when another had {most:.1}");
    let silent = silent.map_or_else(String::new, words);
    format!("of {settled:.1} settled entries {dropped:.1} dropped, at most {most} undropped at once{silent}")
}

fn cells(name: &str, measures: &Measures) -> Vec<String> {
    let mut cells = vec![name.to_string(), measures.edits.to_string()];
    for delay in [measures.own, measures.all] {
        cells.extend(match delay {
            Some(Delay { mean, median, most }) => [duration(mean), duration(median), duration(most)],
            None => [dash(), dash(), dash()],
        });
    }
    cells.extend([
        percent(measures.settled),
        percent(measures.lost),
        percent(measures.stuck),
        format!("{:.2}", measures.times),
    ]);
    cells.push(measures.failed_away.map_or_else(dash, percent));
    cells.extend(
        [measures.messages, measures.bytes].map(|value| value.map_or_else(dash, |value| format!("{value:.0}"))),
    );
    cells.push(percent(measures.still));
    cells
}

fn dash() -> String {
    "-".to_string()
}

/// Hours in words: hours below two days, days from then on.
pub fn duration(hours: f64) -> String {
    if hours < 48.0 {
        format!("{hours:.1} h")
    } else {
        format!("{:.1} d", hours / 24.0)
    }
}

/// A share in percent.
pub fn percent(share: f64) -> String {
    format!("{:.1} %", 100.0 * share)
}

/// The first column to the left, the others to the right.
fn spaced(line: &[String], widths: &[usize]) -> String {
    let mut text = format!("{:<width$}", line[0], width = widths[0]);
    for (cell, width) in line.iter().zip(widths).skip(1) {
        text.push_str(&format!("  {cell:>width$}"));
    }
    text.push('\n');
    text
}

fn groups(widths: &[usize]) -> String {
    let end = |column: usize| widths[..column].iter().map(|width| width + 2).sum::<usize>().saturating_sub(2);
    let mut text = String::new();
    for (_, to, name) in GROUPS {
        let space = end(to).saturating_sub(text.chars().count());
        text.push_str(&format!("{name:>space$}"));
    }
    text.push('\n');
    text
}

#[cfg(test)]
mod tests {
    use super::{duration, table};
    use crate::measures::{Folding, Measures};

    #[test]
    fn every_line_is_as_wide_as_the_head() {
        let rows = [("one".to_string(), Measures::default()), ("another setting".to_string(), Measures::default())];
        let text = table(&rows);
        let lines: Vec<&str> = text.lines().collect();
        assert_eq!(lines.len(), 4);
        assert!(lines[1..].iter().all(|line| line.chars().count() == lines[1].chars().count()));
    }

    #[test]
    fn what_folding_came_to_stands_below() {
        let folding = Some(Folding { settled: 20.0, dropped: 17.5, most: 9, silent: Some((18.0, 19.0)) });
        let text = table(&[("one".to_string(), Measures { folding, ..Measures::default() })]);
        let last = text.lines().last().unwrap();
        assert!(last.starts_with("one: of 20.0 settled entries 17.5 dropped, at most 9 undropped at once; "));
        assert!(last.ends_with("the office gone for good had 18.0 when another had 19.0"));
    }

    #[test]
    fn durations_have_their_unit() {
        assert_eq!(duration(4.04), "4.0 h");
        assert_eq!(duration(100.8), "4.2 d");
    }
}
