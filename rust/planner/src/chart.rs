//! Charts: panels side by side, each with its lines over the same axes.

use crate::svg::{self, Anchor, Svg, SMALL};

const MARGIN: f64 = 16.0;
/// Left of a panel for its ticks and the axis's name, and below it.
const LEFT: f64 = 70.0;
const BELOW: f64 = 52.0;
const PANEL: (f64, f64) = (230.0, 210.0);
const BETWEEN: f64 = 34.0;
const TITLE: f64 = 24.0;
const SAMPLE: f64 = 40.0;

/// An axis: its name with the unit, its ends, and where it has ticks.
#[derive(Clone)]
pub struct Axis {
    pub name: String,
    pub from: f64,
    pub to: f64,
    /// By equal factors and not by equal steps.
    pub logarithmic: bool,
    pub ticks: Vec<(f64, String)>,
}

impl Axis {
    /// Where a value lies between the ends, 0 to 1; outside them, at the end.
    fn place(&self, value: f64) -> f64 {
        let scaled = |value: f64| if self.logarithmic { value.max(1e-9).ln() } else { value };
        let (from, to) = (scaled(self.from), scaled(self.to));
        ((scaled(value) - from) / (to - from)).clamp(0.0, 1.0)
    }

    /// Shares in percent.
    pub fn percent(name: &str, to: f64) -> Axis {
        let step = if to > 40.0 { 20 } else { 10 };
        let ticks = (0..=to as u32).step_by(step).map(|percent| (f64::from(percent), format!("{percent} %"))).collect();
        Axis { name: name.to_string(), from: 0.0, to, logarithmic: false, ticks }
    }

    /// Hours, by factors, from the first of the ticks to the last.
    pub fn hours(name: &str, ticks: &[(f64, &str)]) -> Axis {
        Axis::factors(name, ticks.iter().map(|(hours, text)| (*hours, text.to_string())).collect())
    }

    /// Numbers, by factors, from the first to the last.
    pub fn numbers(name: &str, ticks: &[f64]) -> Axis {
        Axis::factors(name, ticks.iter().map(|number| (*number, number.to_string())).collect())
    }

    fn factors(name: &str, ticks: Vec<(f64, String)>) -> Axis {
        let ends = |end: Option<&(f64, String)>| end.map_or(1.0, |(value, _)| *value);
        Axis { name: name.to_string(), from: ends(ticks.first()), to: ends(ticks.last()), logarithmic: true, ticks }
    }
}

/// A panel: its title, and of each line of the legend its points.
pub struct Panel {
    pub title: String,
    pub lines: Vec<Vec<(f64, f64)>>,
}

/// Rows of panels. Those of a row have the same vertical axis, and all have the same horizontal one.
pub struct Chart {
    pub title: String,
    pub description: String,
    pub across: Axis,
    pub rows: Vec<(Axis, Vec<Panel>)>,
    /// The names of the lines.
    pub legend: Vec<String>,
}

impl Chart {
    /// The chart as SVG.
    pub fn draw(&self) -> String {
        let mut svg = Svg::default();
        let columns = self.rows.iter().map(|(_, panels)| panels.len()).max().unwrap_or(0);
        let width = MARGIN + LEFT + columns as f64 * (PANEL.0 + BETWEEN) - BETWEEN + 2.0 * MARGIN;
        svg.text((MARGIN, MARGIN + 14.0), Anchor::Start, "name", &self.title);
        let mut y = self.legend(&mut svg, MARGIN + 40.0, width);
        for (up, panels) in &self.rows {
            svg.upright((MARGIN + 10.0, y + TITLE + PANEL.1 / 2.0), &up.name);
            for (column, panel) in panels.iter().enumerate() {
                let corner = (MARGIN + LEFT + column as f64 * (PANEL.0 + BETWEEN), y + TITLE);
                self.panel(&mut svg, corner, up, panel, column == 0);
            }
            y += TITLE + PANEL.1 + BELOW;
        }
        svg.finish((width, y + MARGIN / 2.0), &self.title, &self.description)
    }

    /// Samples of the lines with their names, in as many rows as they need; answers where they end.
    fn legend(&self, svg: &mut Svg, mut y: f64, width: f64) -> f64 {
        let mut x = MARGIN;
        for (line, name) in self.legend.iter().enumerate() {
            let wide = SAMPLE + 8.0 + svg::width(name, SMALL) + 22.0;
            if x + wide > width && x > MARGIN {
                (x, y) = (MARGIN, y + 22.0);
            }
            svg.line((x, y), (x + SAMPLE, y), &format!("line{line}"));
            mark(svg, (x + SAMPLE / 2.0, y), line);
            svg.text((x + SAMPLE + 8.0, y + 4.0), Anchor::Start, "", name);
            x += wide;
        }
        y + 20.0
    }

    fn panel(&self, svg: &mut Svg, (left, top): (f64, f64), up: &Axis, panel: &Panel, first: bool) {
        let (right, bottom) = (left + PANEL.0, top + PANEL.1);
        let at = |(x, y): (f64, f64)| (left + PANEL.0 * self.across.place(x), bottom - PANEL.1 * up.place(y));
        svg.text((left, top - 8.0), Anchor::Start, "", &panel.title);
        for (value, text) in &up.ticks {
            let y = bottom - PANEL.1 * up.place(*value);
            svg.line((left, y), (right, y), "grid");
            if first {
                svg.text((left - 8.0, y + 4.0), Anchor::End, "", text);
            }
        }
        for (value, text) in &self.across.ticks {
            let x = left + PANEL.0 * self.across.place(*value);
            svg.line((x, bottom), (x, bottom + 5.0), "axis");
            svg.text((x, bottom + 19.0), Anchor::Middle, "", text);
        }
        svg.polyline(&[(left, top), (left, bottom), (right, bottom)], "axis");
        svg.text(((left + right) / 2.0, bottom + 38.0), Anchor::Middle, "", &self.across.name);
        for (line, points) in panel.lines.iter().enumerate() {
            let points: Vec<(f64, f64)> = points.iter().map(|&point| at(point)).collect();
            svg.polyline(&points, &format!("line{line}"));
            points.iter().for_each(|&point| mark(svg, point, line));
        }
    }
}

/// A line's mark: a shape of its own, so that lines are told apart without colour.
fn mark(svg: &mut Svg, (x, y): (f64, f64), line: usize) {
    let class = format!("mark{line}");
    match line {
        0 => svg.circle((x, y), 3.5, &class),
        1 => svg.polygon(&[(x - 3.5, y - 3.5), (x + 3.5, y - 3.5), (x + 3.5, y + 3.5), (x - 3.5, y + 3.5)], &class),
        2 => svg.polygon(&[(x, y - 4.5), (x + 4.5, y + 3.5), (x - 4.5, y + 3.5)], &class),
        _ => svg.polygon(&[(x, y - 5.0), (x + 5.0, y), (x, y + 5.0), (x - 5.0, y)], &class),
    }
}
