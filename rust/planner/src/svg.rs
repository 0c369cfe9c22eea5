//! Pictures as SVG text: shapes with classes, and one style for all pictures, legible in black and white.

use std::fmt::Write;

/// The sizes of the text, in pixels.
pub const SMALL: f64 = 12.0;
pub const LARGE: f64 = 15.0;

const STYLE: &str = "\
    text { font-family: \"DejaVu Sans\", Verdana, sans-serif; font-size: 12px; fill: #000000; }
    .name { font-size: 15px; font-weight: bold; }
    .mono { font-family: \"DejaVu Sans Mono\", monospace; }
    .grey { fill: #555555; }
    .page { fill: #ffffff; }
    .head { fill: #eeeeee; stroke: #000000; stroke-width: 1.5; }
    .life { stroke: #aaaaaa; stroke-width: 2; fill: none; }
    .axis { stroke: #000000; stroke-width: 1.2; fill: none; }
    .grid { stroke: #cccccc; stroke-width: 1; fill: none; }
    .tentative { fill: #fff6dc; stroke: #8a5a00; stroke-width: 1.5; stroke-dasharray: 6 4; }
    .settled { fill: #d8f0e0; stroke: #0b5d2e; stroke-width: 2.5; }
    .lost { fill: #f4f4f4; stroke: #555555; stroke-width: 1.5; stroke-dasharray: 2 3; }
    .plain { fill: #ffffff; stroke: none; }
    .message { stroke: #1f4e8c; stroke-width: 1.8; fill: none; }
    .tip { fill: #1f4e8c; stroke: none; }
    .line0 { stroke: #000000; stroke-width: 2; fill: none; }
    .line1 { stroke: #b3261e; stroke-width: 2; fill: none; stroke-dasharray: 8 4; }
    .line2 { stroke: #1f4e8c; stroke-width: 2; fill: none; stroke-dasharray: 2 3; }
    .line3 { stroke: #0b6b3a; stroke-width: 2; fill: none; stroke-dasharray: 10 3 2 3; }
    .mark0 { stroke: #000000; stroke-width: 1.5; fill: #000000; }
    .mark1 { stroke: #b3261e; stroke-width: 1.5; fill: #ffffff; }
    .mark2 { stroke: #1f4e8c; stroke-width: 1.5; fill: #1f4e8c; }
    .mark3 { stroke: #0b6b3a; stroke-width: 1.5; fill: #ffffff; }
";

/// Where a text stands to its place.
#[derive(Clone, Copy)]
pub enum Anchor {
    Start,
    Middle,
    End,
}

impl Anchor {
    fn word(self) -> &'static str {
        match self {
            Anchor::Start => "start",
            Anchor::Middle => "middle",
            Anchor::End => "end",
        }
    }
}

/// A picture that is being drawn. Later shapes lie above earlier ones.
#[derive(Default)]
pub struct Svg {
    body: String,
}

impl Svg {
    pub fn line(&mut self, from: (f64, f64), to: (f64, f64), class: &str) {
        self.polyline(&[from, to], class);
    }

    pub fn polyline(&mut self, points: &[(f64, f64)], class: &str) {
        let points: Vec<String> = points.iter().map(|(x, y)| format!("{x:.1},{y:.1}")).collect();
        self.shape(format_args!("<polyline class=\"{class}\" points=\"{}\"/>", points.join(" ")));
    }

    pub fn polygon(&mut self, points: &[(f64, f64)], class: &str) {
        let points: Vec<String> = points.iter().map(|(x, y)| format!("{x:.1},{y:.1}")).collect();
        self.shape(format_args!("<polygon class=\"{class}\" points=\"{}\"/>", points.join(" ")));
    }

    pub fn rect(&mut self, (x, y): (f64, f64), (width, height): (f64, f64), class: &str) {
        self.shape(format_args!(
            "<rect class=\"{class}\" x=\"{x:.1}\" y=\"{y:.1}\" width=\"{width:.1}\" height=\"{height:.1}\" rx=\"4\"/>"
        ));
    }

    pub fn circle(&mut self, (x, y): (f64, f64), radius: f64, class: &str) {
        self.shape(format_args!("<circle class=\"{class}\" cx=\"{x:.1}\" cy=\"{y:.1}\" r=\"{radius:.1}\"/>"));
    }

    pub fn text(&mut self, (x, y): (f64, f64), anchor: Anchor, class: &str, text: &str) {
        let (anchor, text) = (anchor.word(), escaped(text));
        self.shape(format_args!(
            "<text class=\"{class}\" x=\"{x:.1}\" y=\"{y:.1}\" text-anchor=\"{anchor}\" xml:space=\"preserve\">{text}</text>"
        ));
    }

    /// Text that is read from below, around its middle.
    pub fn upright(&mut self, (x, y): (f64, f64), text: &str) {
        let text = escaped(text);
        self.shape(format_args!(
            "<text x=\"{x:.1}\" y=\"{y:.1}\" text-anchor=\"middle\" transform=\"rotate(-90 {x:.1} {y:.1})\">{text}</text>"
        ));
    }

    /// All shapes of another picture, above these.
    pub fn append(&mut self, other: Svg) {
        self.body.push_str(&other.body);
    }

    fn shape(&mut self, shape: std::fmt::Arguments<'_>) {
        writeln!(self.body, "  {shape}").expect("a string takes every text");
    }

    /// The whole picture on a white page, with its title and what it shows for those who cannot see it.
    pub fn finish(self, (width, height): (f64, f64), title: &str, description: &str) -> String {
        let (title, description) = (escaped(title), escaped(description));
        format!(
            "<svg xmlns=\"http://www.w3.org/2000/svg\" viewBox=\"0 0 {width:.0} {height:.0}\" width=\"{width:.0}\" \
             height=\"{height:.0}\" role=\"img\" aria-labelledby=\"title desc\">\n  <title id=\"title\">{title}</title>\n  \
             <desc id=\"desc\">{description}</desc>\n  <style>\n{STYLE}  </style>\n  <rect class=\"page\" \
             width=\"{width:.0}\" height=\"{height:.0}\"/>\n{}</svg>\n",
            self.body
        )
    }
}

/// Text as XML takes it; a control character, which it has no way to write, is a dot.
fn escaped(text: &str) -> String {
    let text: String = text.chars().map(|letter| if letter.is_control() { '·' } else { letter }).collect();
    text.replace('&', "&amp;").replace('<', "&lt;").replace('>', "&gt;")
}

/// How wide a text of equally wide letters is, of the small size.
pub fn mono_width(text: &str) -> f64 {
    text.chars().count() as f64 * 0.61 * SMALL
}

/// How wide a text of this size is, about: by the widths of DejaVu Sans, a wide font.
pub fn width(text: &str, size: f64) -> f64 {
    text.chars().map(letter).sum::<f64>() * size
}

fn letter(letter: char) -> f64 {
    match letter {
        'i' | 'j' | 'l' | '\'' => 0.28,
        ' ' | ',' | '.' | ':' | ';' | 'f' | '|' => 0.35,
        't' | 'r' | '(' | ')' | '-' | '/' => 0.42,
        'm' | 'w' | 'M' | 'W' | '%' | '→' => 0.96,
        'A'..='Z' => 0.73,
        _ => 0.64,
    }
}
