//! A rehearsal drawn: offices as lanes, time downward, a row for each line of the script.

use std::collections::BTreeMap;

use super::notes::{Kind, Note};
use super::play::{Act, Message, Turn};
use crate::svg::{self, Anchor, Svg, LARGE, SMALL};

const MARGIN: f64 = 20.0;
/// The most letters of a line of the script that are shown.
const SHOWN: usize = 32;
const NOTE: f64 = 20.0;
const GAP: f64 = 10.0;
/// Between two lanes, for the messages that are under way; one track for each slot.
const GUTTER: f64 = 48.0;
const TRACK: f64 = 8.0;
/// From a row's top to its line or arrow.
const ARROW: f64 = 8.0;

/// Where a message was sent.
struct Origin {
    office: usize,
    slot: usize,
    y: f64,
}

struct Drawing {
    svg: Svg,
    /// Lanes are drawn below all else, so last known first.
    lanes: Vec<(f64, f64)>,
    offices: usize,
    /// Where the answers' column and the lanes begin, and how wide a lane is.
    answers: f64,
    left: f64,
    lane: f64,
    y: f64,
    founded: f64,
    origins: BTreeMap<usize, Origin>,
}

/// The rehearsal's picture.
pub fn draw(name: &str, turns: &[Turn]) -> String {
    let notes = turns.iter().flat_map(|turn| notes_of(turn).iter());
    let widest = notes.map(|note| svg::width(&note.text, SMALL) + 20.0).fold(110.0, f64::max);
    let column = |texts: &mut dyn Iterator<Item = &str>| texts.map(svg::mono_width).fold(50.0, f64::max) + 24.0;
    let answers = MARGIN + column(&mut turns.iter().map(|turn| shown(&turn.line)));
    let mut drawing = Drawing {
        svg: Svg::default(),
        lanes: Vec::new(),
        offices: 0,
        answers,
        left: answers + column(&mut turns.iter().map(|turn| &turn.answer[..])),
        lane: widest + GUTTER,
        y: MARGIN,
        founded: 0.0,
        origins: BTreeMap::new(),
    };
    drawing.heading(name);
    turns.iter().for_each(|turn| drawing.turn(turn));
    drawing.end_lanes();
    drawing.finish(name, turns)
}

/// As much of a script's line as is shown.
fn shown(line: &str) -> &str {
    line.char_indices().nth(SHOWN).map_or(line, |(end, _)| &line[..end])
}

fn notes_of(turn: &Turn) -> &[Note] {
    match &turn.act {
        Act::Call { notes, .. } => notes,
        _ => &[],
    }
}

impl Drawing {
    fn heading(&mut self, name: &str) {
        self.svg.text((MARGIN, self.y + LARGE), Anchor::Start, "name", &format!("Rehearsal: {name}"));
        self.y += 44.0;
        let legend = [(Kind::Tentative, "edit or vote"), (Kind::Settled, "settled"), (Kind::Lost, "lost")];
        let mut x = MARGIN;
        for (kind, text) in legend {
            let wide = svg::width(text, SMALL) + 20.0;
            self.note(x + wide / 2.0, self.y, wide, kind, text);
            x += wide + 16.0;
        }
        let y = self.y + NOTE / 2.0;
        self.svg.circle((x + 4.0, y), 4.0, "tip");
        self.arrow(&[(x + 4.0, y), (x + 44.0, y)]);
        self.svg.text((x + 52.0, y + 4.0), Anchor::Start, "", "message: sent, taken");
        self.y += 40.0;
        self.svg.text((MARGIN, self.y + SMALL), Anchor::Start, "grey", "script");
        self.svg.text((self.answers, self.y + SMALL), Anchor::Start, "grey", "answer");
        self.y += 24.0;
    }

    fn turn(&mut self, turn: &Turn) {
        if let Act::Founded(weights) = &turn.act {
            self.end_lanes();
            self.heads(weights, turn);
            return;
        }
        let top = self.y;
        self.script(turn, top);
        if let Act::Call { office, notes, message } = &turn.act {
            self.call(*office, notes, *message);
        } else {
            self.y += NOTE;
        }
        self.y += GAP;
    }

    fn script(&mut self, turn: &Turn, y: f64) {
        self.svg.text((MARGIN, y + 14.0), Anchor::Start, "mono", shown(&turn.line));
        self.svg.text((self.answers, y + 14.0), Anchor::Start, "mono grey", &turn.answer);
    }

    fn x(&self, office: usize) -> f64 {
        self.left + self.lane * (office as f64 + 0.5)
    }

    fn heads(&mut self, weights: &[u16], turn: &Turn) {
        self.y += GAP;
        self.script(turn, self.y + 10.0);
        self.offices = weights.len();
        for (office, weight) in weights.iter().enumerate() {
            let x = self.x(office);
            self.svg.rect((x - 55.0, self.y), (110.0, 42.0), "head");
            self.svg.text((x, self.y + 18.0), Anchor::Middle, "name", &format!("Office {office}"));
            self.svg.text((x, self.y + 35.0), Anchor::Middle, "", &format!("weight {weight}"));
        }
        self.y += 42.0 + GAP;
        self.founded = self.y - GAP;
    }

    /// The lanes of the last founding end here.
    fn end_lanes(&mut self) {
        for office in 0..self.offices {
            self.lanes.push((self.x(office), self.founded));
            self.lanes.push((self.x(office), self.y));
        }
        self.offices = 0;
        self.origins.clear();
    }

    fn call(&mut self, office: usize, notes: &[Note], message: Option<Message>) {
        let x = self.x(office);
        match message {
            Some(Message::Taken { number }) => {
                self.arrive(number, office);
                self.y += ARROW + 8.0;
            }
            Some(Message::Sent { number, slot }) => {
                let y = self.y + NOTE + ARROW;
                self.origins.insert(number, Origin { office, slot, y });
            }
            None => {}
        }
        for note in notes {
            let wide = svg::width(&note.text, SMALL) + 16.0;
            self.note(x, self.y, wide, note.kind, &note.text);
            self.y += NOTE + 2.0;
        }
        if let Some(Message::Sent { .. }) = message {
            self.svg.circle((x, self.y - 2.0 + ARROW), 4.0, "tip");
            self.y += ARROW + 4.0;
        }
    }

    /// The message goes from its sender along its slot's track to this row, and to the receiver.
    fn arrive(&mut self, number: usize, to: usize) {
        let Some(origin) = self.origins.get(&number) else { return };
        let (from, y) = (self.x(origin.office), self.y + ARROW);
        let side = if to > origin.office { 1.0 } else { -1.0 };
        let track = from + side * self.lane / 2.0 + (origin.slot as f64 - 1.5) * TRACK;
        let points = [(from, origin.y), (track, origin.y), (track, y), (self.x(to), y)];
        self.arrow(&points);
    }

    /// A line with a tip at its end, which is level.
    fn arrow(&mut self, points: &[(f64, f64)]) {
        let [.., (before, _), (x, y)] = *points else { return };
        let back = if x > before { -9.0 } else { 9.0 };
        let mut line = points.to_vec();
        if let Some(last) = line.last_mut() {
            last.0 += back / 2.0;
        }
        self.svg.polyline(&line, "message");
        self.svg.polygon(&[(x, y), (x + back, y - 4.5), (x + back, y + 4.5)], "tip");
    }

    fn note(&mut self, x: f64, y: f64, wide: f64, kind: Kind, text: &str) {
        let class = match kind {
            Kind::Tentative => "tentative",
            Kind::Settled => "settled",
            Kind::Lost => "lost",
            Kind::Plain => "plain",
        };
        self.svg.rect((x - wide / 2.0, y), (wide, NOTE), class);
        self.svg.text((x, y + 14.0), Anchor::Middle, "", text);
    }

    fn finish(self, name: &str, turns: &[Turn]) -> String {
        let most = turns.iter().map(|turn| if let Act::Founded(weights) = &turn.act { weights.len() } else { 0 });
        let width = self.left + self.lane * most.max().unwrap_or(0).max(2) as f64 + MARGIN;
        let mut whole = Svg::default();
        self.lanes.chunks(2).for_each(|ends| whole.line(ends[0], ends[1], "life"));
        whole.append(self.svg);
        let said = "Offices as columns, time downward; beside them the script's lines and the engine's answers.";
        whole.finish((width, self.y + MARGIN), &format!("The rehearsal {name}"), said)
    }
}
