//! What the marks mean. Only marks that occur are explained.

use std::collections::BTreeSet;

use second::ident::Code;

use crate::letters::wrapped;
use crate::rows::{Cell, Row};
use crate::scene::Scene;
use crate::shapes::{Piece, Shape};
use crate::svg::{Anchor, Svg};

const COLUMNS: i32 = 2;
const ROW: i32 = 27;
const LINE: i32 = 17;
/// The room for a sample, and the letters beside it.
const SAMPLE: i32 = 66;
const LETTER: i32 = 13;

/// What stands for a mark.
enum Sample {
    Shape(Shape),
    /// A sending's line beside its pill.
    Link {
        full: bool,
    },
    Shade,
    Fold,
}

struct Entry {
    /// The beginning of the class of the marks that it explains.
    of: &'static str,
    colour: &'static str,
    sample: Sample,
    says: &'static str,
}

fn text(text: &str) -> String {
    text.to_string()
}

fn entries() -> Vec<Entry> {
    let entry = |of, colour, shape, says| Entry { of, colour, sample: Sample::Shape(shape), says };
    let arrow = |solid| Shape::Arrow { down: true, solid, clear: 0 };
    let pill = |broken| Shape::Pill { text: text(if broken { "–" } else { "D0" }), solid: false, broken };
    let square = |broken| Shape::Square { text: text("R"), broken };
    let record = |dropped| Shape::Record { lines: vec![text("5:0007")], dropped };
    let unsent = Shape::Pill { text: text("D0"), solid: false, broken: true };
    let link = |of, full, says| Entry { of, colour: "data", sample: Sample::Link { full }, says };
    vec![
        entry("request taken", "", square(false), "request taken, with STREAM:PAYLOAD"),
        entry("request refused", "", square(true), "request refused, and the reply"),
        entry("given", "data", pill(false), "frame given out, and its number"),
        entry("nothing", "", pill(true), "asked for a frame, and none given out"),
        link("sending full", true, "sent in full, to every other live module"),
        link("sending short", false, "sent short: some or all miss it"),
        entry("unsent", "", unsent, "not sent, since its module is dead"),
        entry("heard taken", "data", arrow(true), "heard, reply 0, and what it did"),
        entry("heard refused", "data", arrow(false), "heard and refused, and the reply"),
        entry("heard other", "data", Shape::Ring, "heard, not a stream it receives (reply 5)"),
        entry("missed own", "missed", Shape::Cross { small: false }, "missed"),
        entry("missed other", "missed", Shape::Cross { small: true }, "missed, not a stream it receives"),
        entry("delivery", "delivery", record(false), "delivered"),
        entry("drop", "drop", record(true), "dropped, at a tick or by an abort"),
        entry("death", "", Shape::End, "the module dies, and its lane ends"),
        Entry { of: "window", colour: "", sample: Sample::Shade, says: "window of a 2M request: Rd + dd + 1 ticks" },
        Entry { of: "fold", colour: "", sample: Sample::Fold, says: "ticks without anything to see, folded" },
    ]
}

/// The beginnings of classes that occur.
fn occurring(scene: &Scene, rows: &[Row]) -> BTreeSet<String> {
    let cells = || rows.iter().flat_map(|row| &row.cells).map(|placed| &placed.cell);
    let marks = cells().flat_map(Cell::slots).flat_map(|(_, slot)| &slot.figure.marks);
    let mut found: BTreeSet<String> = marks.map(|mark| mark.class.clone()).collect();
    if !scene.windows.is_empty() {
        found.insert("window".to_string());
    }
    if cells().any(|cell| matches!(cell, Cell::Fold { .. })) {
        found.insert("fold".to_string());
    }
    found
}

/// Draws the legend from its upper left corner and gives its lower edge.
pub fn draw(svg: &mut Svg, scene: &Scene, rows: &[Row], (left, top): (i32, i32), width: i32) -> i32 {
    let found = occurring(scene, rows);
    let mut entries = entries();
    entries.retain(|entry| found.iter().any(|class| class.starts_with(entry.of)));
    let column = width / COLUMNS;
    let half = entries.len().div_ceil(COLUMNS as usize);
    svg.line("grid", (left, top), (left + width, top));
    let mut bottom = top;
    for (at, entries) in entries.chunks(half.max(1)).enumerate() {
        let x = left + at as i32 * column;
        let mut y = top + 24;
        for entry in entries {
            let lines = wrapped(entry.says, column - SAMPLE - 10, LETTER);
            let middle = y + (lines.len() as i32 - 1) * LINE / 2;
            let place = (x + SAMPLE / 2 - 4, middle);
            svg.group(&format!("key {}", entry.colour), entry.says, |svg| sample(svg, &entry.sample, place));
            for (at, line) in lines.iter().enumerate() {
                svg.text("k", (x + SAMPLE, y + 5 + at as i32 * LINE), Anchor::Start, line);
            }
            y += ROW + (lines.len() as i32 - 1) * LINE;
        }
        bottom = bottom.max(y - ROW / 2);
    }
    for line in closing(scene).iter().flat_map(|text| wrapped(text, width, LETTER)) {
        bottom += LINE + 2;
        svg.text("k", (left, bottom), Anchor::Start, &line);
    }
    bottom
}

/// What holds for several marks.
fn closing(scene: &Scene) -> Vec<&'static str> {
    let letters = "D data, C confirmation, A abort, P plain. A single number above a frame is its stream.";
    let aborts =
        "A module gives out an abort when it has dropped a message at a tick, or heard a confirmation and held \
                  nothing; who hears one drops what it holds.";
    let windows = "At a window's end: all, if every live receiver has delivered the message once; none, if none has; \
                   else differs, with the bench rule that the history breaks; open, if the history ends before.";
    let has_aborts = scene.frames.iter().any(|frame| frame.code == Code::Abort);
    let says = [(true, letters), (has_aborts, aborts), (!scene.windows.is_empty(), windows)];
    says.into_iter().filter(|(holds, _)| *holds).map(|(_, text)| text).collect()
}

fn sample(svg: &mut Svg, sample: &Sample, place: (i32, i32)) {
    let (x, y) = place;
    match sample {
        Sample::Shape(Shape::End) => Piece { right: -22, shape: Shape::End }.draw(svg, place),
        Sample::Shape(arrow @ Shape::Arrow { .. }) => Piece::here(arrow.clone()).draw(svg, (x, y + 6)),
        Sample::Shape(shape) => Piece::here(shape.clone()).draw(svg, place),
        Sample::Link { full } => {
            svg.line(if *full { "link" } else { "link short" }, (x - 14, y), (x + 26, y));
            Piece { right: -14, shape: Shape::Pill { text: text("D0"), solid: true, broken: false } }.draw(svg, place);
        }
        Sample::Shade => {
            svg.rect("shade", (x - 26, y - 10), (52, 20), 0);
            svg.line("edge", (x + 26, y - 10), (x + 26, y + 10));
        }
        Sample::Fold => svg.line("lane fold", (x - 26, y), (x + 26, y)),
    }
}
