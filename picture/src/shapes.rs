//! The shapes of marks: what room they take around their place on a lane, and how they are drawn.

use crate::letters::{width_of, width_of_bold, width_of_mono, LETTER};
use crate::svg::{Anchor, Svg};

/// The height of a line in a record or a label, and the size of letters in marks and below them.
const LINE: i32 = 16;
const MARK_LETTER: i32 = 13;
const SMALL_LETTER: i32 = 12;
/// Half the height of a pill, a square and a record of one line.
const HALF: i32 = 11;
/// From a mark to the text above or below it.
const CLEAR: i32 = 4;
/// From the line of a sending to a text beside it.
pub const BESIDE: i32 = 6;
const ARROW: i32 = 9;
const BESIDE_ARROW: i32 = 10;
/// How far below its lane a text beside a sending's line begins, and how long it is in one line.
const BESIDE_BELOW: i32 = 2;
const BESIDE_MOST: usize = 11;

/// How far something reaches from its place.
#[derive(Clone, Copy, Debug, Default, PartialEq, Eq)]
pub struct Bounds {
    pub left: i32,
    pub right: i32,
    pub above: i32,
    pub below: i32,
}

impl Bounds {
    fn around(half_width: i32, half_height: i32) -> Bounds {
        Bounds { left: half_width, right: half_width, above: half_height, below: half_height }
    }

    pub fn join(self, other: Bounds) -> Bounds {
        Bounds {
            left: self.left.max(other.left),
            right: self.right.max(other.right),
            above: self.above.max(other.above),
            below: self.below.max(other.below),
        }
    }

    fn moved(self, right: i32) -> Bounds {
        Bounds { left: self.left - right, right: self.right + right, ..self }
    }
}

#[derive(Clone, Debug, PartialEq, Eq)]
pub enum Shape {
    /// A frame: hollow where it is given out, solid where it is sent, broken where nothing came of it.
    Pill { text: String, solid: bool, broken: bool },
    /// A request, broken if it was refused.
    Square { text: String, broken: bool },
    /// A delivered record, or one that was dropped.
    Record { lines: Vec<String>, dropped: bool },
    /// Heard: solid if it was taken. `clear` is the room left for a record at the lane.
    Arrow { down: bool, solid: bool, clear: i32 },
    /// Heard by a module that has no use for the stream.
    Ring,
    /// Missed; small at a module that has no use for the stream.
    Cross { small: bool },
    /// The end of a lane.
    End,
    /// What stands above a mark.
    Label { lines: Vec<String>, anchor: Anchor },
    /// What stands below a mark that reaches so far below the lane; so far `beside` a line that goes on there.
    Reply { lines: Vec<String>, below: i32, beside: Option<i32> },
}

/// A shape so far to the right of its mark's place.
#[derive(Clone, Debug, PartialEq, Eq)]
pub struct Piece {
    pub right: i32,
    pub shape: Shape,
}

impl Piece {
    pub fn here(shape: Shape) -> Piece {
        Piece { right: 0, shape }
    }

    pub fn bounds(&self) -> Bounds {
        self.shape.bounds().moved(self.right)
    }

    pub fn draw(&self, svg: &mut Svg, place: (i32, i32)) {
        self.shape.draw(svg, (place.0 + self.right, place.1));
    }
}

/// Half the width of a pill or a square with this text.
pub fn half_width(text: &str) -> i32 {
    (width_of_bold(text, MARK_LETTER) + 1) / 2 + 5
}

const END_WORD: &str = "death";

fn widest(lines: &[String]) -> i32 {
    lines.iter().map(|line| width_of_mono(line, LETTER)).max().unwrap_or(0)
}

fn half_record(lines: &[String]) -> (i32, i32) {
    ((widest(lines) + 1) / 2 + 5, lines.len() as i32 * LINE / 2 + 3)
}

impl Shape {
    /// A text below this shape.
    pub fn reply(&self, text: impl Into<String>) -> Shape {
        Shape::Reply { lines: vec![text.into()], below: self.bounds().below, beside: None }
    }

    /// A text at a hearer's lane, beside the line of the sending, or beside its arrow if that comes from below, and below
    /// a record that reaches so far. The first word of a long one has a line of its own.
    pub fn beside(text: &str, down: bool, room: i32) -> Shape {
        let lines = match text.split_once(' ') {
            Some((first, rest)) if text.len() > BESIDE_MOST => vec![first.to_string(), rest.to_string()],
            _ => vec![text.to_string()],
        };
        Shape::Reply { lines, below: room.max(BESIDE_BELOW), beside: Some(if down { BESIDE } else { BESIDE_ARROW }) }
    }

    fn bounds(&self) -> Bounds {
        match self {
            Shape::Pill { text, .. } | Shape::Square { text, .. } => Bounds::around(half_width(text), HALF),
            Shape::Record { lines, .. } => {
                let (width, height) = half_record(lines);
                Bounds::around(width, height)
            }
            Shape::Arrow { down, clear, .. } => {
                let tall = clear + ARROW + 2;
                Bounds { left: 7, right: 7, above: if *down { tall } else { 0 }, below: if *down { 0 } else { tall } }
            }
            Shape::Ring => Bounds::around(5, 5),
            Shape::Cross { .. } => Bounds::around(7, 7),
            Shape::End => {
                Bounds { left: 4, right: width_of_bold(END_WORD, MARK_LETTER) + 12, above: HALF, below: HALF }
            }
            Shape::Label { lines, anchor } => {
                let width = widest(lines);
                let (left, right) = match anchor {
                    Anchor::Start => (0, width),
                    Anchor::Middle => ((width + 1) / 2, (width + 1) / 2),
                    Anchor::End => (width, 0),
                };
                Bounds { left, right, above: HALF + CLEAR + lines.len() as i32 * LINE, below: 0 }
            }
            Shape::Reply { lines, below, beside } => {
                let width = lines.iter().map(|line| width_of(line, SMALL_LETTER)).max().unwrap_or(0);
                let half = (width + 1) / 2;
                let (left, right) = beside.map_or((half, half), |beside| (0, beside + width));
                Bounds { left, right, above: 0, below: below + CLEAR + lines.len() as i32 * SMALL_LETTER }
            }
        }
    }

    fn draw(&self, svg: &mut Svg, place: (i32, i32)) {
        let (x, y) = place;
        match self {
            Shape::Pill { text, solid, broken } => {
                let class = box_class(*solid, *broken);
                let half = half_width(text);
                svg.rect(class, (x - half, y - HALF), (2 * half, 2 * HALF), HALF);
                svg.text(if *solid { "m on" } else { "m" }, (x, y + 5), Anchor::Middle, text);
            }
            Shape::Square { text, broken } => {
                let half = half_width(text);
                svg.rect(box_class(false, *broken), (x - half, y - HALF), (2 * half, 2 * HALF), 2);
                svg.text("m", (x, y + 5), Anchor::Middle, text);
            }
            Shape::Record { lines, dropped } => {
                let (width, height) = half_record(lines);
                svg.rect(box_class(!dropped, *dropped), (x - width, y - height), (2 * width, 2 * height), 2);
                if *dropped {
                    svg.line("o thin", (x - width, y + height), (x + width, y - height));
                }
                for (at, line) in lines.iter().enumerate() {
                    let base = y - height + 3 + (at as i32 + 1) * LINE - 4;
                    svg.text(if *dropped { "p b" } else { "p on" }, (x, base), Anchor::Middle, line);
                }
            }
            Shape::Arrow { down, solid, clear } => {
                let toward = if *down { -1 } else { 1 };
                let (tip, base) = (y + toward * (clear + 1), y + toward * (clear + 1 + ARROW));
                let class = if *solid { "s" } else { "h" };
                svg.path(class, &format!("M{x} {tip}L{} {base}H{}Z", x - 6, x + 6));
            }
            Shape::Ring => svg.circle("h", place, 4),
            Shape::Cross { small } => {
                let (half, class) = if *small { (4, "o thin") } else { (6, "o thick") };
                let (left, right, top, bottom) = (x - half, x + half, y - half, y + half);
                svg.path(class, &format!("M{left} {top}L{right} {bottom}M{left} {bottom}L{right} {top}"));
            }
            Shape::End => {
                let width = width_of_bold(END_WORD, MARK_LETTER) + 8;
                svg.rect("s", (x, y - HALF), (width, 2 * HALF), 0);
                svg.text("m on", (x + width / 2, y + 5), Anchor::Middle, END_WORD);
            }
            Shape::Label { lines, anchor } => {
                for (at, line) in lines.iter().rev().enumerate() {
                    svg.text("p", (x, y - HALF - CLEAR - at as i32 * LINE), *anchor, line);
                }
            }
            Shape::Reply { lines, below, beside } => {
                let (right, anchor) = beside.map_or((0, Anchor::Middle), |beside| (beside, Anchor::Start));
                for (at, line) in lines.iter().enumerate() {
                    svg.text("r", (x + right, y + below + (at as i32 + 1) * SMALL_LETTER), anchor, line);
                }
            }
        }
    }
}

fn box_class(solid: bool, broken: bool) -> &'static str {
    match (solid, broken) {
        (true, _) => "s",
        (false, false) => "h",
        (false, true) => "h broken",
    }
}
