//! The marks that a moment leaves on the lanes.

use second::ident::Code;

use crate::held::Dropped;
use crate::scene::{Frame, Moment, Scene, Seen};
use crate::sendings;
use crate::shapes::{half_width, Bounds, Piece, Shape, BESIDE};
use crate::svg::Anchor;
use crate::tag::Tag;

/// Between marks that stand together.
const BETWEEN: i32 = 5;
/// The letter of a request.
const REQUEST: &str = "R";

#[derive(Clone, Debug, PartialEq, Eq)]
pub struct Mark {
    /// The line of the file that it belongs to.
    pub line: usize,
    pub lane: usize,
    /// The kind first; then what tells it from others of its kind.
    pub class: String,
    /// What it says where the pointer rests on it.
    pub title: String,
    pub pieces: Vec<Piece>,
}

impl Mark {
    /// A mark of a moment; `says` is what it says beside the tick and the line.
    pub fn of(moment: &Moment, lane: usize, class: String, says: &str, pieces: Vec<Piece>) -> Mark {
        let title = format!("tick {}, line {}: {says}", moment.tick, moment.line);
        Mark { line: moment.line, lane, class, title, pieces }
    }
}

/// A sending's way from its owner's lane to those it could be heard on.
#[derive(Clone, Debug, PartialEq, Eq)]
pub struct Link {
    pub owner: usize,
    pub reached: Vec<usize>,
    pub class: &'static str,
    pub full: bool,
}

/// What stands at one place of the time line.
#[derive(Clone, Debug, Default, PartialEq, Eq)]
pub struct Figure {
    pub marks: Vec<Mark>,
    pub link: Option<Link>,
}

impl Figure {
    pub fn bounds(&self) -> Bounds {
        self.marks.iter().flat_map(|mark| &mark.pieces).fold(Bounds::default(), |all, piece| all.join(piece.bounds()))
    }

    /// What the marks on one lane take.
    pub fn bounds_on(&self, lane: usize) -> Bounds {
        let pieces = self.marks.iter().filter(|mark| mark.lane == lane).flat_map(|mark| &mark.pieces);
        pieces.fold(Bounds::default(), |all, piece| all.join(piece.bounds()))
    }
}

pub fn class_of(code: Code) -> &'static str {
    match code {
        Code::Data => "data",
        Code::Confirmation => "confirmation",
        Code::Abort => "abort",
        Code::Plain => "plain",
    }
}

fn letter(code: Code) -> char {
    match code {
        Code::Data => 'D',
        Code::Confirmation => 'C',
        Code::Abort => 'A',
        Code::Plain => 'P',
    }
}

/// A frame's letter and number.
pub fn pill_text(frame: &Frame, number: usize) -> String {
    format!("{}{number}", letter(frame.code))
}

pub fn frame_text(frame: &Frame, number: usize) -> String {
    format!("frame {number}, {} {}", class_of(frame.code), frame.tag.text())
}

fn label(tag: &Tag, right: i32, anchor: Anchor) -> Piece {
    Piece { right, shape: Shape::Label { lines: tag.lines(), anchor } }
}

pub fn record(tag: &Tag) -> Shape {
    Shape::Record { lines: tag.lines(), dropped: false }
}

/// What was dropped; with no name where it is one of several, and the answers do not tell which.
pub fn dropped_record(dropped: &Dropped) -> Shape {
    let lines = match dropped.is_named() {
        true => dropped.among.iter().flat_map(Tag::lines).collect(),
        false => vec!["?".to_string()],
    };
    Shape::Record { lines, dropped: true }
}

/// What is said of a drop.
pub fn dropped_text(scene: &Scene, dropped: &Dropped) -> String {
    let names: Vec<String> = dropped.among.iter().map(Tag::text).collect();
    let messages = if dropped.number == 1 { "message" } else { "messages" };
    let which = match (dropped.is_named(), names.is_empty()) {
        (true, _) => format!(": {}", names.join(", ")),
        (false, true) => String::new(),
        (false, false) => format!(" of {}", names.join(", ")),
    };
    format!("{} drops {} {messages}{which}", scene.name(dropped.module), dropped.number)
}

/// Where a moment stands in the way of a frame, and the module and message it is about.
fn step<'a>(scene: &'a Scene, moment: &'a Moment) -> Option<(u8, usize, &'a Tag)> {
    let of_frame = |step: u8, number: usize| {
        let frame = &scene.frames[number];
        (step, frame.owner, &frame.tag)
    };
    match &moment.seen {
        Seen::Request { module, tag, refused: None } => Some((0, *module, tag)),
        Seen::Give { frame } => Some(of_frame(1, *frame)),
        Seen::Sending { frame, .. } => Some(of_frame(2, *frame)),
        _ => None,
    }
}

/// How many of these moments stand together at one place: a request, its frame given out, and that one's sending, or a
/// part of these, where each follows the other at once and at most one has a note.
pub fn run(scene: &Scene, moments: &[&Moment]) -> usize {
    let follows = |pair: &[&Moment]| {
        let (Some(one), Some(other)) = (step(scene, pair[0]), step(scene, pair[1])) else { return false };
        one.0 + 1 == other.0 && one.1 == other.1 && one.2 == other.2 && same_frame(pair[0], pair[1])
    };
    let many = 1 + moments.windows(2).take_while(|pair| follows(pair)).count();
    let noted = |many: usize| moments[..many].iter().filter(|moment| moment.note.is_some()).count();
    (1..=many).rev().find(|many| noted(*many) <= 1).unwrap_or(1)
}

fn same_frame(one: &Moment, other: &Moment) -> bool {
    match (&one.seen, &other.seen) {
        (Seen::Give { frame }, Seen::Sending { frame: sent, .. }) => frame == sent,
        _ => true,
    }
}

/// The marks of a run of moments, the last of them at the place itself.
pub fn figure(scene: &Scene, moments: &[&Moment]) -> Figure {
    let mut figure = Figure::default();
    let mut right = 0;
    let mut left = 0;
    for (at, moment) in moments.iter().enumerate().rev() {
        left = right;
        put(scene, moment, right, &mut figure);
        if at > 0 {
            right -= half_of(scene, moment) + BETWEEN + half_of(scene, moments[at - 1]);
        }
    }
    if let Some((_, lane, tag)) = moments.last().and_then(|moment| step(scene, moment)) {
        let goes_up = figure.link.as_ref().is_some_and(|link| link.reached.first().is_some_and(|to| *to < lane));
        let label = match goes_up {
            true => label(tag, -BESIDE, Anchor::End),
            false => label(tag, left / 2, Anchor::Middle),
        };
        // The last moment's marks come first, and its own before those of its hearers.
        figure.marks[0].pieces.push(label);
    }
    figure
}

/// Half the width of a mark that others may stand beside.
fn half_of(scene: &Scene, moment: &Moment) -> i32 {
    match &moment.seen {
        Seen::Give { frame } | Seen::Sending { frame, .. } => half_width(&pill_text(&scene.frames[*frame], *frame)),
        _ => half_width(REQUEST),
    }
}

/// Adds a moment's marks, so far to the right of the place.
fn put(scene: &Scene, moment: &Moment, right: i32, figure: &mut Figure) {
    let mut mark = |lane: usize, class: &str, title: String, pieces: Vec<Piece>| {
        figure.marks.push(Mark::of(moment, lane, class.to_string(), &title, pieces));
    };
    match &moment.seen {
        Seen::Deliveries(deliveries) => {
            for delivery in deliveries {
                let tag = Tag::message(delivery.stream.0, &delivery.payload);
                let title = format!("{} delivers {}", scene.name(delivery.module), tag.text());
                mark(delivery.module, "delivery", title, vec![Piece::here(record(&tag))]);
            }
        }
        Seen::Drops(drops) => {
            for dropped in drops {
                let record = dropped_record(dropped);
                let word = record.reply(match dropped.number {
                    1 => "dropped".to_string(),
                    number => format!("{number} dropped"),
                });
                let pieces = vec![Piece::here(record), Piece::here(word)];
                mark(dropped.module, "drop", dropped_text(scene, dropped), pieces);
            }
        }
        Seen::Request { module, tag, refused: None } => {
            let square = Shape::Square { text: REQUEST.to_string(), broken: false };
            let title = format!("{} is asked to send {}", scene.name(*module), tag.text());
            mark(*module, "request taken", title, vec![Piece { right, shape: square }]);
        }
        Seen::Request { module, tag, refused: Some(why) } => {
            let square = Shape::Square { text: REQUEST.to_string(), broken: true };
            let reply = square.reply(why.clone());
            let title = format!("{} is asked to send {}, and refuses: {why}", scene.name(*module), tag.text());
            let pieces = vec![Piece::here(square), label(tag, 0, Anchor::Middle), Piece::here(reply)];
            mark(*module, "request refused", title, pieces);
        }
        Seen::Give { frame: number } => {
            let frame = &scene.frames[*number];
            let pill = Shape::Pill { text: pill_text(frame, *number), solid: false, broken: false };
            let title = format!("{} gives out {}", scene.name(frame.owner), frame_text(frame, *number));
            mark(frame.owner, &format!("given {}", class_of(frame.code)), title, vec![Piece { right, shape: pill }]);
        }
        Seen::GiveNothing { module, says } => {
            let pill = Shape::Pill { text: "–".to_string(), solid: false, broken: true };
            let title = format!("{} gives out no frame: {says}", scene.name(*module));
            let reply = pill.reply(*says);
            mark(*module, "nothing", title, vec![Piece::here(pill), Piece::here(reply)]);
        }
        Seen::Sending { .. } => sendings::put(scene, moment, figure),
        Seen::NoSending { frame: number } => {
            let frame = &scene.frames[*number];
            let pill = Shape::Pill { text: pill_text(frame, *number), solid: false, broken: true };
            let title = format!("{} is dead: {} is not sent", scene.name(frame.owner), frame_text(frame, *number));
            let reply = pill.reply("dead");
            mark(frame.owner, "unsent", title, vec![Piece::here(pill), Piece::here(reply)]);
        }
        Seen::Death { module } => {
            mark(*module, "death", format!("{} dies", scene.name(*module)), vec![Piece::here(Shape::End)]);
        }
        Seen::Remark => {}
    }
}
