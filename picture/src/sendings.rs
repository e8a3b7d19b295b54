//! The marks of a sending: the frame on its owner's lane, what it did to those who heard it, and who missed it.

use second::bench::Hearing;
use second::receiver::Did;
use second::reply::Reply;

use crate::held::Dropped;
use crate::marks::{class_of, dropped_record, dropped_text, frame_text, pill_text, record, Figure, Link, Mark};
use crate::scene::{Frame, Moment, Scene, Seen};
use crate::shapes::{Piece, Shape};
use crate::tag::Tag;

/// Adds the marks of a sending: its pill first, then who heard it and who missed it.
pub fn put(scene: &Scene, moment: &Moment, figure: &mut Figure) {
    let Seen::Sending { frame: number, full, heard, dropped, missed } = &moment.seen else { return };
    let frame = &scene.frames[*number];
    let class = class_of(frame.code);
    let what = frame_text(frame, *number);
    let how = if *full { "full" } else { "short" };
    let mut mark = |lane: usize, class: String, title: String, shapes: Vec<Shape>| {
        let pieces = shapes.into_iter().map(Piece::here).collect();
        figure.marks.push(Mark::of(moment, lane, class, &title, pieces));
    };
    let pill = Shape::Pill { text: pill_text(frame, *number), solid: true, broken: false };
    let title = format!("{} sends {what}: {how}", scene.name(frame.owner));
    mark(frame.owner, format!("sending {how} {class}"), title, vec![pill]);
    for hearing in heard {
        let drop = dropped.iter().find(|dropped| dropped.module == hearing.module);
        let outcome = boxed(scene, hearing, drop);
        let (kind, shapes) = hears(frame, hearing, outcome.as_ref().map(|(_, _, record)| record));
        let title = format!("{} hears {what}: {}", scene.name(hearing.module), says(hearing));
        mark(hearing.module, format!("heard {kind}"), title, shapes);
        if let Some((class, title, record)) = outcome {
            mark(hearing.module, class.to_string(), title, vec![record]);
        }
    }
    for module in missed {
        let small = !scene.has(*module, frame.tag.stream);
        let class = if small { "missed other" } else { "missed own" };
        let title = format!("{} misses {what}", scene.name(*module));
        mark(*module, class.to_string(), title, vec![Shape::Cross { small }]);
    }
    let mut reached: Vec<usize> = heard.iter().map(|hearing| hearing.module).chain(missed.iter().copied()).collect();
    reached.sort_unstable();
    figure.link = Some(Link { owner: frame.owner, reached, class, full: *full });
}

/// What a frame did, in words.
fn words(did: Did) -> String {
    did.word().replace('-', " ")
}

/// The reply, and with it what the frame did.
fn says(hearing: &Hearing) -> String {
    let reply = format!("{} {:?}", hearing.reply.number(), hearing.reply);
    match hearing.did {
        Some(did) => format!("{reply}, {}", words(did)),
        None => reply,
    }
}

/// The record that a frame made a module deliver or drop: its class, what is said of it, and its shape.
fn boxed(scene: &Scene, hearing: &Hearing, dropped: Option<&Dropped>) -> Option<(&'static str, String, Shape)> {
    if let Some(dropped) = dropped {
        return Some(("drop", dropped_text(scene, dropped), dropped_record(dropped)));
    }
    let (stream, payload) = hearing.delivered.as_ref()?;
    let tag = Tag::message(stream.0, payload);
    Some(("delivery", format!("{} delivers {}", scene.name(hearing.module), tag.text()), record(&tag)))
}

/// The class and the shapes of a hearing; a record may stand at the lane.
fn hears(frame: &Frame, hearing: &Hearing, record: Option<&Shape>) -> (String, Vec<Shape>) {
    let class = class_of(frame.code);
    let room = record.map_or(0, |record| Piece::here(record.clone()).bounds().above);
    let down = hearing.module > frame.owner;
    let arrow = |solid: bool| Shape::Arrow { down, solid, clear: room };
    let beside = |text: String| Shape::beside(&text, down, room);
    match (hearing.reply, hearing.did) {
        (Reply::Done, Some(did)) => (format!("taken {class} {}", did.word()), vec![arrow(true), beside(words(did))]),
        (Reply::NotMine, _) => (format!("other {class}"), vec![Shape::Ring]),
        _ => (format!("refused {class}"), vec![arrow(false), beside(says(hearing))]),
    }
}
