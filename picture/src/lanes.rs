//! A row of the picture: ticks, lanes with their marks, and notes below them.

use crate::bars::Bars;
use crate::columns::{fold_text, tick_text};
use crate::letters::{wrapped, LETTER};
use crate::rows::{Cell, Row};
use crate::shapes::Bounds;
use crate::svg::{Anchor, Svg};

/// The least room above and below a lane, and between two lanes.
const LANE_HALF: i32 = 12;
const LANE_ROOM: i32 = 4;
const NOTES: i32 = 24;
const RULER: i32 = 20;
const NOTE_LINE: i32 = 19;

/// A row's place on the sheet.
pub struct Ground {
    /// Where its time line begins.
    pub left: i32,
    /// The middle of each lane, and its upper and lower edge.
    pub lanes: Vec<(i32, i32, i32)>,
    /// Where the bars of windows begin.
    pub bars: i32,
    /// The base line of the ticks' numbers.
    pub ruler: i32,
}

/// A lane's name, and how far it goes on the row: none if it has ended before.
pub struct Lane<'a> {
    pub name: &'a str,
    pub end: Option<i32>,
}

/// Draws a row from its upper left corner and gives its lower edge. Notes may be as long as `right`.
pub fn draw_row(
    svg: &mut Svg,
    row: &Row,
    bars: &Bars,
    lanes: &[Lane],
    notes: &[String],
    (left, top): (i32, i32),
    right: i32,
) -> i32 {
    let noted: Vec<usize> = row.slots().filter_map(|(_, slot)| slot.note).collect();
    let ruler = top + if noted.is_empty() { 0 } else { NOTES } + RULER - 6;
    let mut y = ruler + 8;
    let mut ground = Ground { left, lanes: Vec::new(), bars: y, ruler };
    y += bars.height();
    for lane in 0..lanes.len() {
        let bounds = row.slots().fold(Bounds::default(), |all, (_, slot)| all.join(slot.figure.bounds_on(lane)));
        let middle = y + bounds.above.max(LANE_HALF) + LANE_ROOM;
        let bottom = middle + bounds.below.max(LANE_HALF) + LANE_ROOM;
        ground.lanes.push((middle, y, bottom));
        y = bottom;
    }
    bars.draw_shades(svg, &ground);
    draw_ticks(svg, row, &ground);
    bars.draw_bars(svg, &ground);
    draw_lanes(svg, row, lanes, &ground);
    draw_links(svg, row, &ground);
    draw_marks(svg, row, &ground);
    y += if noted.is_empty() { 0 } else { 8 };
    for note in noted {
        for (at, line) in wrapped(&notes[note - 1], right - left - 24, LETTER).iter().enumerate() {
            y += NOTE_LINE;
            if at == 0 {
                badge(svg, note, (left + 8, y - 5));
            }
            svg.text("", (left + 24, y), Anchor::Start, line);
        }
        y += 3;
    }
    y
}

/// A note's number.
fn badge(svg: &mut Svg, note: usize, (x, y): (i32, i32)) {
    svg.circle("s", (x, y), 9);
    svg.text("on r", (x, y + 4), Anchor::Middle, &note.to_string());
}

fn draw_ticks(svg: &mut Svg, row: &Row, ground: &Ground) {
    let bottom = ground.lanes.last().map_or(ground.bars, |lane| lane.2);
    svg.text("faint t", (ground.left - 10, ground.ruler), Anchor::End, "tick");
    for placed in &row.cells {
        let x = ground.left + placed.x;
        match &placed.cell {
            Cell::Tick { tick, continued, .. } => {
                if !continued {
                    svg.line("grid", (x, ground.ruler - 10), (x, bottom));
                }
                svg.text("t", (x + 4, ground.ruler), Anchor::Start, &tick_text(*tick, *continued));
            }
            Cell::Fold { ticks, width } => {
                svg.line("grid", (x, ground.ruler - 10), (x, bottom));
                svg.text("faint t", (x + width / 2, ground.ruler), Anchor::Middle, &fold_text(*ticks));
            }
        }
    }
}

fn draw_lanes(svg: &mut Svg, row: &Row, lanes: &[Lane], ground: &Ground) {
    for (lane, (y, ..)) in lanes.iter().zip(&ground.lanes) {
        let class = if lane.end.is_some() { "name" } else { "faint" };
        svg.text(class, (ground.left - 10, y + 5), Anchor::End, lane.name);
        let end = lane.end.unwrap_or(0);
        let cells = row.cells.iter().map(|placed| {
            let class = if matches!(placed.cell, Cell::Fold { .. }) { "lane fold" } else { "lane" };
            (class, placed.x, placed.x + placed.cell.width())
        });
        let last = row.cells.last().map_or(0, |placed| placed.x + placed.cell.width());
        for (class, from, until) in cells.chain([("lane", last, row.width)]) {
            if from < until.min(end) {
                svg.line(class, (ground.left + from, *y), (ground.left + until.min(end), *y));
            }
        }
    }
}

fn draw_links(svg: &mut Svg, row: &Row, ground: &Ground) {
    for (x, slot) in row.slots() {
        let Some(link) = &slot.figure.link else { continue };
        let lanes = || link.reached.iter().chain([&link.owner]).map(|lane| ground.lanes[*lane].0);
        let (top, bottom) = (lanes().min().unwrap_or(0), lanes().max().unwrap_or(0));
        let class = if link.full { "link" } else { "link short" };
        svg.line(&format!("{class} {}", link.class), (ground.left + x, top), (ground.left + x, bottom));
    }
}

fn draw_marks(svg: &mut Svg, row: &Row, ground: &Ground) {
    for (x, slot) in row.slots() {
        if let Some(note) = slot.note {
            badge(svg, note, (ground.left + x, ground.ruler - RULER - 4));
        }
        for mark in &slot.figure.marks {
            let place = (ground.left + x, ground.lanes[mark.lane].0);
            svg.group(&format!("mark {}", mark.class), &mark.title, |svg| {
                mark.pieces.iter().for_each(|piece| piece.draw(svg, place));
            });
        }
    }
}
