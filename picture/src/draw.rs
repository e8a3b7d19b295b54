//! The whole sheet: head, rows, legend.

use crate::bars;
use crate::lanes::{draw_row, Lane};
use crate::letters::{cut, width_of_bold, LETTER};
use crate::rows::{death, rows};
use crate::scene::Scene;
use crate::style::style;
use crate::svg::Svg;
use crate::{head, legend};

/// The widest sheet; a report's page and a laptop's window show one of this width legibly.
const SHEET_MOST: i32 = 1000;
const SHEET_LEAST: i32 = 720;
const MARGIN: i32 = 22;
const ROW_ROOM: i32 = 26;
/// The longest name in letters that is shown beside a lane.
const NAME_MOST: usize = 18;

/// Draws a scene; `name` stands for a title that it does not have.
pub fn draw(scene: &Scene, name: &str) -> String {
    let mut svg = Svg::default();
    let most = SHEET_MOST - 2 * MARGIN;
    let title = scene.title.as_deref().unwrap_or(name);
    let names: Vec<String> = (0..scene.names.len()).map(|module| cut(&scene.name(module), NAME_MOST)).collect();
    let gutter = names.iter().map(|name| width_of_bold(name, LETTER)).max().unwrap_or(0) + 10;
    let rows = rows(scene, most - gutter);
    let deaths: Vec<_> = (0..names.len()).map(|lane| death(&rows, lane)).collect();
    let bars = bars::fragments(scene, &rows);
    let (mut y, right) = head::draw(&mut svg, scene, title, (MARGIN, MARGIN), most);
    let longest = rows.iter().zip(&bars).map(|(row, bars)| row.width.max(bars.right())).max().unwrap_or(0);
    let inner = (gutter + longest).max(right - MARGIN).max(SHEET_LEAST - 2 * MARGIN);
    y += ROW_ROOM / 2;
    for (at, (row, bars)) in rows.iter().zip(&bars).enumerate() {
        let end = |lane: usize| match deaths[lane] {
            Some(place) if place.row < at => None,
            Some(place) if place.row == at => Some(place.x),
            _ => Some(row.width),
        };
        let lanes: Vec<Lane> = names.iter().enumerate().map(|(lane, name)| Lane { name, end: end(lane) }).collect();
        y = draw_row(&mut svg, row, bars, &lanes, &scene.notes, (MARGIN + gutter, y), MARGIN + inner) + ROW_ROOM;
    }
    y = legend::draw(&mut svg, scene, &rows, (MARGIN, y), inner);
    svg.finish((inner + 2 * MARGIN, y + MARGIN), title, &style())
}
