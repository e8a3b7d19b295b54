//! The head of the picture: its title, the streams with their numbers, set ups that were refused, and broken rules.

use crate::letters::{width_of, width_of_prose, wrapped, LETTER};
use crate::scene::{Scene, StreamRow};
use crate::svg::{Anchor, Svg};

const ROW: i32 = 19;
const BETWEEN: i32 = 22;
/// Longer lists of modules are written by number.
const NAMES_MOST: usize = 64;
const TITLE_LETTER: i32 = 21;
/// So many breaks of the rules are named.
const BROKEN_MOST: usize = 5;
const HEADS: [&str; 8] = ["stream", "class", "Rd", "dc", "Ra", "dd", "sent by", "received by"];

fn class_name(class: u8) -> &'static str {
    ["plain", "IMD", "2M"].get(usize::from(class)).copied().unwrap_or("?")
}

fn cells(scene: &Scene, row: &StreamRow) -> [String; 8] {
    let asked = &row.asked;
    let ticks = |number: u16| if asked.class == 0 { "–".to_string() } else { number.to_string() };
    let two = |number: u16| if asked.class == 2 { number.to_string() } else { "–".to_string() };
    let list = |modules: &[usize]| {
        let names: Vec<String> = modules.iter().map(|module| scene.name(*module)).collect();
        let numbers: Vec<String> = modules.iter().map(usize::to_string).collect();
        match names.join(", ") {
            names if names.is_empty() => "–".to_string(),
            names if names.chars().count() <= NAMES_MOST => names,
            _ => numbers.join(", "),
        }
    };
    [
        asked.stream.to_string(),
        class_name(asked.class).to_string(),
        ticks(asked.data_reach),
        two(asked.confirm_delay),
        two(asked.abort_reach),
        ticks(asked.deliver_delay),
        list(&row.senders),
        list(&row.receivers),
    ]
}

/// Draws the head from its upper left corner, at most so wide; gives its lower edge and its right one.
pub fn draw(svg: &mut Svg, scene: &Scene, title: &str, (left, top): (i32, i32), most: i32) -> (i32, i32) {
    let mut y = top - 6;
    let mut right = left;
    for line in wrapped(title, most, TITLE_LETTER) {
        y += 26;
        svg.text("title", (left, y), Anchor::Start, &line);
        right = right.max(left + width_of(&line, TITLE_LETTER));
    }
    y += 26;
    let table: Vec<[String; 8]> = scene.streams().iter().map(|row| cells(scene, row)).collect();
    let mut x = left;
    for (column, head) in HEADS.iter().enumerate() {
        let texts = table.iter().map(|row| row[column].as_str());
        svg.text("faint t", (x, y), Anchor::Start, head);
        for (at, text) in texts.clone().enumerate() {
            svg.text("", (x, y + ROW * (at as i32 + 1)), Anchor::Start, text);
        }
        let widest = texts.chain([*head]).map(|text| width_of(text, LETTER)).max().unwrap_or(0);
        right = right.max(x + widest);
        x += widest + if column + 2 < HEADS.len() && column > 1 { BETWEEN - 6 } else { BETWEEN };
    }
    y += ROW * table.len() as i32;
    for refused in &scene.refused {
        y += ROW;
        let text = format!(
            "line {}: the set up of stream {} at {} was refused: {} {:?}",
            refused.line,
            refused.stream,
            scene.name(refused.module),
            refused.reply.number(),
            refused.reply
        );
        svg.text("faint", (left, y), Anchor::Start, &text);
        right = right.max(left + width_of(&text, LETTER));
    }
    y += 6;
    for (class, text) in rules(scene) {
        // Digits and names are wider than prose.
        for line in wrapped(&text, most * 9 / 10, LETTER) {
            y += ROW;
            svg.text(class, (left, y), Anchor::Start, &line);
            right = right.max(left + width_of_prose(&line, LETTER));
        }
    }
    (y + 10, right)
}

/// Whether the history keeps the bench rules, and where it breaks them.
fn rules(scene: &Scene) -> Vec<(&'static str, String)> {
    if scene.broken.is_empty() {
        return vec![("keeps", "The history keeps the bench rules.".to_string())];
    }
    let mut says: Vec<(&str, String)> =
        scene.broken.iter().take(BROKEN_MOST).map(|text| ("breaks", text.clone())).collect();
    if scene.broken.len() > BROKEN_MOST {
        says.push(("breaks", format!("and {} more", scene.broken.len() - BROKEN_MOST)));
    }
    says
}
