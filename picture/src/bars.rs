//! The windows on the rows: a bar with the message and how its window ended, and the shade on the lanes that have it.

use second::messages::End;

use crate::lanes::Ground;
use crate::letters::{width_of_bold, width_of_mono, LETTER};
use crate::rows::{extent, Row};
use crate::scene::Scene;
use crate::svg::{Anchor, Svg};
use crate::windows::Window;

const BAR: i32 = 20;
const BAR_ROOM: i32 = 4;
const WORD_LETTER: i32 = 13;

/// What of a window falls on a row.
struct Fragment<'a> {
    window: &'a Window,
    from: i32,
    until: i32,
    begins: bool,
    ends: bool,
    /// Bars that would overlap stand on different levels.
    level: usize,
}

#[derive(Default)]
pub struct Bars<'a> {
    fragments: Vec<Fragment<'a>>,
    levels: usize,
}

/// The bars of each row.
pub fn fragments<'a>(scene: &'a Scene, rows: &[Row]) -> Vec<Bars<'a>> {
    let mut bars: Vec<Bars> = rows.iter().map(|_| Bars::default()).collect();
    for window in &scene.windows {
        let (from, until) = extent(rows, window);
        for (at, row) in rows.iter().enumerate().take(until.row + 1).skip(from.row) {
            let (begins, ends) = (at == from.row, at == until.row);
            let fragment = Fragment {
                window,
                from: if begins { from.x } else { 0 },
                until: if ends { until.x } else { row.width },
                begins,
                ends,
                level: 0,
            };
            bars[at].put(fragment);
        }
    }
    bars
}

impl Fragment<'_> {
    fn label(&self) -> String {
        let text = self.window.tag.lines().join("");
        if self.begins {
            text
        } else {
            format!("… {text}")
        }
    }

    fn word(&self) -> String {
        self.window.word()
    }

    fn word_width(&self) -> i32 {
        if self.ends {
            width_of_bold(&self.word(), WORD_LETTER) + 14
        } else {
            0
        }
    }

    /// Where the bar's letters end: beyond the bar if it is short.
    fn right(&self) -> i32 {
        self.until.max(self.from + self.word_width())
    }

    fn has_label(&self) -> bool {
        self.from + width_of_mono(&self.label(), LETTER) + 12 + self.word_width() <= self.right()
    }
}

impl<'a> Bars<'a> {
    fn put(&mut self, mut fragment: Fragment<'a>) {
        let is_free = |level: usize, fragments: &[Fragment]| {
            let apart = |other: &Fragment| other.right() + 2 <= fragment.from || fragment.right() + 2 <= other.from;
            fragments.iter().filter(|other| other.level == level).all(apart)
        };
        let level = (0..).find(|level| is_free(*level, &self.fragments)).unwrap_or(0);
        fragment.level = level;
        self.levels = self.levels.max(level + 1);
        self.fragments.push(fragment);
    }

    /// Where the bars end.
    pub fn right(&self) -> i32 {
        self.fragments.iter().map(Fragment::right).max().unwrap_or(0)
    }

    pub fn height(&self) -> i32 {
        self.levels as i32 * (BAR + BAR_ROOM)
    }

    /// Shades the lanes of the sender and the receivers.
    pub fn draw_shades(&self, svg: &mut Svg, ground: &Ground) {
        for fragment in &self.fragments {
            let has = |lane: usize| lane == fragment.window.sender || fragment.window.receivers.contains(&lane);
            let (from, until) = (ground.left + fragment.from, ground.left + fragment.until);
            let mut lane = 0;
            while lane < ground.lanes.len() {
                let last = (lane..ground.lanes.len()).take_while(|lane| has(*lane)).last();
                if let Some(last) = last {
                    let (top, bottom) = (ground.lanes[lane].1, ground.lanes[last].2);
                    svg.rect("shade", (from, top), (until - from, bottom - top), 0);
                    if fragment.ends && fragment.window.end != End::Open {
                        svg.line("edge", (until, top), (until, bottom));
                    }
                    lane = last;
                }
                lane += 1;
            }
        }
    }

    pub fn draw_bars(&self, svg: &mut Svg, ground: &Ground) {
        for fragment in &self.fragments {
            let window = fragment.window;
            let top = ground.bars + fragment.level as i32 * (BAR + BAR_ROOM);
            let (from, right) = (ground.left + fragment.from, ground.left + fragment.right());
            let class = if fragment.begins { "window" } else { "window-continued" };
            let title = format!(
                "window of {} from tick {} to just after tick {}: {}",
                window.tag.text(),
                window.from,
                window.until,
                fragment.word()
            );
            svg.group(class, &title, |svg| {
                svg.rect("bar", (from, top), (right - from, BAR), 2);
                if fragment.has_label() {
                    svg.text("p", (from + 6, top + 15), Anchor::Start, &fragment.label());
                }
            });
            if fragment.ends {
                let width = fragment.word_width();
                svg.group(&format!("verdict {}", window.end.word()), &title, |svg| {
                    let class = if window.end == End::Open { "h broken" } else { "s" };
                    svg.rect(class, (right - width, top), (width, BAR), 2);
                    let class = if window.end == End::Open { "" } else { "on" };
                    svg.text(class, (right - width / 2, top + 15), Anchor::Middle, &fragment.word());
                });
            }
        }
    }
}
