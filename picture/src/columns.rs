//! The time line: a column for each tick, with what happened in it from left to right, and for each long quiet stretch.

use std::collections::BTreeMap;

use crate::letters::width_of;
use crate::marks::{figure, run, Figure};
use crate::scene::{Moment, Scene, Seen};

/// So many quiet ticks in a row are folded into one column.
const FOLD_LEAST: u64 = 7;
/// The least width of a tick, and the letters of its number.
const TICK_LEAST: i32 = 27;
pub const TICK_LETTER: i32 = 12;
/// The room that the number of a note takes to either side.
const NOTE_HALF: i32 = 10;

/// What stands at one place of the time line.
#[derive(Clone, Debug)]
pub struct Slot {
    pub figure: Figure,
    /// The room that it takes to either side of its place.
    pub left: i32,
    pub right: i32,
    pub note: Option<usize>,
    /// Deliveries and drops, which belong to the tick itself.
    pub settled: bool,
}

impl Slot {
    /// How far beside its place the request of this line ends, if it stands here.
    pub fn request_of(&self, line: usize) -> Option<i32> {
        let mark = self.figure.marks.iter().find(|mark| mark.line == line && mark.class == "request taken")?;
        mark.pieces.first().map(|piece| piece.right)
    }

    pub fn width(&self) -> i32 {
        self.left + self.right
    }
}

#[derive(Clone, Debug)]
pub enum Column {
    Tick {
        tick: u64,
        slots: Vec<Slot>,
        /// A window ends just after this tick.
        ends: bool,
    },
    Fold {
        ticks: u64,
    },
}

impl Column {
    pub fn slots(&self) -> &[Slot] {
        match self {
            Column::Tick { slots, .. } => slots,
            Column::Fold { .. } => &[],
        }
    }

    /// Its width if nothing happens in it.
    pub fn quiet_width(&self) -> i32 {
        match self {
            Column::Tick { tick, .. } => tick_width(*tick, false),
            Column::Fold { ticks } => width_of(&fold_text(*ticks), TICK_LETTER) + 20,
        }
    }
}

pub fn tick_text(tick: u64, continued: bool) -> String {
    if continued {
        format!("{tick} …")
    } else {
        tick.to_string()
    }
}

pub fn fold_text(ticks: u64) -> String {
    format!("{ticks} ticks")
}

/// The width of a tick in which nothing happens.
pub fn tick_width(tick: u64, continued: bool) -> i32 {
    TICK_LEAST.max(width_of(&tick_text(tick, continued), TICK_LETTER) + 8)
}

/// The columns of a history.
pub fn columns(scene: &Scene) -> Vec<Column> {
    let mut ticks: BTreeMap<u64, Vec<&Moment>> = BTreeMap::new();
    let ends: Vec<u64> = scene.windows.iter().map(|window| window.until).filter(|until| *until <= scene.end).collect();
    for tick in ends.iter().copied().chain([0, scene.end]) {
        ticks.entry(tick).or_default();
    }
    for moment in &scene.moments {
        ticks.entry(moment.tick).or_default().push(moment);
    }
    let mut columns = Vec::new();
    let mut next = 0;
    for (tick, moments) in ticks {
        put_quiet(next, tick, &mut columns);
        columns.push(Column::Tick { tick, slots: slots(scene, &moments), ends: ends.contains(&tick) });
        next = tick + 1;
    }
    columns
}

/// The quiet ticks before `until`.
fn put_quiet(from: u64, until: u64, columns: &mut Vec<Column>) {
    if until - from >= FOLD_LEAST {
        columns.push(Column::Fold { ticks: until - from });
    } else {
        columns.extend((from..until).map(|tick| Column::Tick { tick, slots: Vec::new(), ends: false }));
    }
}

fn slots(scene: &Scene, moments: &[&Moment]) -> Vec<Slot> {
    let mut slots = Vec::new();
    let mut at = 0;
    while at < moments.len() {
        let taken = &moments[at..at + run(scene, &moments[at..])];
        slots.push(slot(scene, taken));
        at += taken.len();
    }
    slots
}

fn slot(scene: &Scene, moments: &[&Moment]) -> Slot {
    let figure = figure(scene, moments);
    let note = moments.iter().find_map(|moment| moment.note);
    let least = if note.is_some() { NOTE_HALF } else { 0 };
    let bounds = figure.bounds();
    let settled = moments.iter().all(|moment| matches!(moment.seen, Seen::Deliveries(_) | Seen::Drops(_)));
    Slot { figure, left: bounds.left.max(least), right: bounds.right.max(least), note, settled }
}
