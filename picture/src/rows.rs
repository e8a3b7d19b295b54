//! The time line broken into rows, as a score is, and places found on them.

use second::messages::End;

use crate::columns::{columns, tick_width, Column, Slot};
use crate::scene::Scene;
use crate::windows::Window;

/// The room at the end of a row, at either side of a tick, and between two places in it.
const ROW_ROOM: i32 = 14;
const TICK_ROOM: i32 = 8;
const BETWEEN: i32 = 9;

/// A part of a row: a tick, or what of it stands in this row, or a fold.
#[derive(Clone, Debug)]
pub enum Cell {
    Tick {
        tick: u64,
        /// The tick began in the row before.
        continued: bool,
        /// The places, with how far from the cell's left edge they are.
        slots: Vec<(i32, Slot)>,
        ends: bool,
        width: i32,
    },
    Fold {
        ticks: u64,
        width: i32,
    },
}

impl Cell {
    pub fn width(&self) -> i32 {
        match self {
            Cell::Tick { width, .. } | Cell::Fold { width, .. } => *width,
        }
    }

    pub fn slots(&self) -> &[(i32, Slot)] {
        match self {
            Cell::Tick { slots, .. } => slots,
            Cell::Fold { .. } => &[],
        }
    }

    fn shows(&self) -> bool {
        match self {
            Cell::Tick { slots, ends, .. } => *ends || !slots.is_empty(),
            Cell::Fold { .. } => false,
        }
    }
}

/// A cell and where it begins in its row.
#[derive(Clone, Debug)]
pub struct Placed {
    pub x: i32,
    pub cell: Cell,
}

#[derive(Clone, Debug, Default)]
pub struct Row {
    pub cells: Vec<Placed>,
    pub width: i32,
}

impl Row {
    /// The places of the row, with how far along it they are.
    pub fn slots(&self) -> impl Iterator<Item = (i32, &Slot)> {
        self.cells.iter().flat_map(|placed| placed.cell.slots().iter().map(|(x, slot)| (placed.x + x, slot)))
    }

    /// Whether there is anything in it but time going by.
    pub fn shows(&self) -> bool {
        self.cells.iter().any(|placed| placed.cell.shows())
    }
}

/// A place: the row, and how far along it.
#[derive(Clone, Copy, Debug, PartialEq, Eq, PartialOrd, Ord)]
pub struct Place {
    pub row: usize,
    pub x: i32,
}

/// As few rows as fit into a width, and none of them longer than that number of rows needs.
pub fn rows(scene: &Scene, most: i32) -> Vec<Row> {
    let columns = columns(scene);
    let mut rows = filled(&columns, most);
    let (mut less, mut enough) = (widest(&columns).min(most), most);
    while less + 1 < enough {
        let width = (less + enough) / 2;
        let tried = filled(&columns, width);
        if tried.len() == rows.len() && tried.iter().all(Row::shows) {
            (rows, enough) = (tried, width);
        } else {
            less = width;
        }
    }
    rows
}

fn widest(columns: &[Column]) -> i32 {
    columns.iter().flat_map(Column::slots).map(Slot::width).max().unwrap_or(0) + 2 * TICK_ROOM + ROW_ROOM
}

/// The columns in rows of a width. A row is longer only where a single place needs it.
fn filled(columns: &[Column], width: i32) -> Vec<Row> {
    let width = width - ROW_ROOM;
    let last = columns.iter().rposition(|column| !column.slots().is_empty()).map_or(0, |at| at + 1);
    let tail: i32 = columns[last..].iter().map(Column::quiet_width).sum();
    // Where only time goes by after the last place, it goes by in the same row.
    let joins = tail <= width / 2;
    let mut filling = Filling { width, rows: vec![Row { cells: Vec::new(), width: ROW_ROOM }] };
    for (at, column) in columns.iter().enumerate() {
        let stays = joins && at >= last;
        let after = if joins && at + 1 == last { tail } else { 0 };
        match column {
            Column::Fold { ticks } => filling.put(Cell::Fold { ticks: *ticks, width: column.quiet_width() }, stays),
            Column::Tick { tick, slots, ends } => filling.put_tick(*tick, slots, *ends, after, stays),
        }
    }
    filling.rows
}

struct Filling {
    width: i32,
    rows: Vec<Row>,
}

impl Filling {
    fn row(&mut self) -> &mut Row {
        let last = self.rows.len() - 1;
        &mut self.rows[last]
    }

    /// What is left of the row.
    fn room(&self) -> i32 {
        self.width - self.rows.last().map_or(0, |row| row.width - ROW_ROOM)
    }

    fn has_begun(&self) -> bool {
        self.rows.last().is_some_and(|row| !row.cells.is_empty())
    }

    /// Puts a cell, in the next row if there is no room for it and it need not stay.
    fn put(&mut self, cell: Cell, stays: bool) {
        if self.has_begun() && !stays && cell.width() > self.room() {
            self.rows.push(Row { cells: Vec::new(), width: ROW_ROOM });
        }
        let row = self.row();
        let x = row.width - ROW_ROOM;
        row.width += cell.width();
        row.cells.push(Placed { x, cell });
    }

    /// Puts a tick, in as many cells as there are rows that it reaches. Its last place leaves room for what comes after it.
    fn put_tick(&mut self, tick: u64, slots: &[Slot], ends: bool, after: i32, stays: bool) {
        let mut width = tick_width(tick, false);
        let mut placed: Vec<(i32, Slot)> = Vec::new();
        let mut continued = false;
        let mut right = TICK_ROOM;
        for (at, slot) in slots.iter().enumerate() {
            let after = if at + 1 == slots.len() { after } else { 0 };
            let needs = |right: i32| right + slot.width() + TICK_ROOM + after;
            let is_first = placed.is_empty() && !self.has_begun();
            if !is_first && needs(right) > self.room() {
                if !placed.is_empty() {
                    let slots = std::mem::take(&mut placed);
                    self.put(Cell::Tick { tick, continued, slots, ends: false, width }, true);
                    continued = true;
                }
                self.rows.push(Row { cells: Vec::new(), width: ROW_ROOM });
                width = tick_width(tick, continued);
                right = TICK_ROOM;
            }
            let x = right + slot.left;
            right = x + slot.right + BETWEEN;
            width = width.max(x + slot.right + TICK_ROOM);
            placed.push((x, slot.clone()));
        }
        self.put(Cell::Tick { tick, continued, slots: placed, ends, width }, stays || !slots.is_empty());
    }
}

/// Where a lane ends, if its module dies.
pub fn death(rows: &[Row], lane: usize) -> Option<Place> {
    let dies = |slot: &Slot| slot.figure.marks.iter().any(|mark| mark.class == "death" && mark.lane == lane);
    let mut places = rows.iter().enumerate().flat_map(|(row, it)| it.slots().map(move |(x, slot)| (row, x, slot)));
    places.find(|(_, _, slot)| dies(slot)).map(|(row, x, _)| Place { row, x })
}

/// Where a window begins and ends.
pub fn extent(rows: &[Row], window: &Window) -> (Place, Place) {
    let whole = Place { row: rows.len() - 1, x: rows.last().map_or(0, |row| row.width) };
    let mut from = Place { row: 0, x: 0 };
    let mut until = whole;
    for (row, placed) in rows.iter().enumerate().flat_map(|(at, row)| row.cells.iter().map(move |it| (at, it))) {
        let request = |(x, slot): &(i32, Slot)| slot.request_of(window.line).map(|right| x + right);
        if let Some(x) = placed.cell.slots().iter().find_map(request) {
            from = Place { row, x: placed.x + x };
        }
        if window.end == End::Open {
            continue;
        }
        match &placed.cell {
            Cell::Tick { tick, continued, slots, .. } if *tick == window.until => {
                let settled = slots.iter().rev().find(|(_, slot)| slot.settled);
                match settled {
                    Some((x, slot)) => until = Place { row, x: placed.x + x + slot.right + 4 },
                    None if !continued && placed.x == 0 && row > 0 => {
                        until = Place { row: row - 1, x: rows[row - 1].width };
                    }
                    None if !continued => until = Place { row, x: placed.x },
                    None => {}
                }
            }
            _ => {}
        }
    }
    (from, until)
}
