//! A history of the bench: its events, and the lines of a script that runs it.

use crate::settings::Asked;

/// Who hears a sending.
#[derive(Clone, Debug, PartialEq, Eq, Hash)]
pub enum Hearers {
    /// Every other live module.
    Full,
    /// Those named, of the other live modules.
    Short(Vec<usize>),
}

/// What may happen on a bench. Frames are numbered as they are given out, from 0.
#[derive(Clone, Debug, PartialEq, Eq, Hash)]
pub enum Event {
    Request {
        module: usize,
        stream: u32,
        payload: Vec<u8>,
    },
    Give {
        module: usize,
    },
    Send {
        frame: usize,
        hearers: Hearers,
    },
    Tick,
    /// That many common ticks in a row.
    Ticks(u64),
    Death {
        module: usize,
    },
}

/// A line of a script.
#[derive(Clone, Debug, PartialEq, Eq, Hash)]
pub enum Line {
    Modules(usize),
    SetUp {
        module: usize,
        asked: Asked,
    },
    Event(Event),
    /// A line that can't be read, or that is skipped.
    Other(Vec<u8>),
}
