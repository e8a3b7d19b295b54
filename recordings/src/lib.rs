//! Bus logs in the format of `candump -L` turned into recordings of heard records, and recordings into such logs.

pub mod candump;
pub mod record;
pub mod show;
pub mod troubles;
mod window;

/// What ended the work before its end.
#[derive(Debug)]
pub enum Stop {
    Unread(std::io::Error),
    Unwritten(std::io::Error),
}

/// The length of a tick in microseconds, where none is named.
pub const TICK_US: u32 = 1_000;
