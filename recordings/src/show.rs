//! From a recording to a log.

use std::io::{Read, Write};

use crate::candump::write;
use crate::troubles::Troubles;
use crate::window::Window;
use crate::Stop;

/// Writes the log of a recording. Ticks are counted from 0, as in a replay. What is said is which records candump has no
/// line for, and which record is at fault, at which the log ends.
pub fn show(recording: impl Read, tick_us: u32, mut out: impl Write) -> Result<Troubles, Stop> {
    let mut troubles = Troubles::default();
    let mut window = Window::new(recording);
    let mut ticks: u64 = 0;
    while let Some((offset, record)) = window.next().map_err(Stop::Unread)? {
        let record = match record {
            Ok(record) => record,
            Err(refusal) => {
                troubles.push(format!("offset {offset}: {} {refusal:?}", refusal.number()));
                break;
            }
        };
        ticks += u64::from(record.counter.wrapping_sub(ticks as u16));
        match write(u128::from(ticks) * u128::from(tick_us), &record) {
            Ok(line) => writeln!(out, "{line}").map_err(Stop::Unwritten)?,
            Err(says) => troubles.push(format!("offset {offset}: {says}")),
        }
    }
    out.flush().map_err(Stop::Unwritten)?;
    Ok(troubles)
}
