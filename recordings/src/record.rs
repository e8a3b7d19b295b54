//! From a log to a recording.

use std::io::{BufRead, Write};

use second::fields::about;
use second::heard::{bytes, Record};
use second::lines::next_line;
use second::pairs::Trouble;

use crate::candump::{read, Heard, LeftOut};
use crate::troubles::Troubles;
use crate::Stop;

/// What became of a log's lines.
#[derive(Clone, Debug, Default, PartialEq, Eq)]
pub struct Recorded {
    pub records: u64,
    /// Lines that can't be read, or not be recorded.
    pub troubles: Troubles,
    /// Gaps that the counter is too short for.
    pub lost: Troubles,
    short_identifiers: u64,
    remote: u64,
    error: u64,
}

impl Recorded {
    /// What was left out, if anything was.
    pub fn left_out(&self) -> Option<String> {
        let counts = [
            ("11-bit identifiers", self.short_identifiers),
            ("remote frames", self.remote),
            ("error frames", self.error),
        ];
        let said: Vec<String> =
            counts.iter().filter(|(_, count)| *count > 0).map(|(what, count)| format!("{what} {count}")).collect();
        (!said.is_empty()).then(|| format!("left out: {}", said.join(", ")))
    }
}

/// A frame that was recorded: its line, and its tick.
struct Last {
    line: usize,
    tick: u64,
}

struct Recorder<W> {
    tick_us: u32,
    out: W,
    interface: Option<(usize, Vec<u8>)>,
    last: Option<Last>,
    recorded: Recorded,
}

/// Writes the recording of a log. Lines that are empty or begin with `#` are skipped; the troubles say which could not be
/// recorded.
pub fn record(mut log: impl BufRead, tick_us: u32, out: impl Write) -> Result<Recorded, Stop> {
    let mut recorder = Recorder { tick_us, out, interface: None, last: None, recorded: Recorded::default() };
    let mut line = Vec::new();
    let mut number = 0;
    while let Some(cut) = next_line(&mut log, &mut line).map_err(Stop::Unread)? {
        number += 1;
        if line.is_empty() || line[0] == b'#' {
            continue;
        }
        let taken = if cut { Err("it is too long".to_string()) } else { recorder.take(number, &line) };
        match taken {
            Ok(Some(record)) => recorder.out.write_all(&record).map_err(Stop::Unwritten)?,
            Ok(None) => {}
            Err(says) => recorder.recorded.troubles.push(Trouble::new(number, about(&says, &line))),
        }
    }
    recorder.out.flush().map_err(Stop::Unwritten)?;
    Ok(recorder.recorded)
}

impl<W> Recorder<W> {
    /// The record of a line, none where its frame is left out.
    fn take(&mut self, line: usize, text: &[u8]) -> Result<Option<Vec<u8>>, String> {
        let logged = read(text)?;
        let (first, interface) = self.interface.get_or_insert_with(|| (line, logged.interface.to_vec()));
        if interface != logged.interface {
            let shown = String::from_utf8_lossy(interface);
            return Err(format!("line {first} is of {shown}, and a recording is of one bus"));
        }
        let (id, dlc, payload) = match logged.heard {
            Heard::Frame { id, dlc, payload } => (id, dlc, payload),
            Heard::LeftOut(left) => {
                self.leave_out(left);
                return Ok(None);
            }
        };
        let tick = logged.microseconds / u64::from(self.tick_us);
        if let Some(last) = &self.last {
            let Some(gap) = tick.checked_sub(last.tick) else {
                return Err(format!("its tick is {tick}, and line {} was at {} already", last.line, last.tick));
            };
            if gap >= COUNTER {
                let says = format!("{gap} ticks after line {}, of which {} are recorded", last.line, gap % COUNTER);
                self.recorded.lost.push(Trouble::new(line, says));
            }
        }
        self.last = Some(Last { line, tick });
        self.recorded.records += 1;
        let record = Record { counter: (tick % COUNTER) as u16, id, dlc, payload };
        bytes(&record).map(Some).map_err(|refusal| format!("{refusal:?}"))
    }

    fn leave_out(&mut self, left: LeftOut) {
        let count = match left {
            LeftOut::ShortIdentifier => &mut self.recorded.short_identifiers,
            LeftOut::Remote => &mut self.recorded.remote,
            LeftOut::Error => &mut self.recorded.error,
        };
        *count += 1;
    }
}

/// A record's counter is below this.
const COUNTER: u64 = 65_536;
