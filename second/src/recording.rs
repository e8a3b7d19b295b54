//! The text format of `recording`: a list of settings, replays over it, and heard records written.

use std::fmt::Write;

use crate::calls::read_asked;
use crate::fields::{Fields, Unread};
use crate::harness::skipped;
use crate::heard::{write_by, Record};
use crate::lines::Cut;
use crate::node::Node;
use crate::recording_counts::RecordingCounts;
use crate::recording_faults::Wrong;
use crate::replay::{replay_by, Delivery, Making};
use crate::settings::Asked;
use crate::words::{hex, put_hex};

/// What a lent output is filled with before a record is written.
const FILL: u8 = 0xee;
const OUTPUT_MOST: u64 = 1_024;
/// The most entries of the list of settings.
pub const SETTINGS_MOST: usize = 40;

/// The forms of the lines.
const FORMS: [&str; 4] =
    ["settings", "setting STREAM ROLE CLASS RD DC RA DD", "replay BYTES", "write COUNTER IDENT DLC PAYLOAD OUT"];

/// A line that was read.
enum Line {
    Settings,
    Setting(Asked),
    Replay(Vec<u8>),
    Write { record: Record, output: usize },
}

fn read(line: &[u8]) -> Result<Line, Unread> {
    let fields = Fields::of(line, &FORMS)?;
    Ok(match fields.verb() {
        "settings" => Line::Settings,
        "setting" => Line::Setting(read_asked(&fields, 1)?),
        "replay" => Line::Replay(fields.bytes(1)?),
        _ => {
            let (counter, id, dlc) = (fields.u16(1)?, fields.u32(2)?, fields.u8(3)?);
            let record = Record { counter, id, dlc, payload: fields.payload(4)? };
            Line::Write { record, output: fields.number(5, OUTPUT_MOST)? as usize }
        }
    })
}

/// The list of settings, and what happened since the program began.
pub struct Recording {
    settings: Vec<Asked>,
    making: Making,
    /// The node of the replay before, over the same list. Only a mutant looks at it.
    left: Option<Node>,
    pub seen: RecordingCounts,
}

impl Recording {
    pub fn new(making: Making) -> Recording {
        Recording { settings: Vec::new(), making, left: None, seen: RecordingCounts::default() }
    }

    /// The answer to a line that may have been cut; an empty line and one that begins with `#` have none.
    pub fn answer_cut(&mut self, line: Cut) -> Option<String> {
        match line.cut {
            true if !skipped(line.bytes) => Some("?".to_string()),
            _ => self.answer(line.bytes),
        }
    }

    pub fn answer(&mut self, line: &[u8]) -> Option<String> {
        if skipped(line) {
            self.seen.skipped += 1;
            return None;
        }
        let answer = match read(line) {
            Ok(line) => self.run(line),
            Err(_) => None,
        };
        self.seen.unreadable += u64::from(answer.is_none());
        Some(answer.unwrap_or("?".to_string()))
    }

    fn run(&mut self, line: Line) -> Option<String> {
        let wrong = self.making.wrong;
        match line {
            Line::Settings => {
                if wrong != Wrong::SettingsStay {
                    self.settings.clear();
                }
                self.left = None;
                Some("settings".to_string())
            }
            Line::Setting(asked) => {
                let number = self.settings.len();
                let most = match wrong {
                    Wrong::ThirtyTwo => 32,
                    Wrong::FortyOne => SETTINGS_MOST + 1,
                    _ => SETTINGS_MOST,
                };
                if number >= most {
                    self.seen.full_lists += 1;
                    return None;
                }
                self.settings.push(asked);
                self.left = None;
                Some((number + usize::from(wrong == Wrong::NumberFromOne)).to_string())
            }
            Line::Replay(bytes) => {
                let replayed = replay_by(self.making, &self.settings, &bytes, &mut self.left);
                self.seen.replayed(&self.settings, &bytes, &replayed);
                let mut text = format!("{} {}", replayed.reply, replayed.offset);
                for Delivery { tick, stream, payload } in &replayed.deliveries {
                    let _ = write!(text, " {tick}:{}:", stream.0);
                    put_hex(&mut text, payload);
                }
                Some(text)
            }
            Line::Write { record, output } => {
                let mut lent = vec![FILL; output];
                let (reply, written) = match write_by(wrong, &record, &mut lent) {
                    Ok(written) => (0, written),
                    Err(refusal) => (refusal.number(), 0),
                };
                self.seen.written(reply);
                Some(format!("{reply} {written} {}", hex(&lent)))
            }
        }
    }
}

/// What the program `replay` prints of a recording.
pub fn printed(recording: &[u8], making: Making) -> String {
    let replayed = replay_by(making, &[MOMENTS_STREAM], recording, &mut None);
    let mut text = String::new();
    for Delivery { tick, stream, payload } in &replayed.deliveries {
        let _ = write!(text, "{tick} {} {}", stream.0, payload.len());
        if !payload.is_empty() {
            text.push(' ');
            put_hex(&mut text, payload);
        }
        text.push('\n');
    }
    if replayed.reply != 0 {
        let _ = writeln!(text, "{} {}", replayed.reply, replayed.offset);
    }
    text
}

/// The moments' stream 5, which the program `replay` receives.
pub const MOMENTS_STREAM: Asked =
    Asked { stream: 5, role: 0, class: 2, data_reach: 2, confirm_delay: 3, abort_reach: 2, deliver_delay: 6 };
