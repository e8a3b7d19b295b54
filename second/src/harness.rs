//! The text format of `harness`: a bench driven by lines of text, and its lines and answers written and read back.

use std::fmt::Write;

use crate::bench::{Bench, Delivery, Drops, Hearing, Outcome, Step};
use crate::calls::{read_asked, write_asked};
use crate::fault::Fault;
use crate::fields::{Fields, Unread};
use crate::history::{Event, Hearers, Line};
use crate::ident::{BusId, Stream};
use crate::lines::Cut;
use crate::receiver::Did;
use crate::reply::Reply;
use crate::words::{hex, number, number_u32, payload, put_hex};

/// The most ticks that one line may ask for, and the most modules of a bench.
const TICKS_MOST: u64 = 1_000_000;
const MODULES_MOST: usize = 8;

/// Empty lines and lines that begin with `#` are skipped.
pub fn skipped(line: &[u8]) -> bool {
    line.is_empty() || line[0] == b'#'
}

/// What the lines before have made: so many modules, and so many frames given out.
#[derive(Clone, Copy, Debug, PartialEq, Eq)]
pub struct Stand {
    pub modules: usize,
    pub frames: usize,
}

impl Stand {
    fn of(bench: &Bench) -> Stand {
        Stand { modules: bench.modules().len(), frames: bench.frames().len() }
    }

    fn no_module(self, named: &str) -> String {
        format!("there is no module {named}: they are 0 to {}", self.modules - 1)
    }

    fn no_frame(self, named: &str) -> String {
        match self.frames {
            0 => format!("there is no frame {named}: none is given out so far"),
            1 => format!("there is no frame {named}: only frame 0 is given out so far"),
            frames => format!("there is no frame {named}: given out so far are 0 to {}", frames - 1),
        }
    }
}

/// The forms of the lines.
const FORMS: [&str; 9] = [
    "modules N",
    "setup M STREAM ROLE CLASS RD DC RA DD",
    "request M STREAM PAYLOAD",
    "give M",
    "full F",
    "short F M ..",
    "tick",
    "ticks N",
    "death M",
];

/// A line that can be taken where it stands: its modules and frames are there.
pub fn read_line(line: &[u8], stand: Option<Stand>) -> Result<Line, Unread> {
    let fields = Fields::of(line, &FORMS)?;
    if fields.verb() == "modules" {
        return read_modules(&fields);
    }
    let stand = stand.ok_or_else(|| Unread::new("no line `modules N` stands before it"))?;
    let module = |at: usize| fields.below(at, stand.modules, |named| stand.no_module(named));
    let frame = |at: usize| fields.below(at, stand.frames, |named| stand.no_frame(named));
    Ok(Line::Event(match fields.verb() {
        "setup" => return Ok(Line::SetUp { module: module(1)?, asked: read_asked(&fields, 2)? }),
        "request" => Event::Request { module: module(1)?, stream: fields.u32(2)?, payload: fields.payload(3)? },
        "give" => Event::Give { module: module(1)? },
        "full" => Event::Send { frame: frame(1)?, hearers: Hearers::Full },
        "short" => {
            let frame = frame(1)?;
            let names: Result<Vec<usize>, Unread> = (2..fields.count()).map(module).collect();
            Event::Send { frame, hearers: Hearers::Short(names?) }
        }
        "tick" => Event::Tick,
        "ticks" => Event::Ticks(fields.number(1, TICKS_MOST)?),
        _ => Event::Death { module: module(1)? },
    }))
}

fn read_modules(fields: &Fields) -> Result<Line, Unread> {
    let other = |named: &str| format!("there are 2 to 8 modules, and not {named}");
    match fields.below(1, MODULES_MOST + 1, other)? {
        few @ (0 | 1) => Err(Unread::new(other(&few.to_string()))),
        count => Ok(Line::Modules(count)),
    }
}

/// Why a line answers `?` where the lines before have made this.
pub fn why_unread(line: &[u8], stand: Option<Stand>) -> Unread {
    match read_line(line, stand) {
        Err(unread) => unread,
        Ok(Line::Event(Event::Give { .. })) => Unread::new("no more frames can be given out"),
        Ok(_) => Unread::new("it can't be read"),
    }
}

fn read(line: &[u8], bench: Option<&Bench>) -> Option<Line> {
    read_line(line, bench.map(Stand::of)).ok()
}

/// Whether a line can be read where this bench stands.
pub fn reads(line: &[u8], bench: &Bench) -> bool {
    !skipped(line) && read(line, Some(bench)).is_some()
}

/// The lines of a script that begins with `modules`; what can't be read where it stands is kept as it is.
pub fn read_script(text: &[u8]) -> Vec<Line> {
    let mut bench: Option<Bench> = None;
    let mut lines = Vec::new();
    for text in text.split(|byte| *byte == b'\n') {
        let line = read(text, bench.as_ref()).unwrap_or_else(|| Line::Other(text.to_vec()));
        match (&line, &mut bench) {
            (Line::Modules(count), _) => bench = Some(Bench::new(*count)),
            (Line::SetUp { module, asked }, Some(bench)) => {
                bench.set_up(*module, *asked);
            }
            (Line::Event(event), Some(bench)) => {
                bench.run(event);
            }
            _ => {}
        }
        lines.push(line);
    }
    lines
}

/// The text of a line.
pub fn write_line(line: &Line) -> Vec<u8> {
    let text = match line {
        Line::Modules(count) => format!("modules {count}"),
        Line::SetUp { module, asked } => format!("setup {module} {}", write_asked(asked)),
        Line::Event(Event::Request { module, stream, payload }) => {
            format!("request {module} {stream} {}", hex(payload))
        }
        Line::Event(Event::Give { module }) => format!("give {module}"),
        Line::Event(Event::Send { frame, hearers: Hearers::Full }) => format!("full {frame}"),
        Line::Event(Event::Send { frame, hearers: Hearers::Short(names) }) => {
            let mut text = format!("short {frame}");
            for name in names {
                let _ = write!(text, " {name}");
            }
            text
        }
        Line::Event(Event::Tick) => "tick".to_string(),
        Line::Event(Event::Ticks(number)) => format!("ticks {number}"),
        Line::Event(Event::Death { module }) => format!("death {module}"),
        Line::Other(bytes) => return bytes.clone(),
    };
    text.into_bytes()
}

/// The text of a script.
pub fn write_script(lines: &[Line]) -> Vec<u8> {
    let mut text = Vec::new();
    for line in lines {
        text.extend(write_line(line));
        text.push(b'\n');
    }
    text
}

/// The answer to an event.
pub fn write_answer(event: &Event, outcome: &Outcome) -> String {
    match outcome {
        Outcome::Replied(reply) => reply.number().to_string(),
        Outcome::Dead => "dead".to_string(),
        Outcome::Refused => "?".to_string(),
        Outcome::NothingPending => Reply::Nothing.number().to_string(),
        Outcome::Gave { frame, id, payload } => format!("0 {frame} {} {}", id.0, hex(payload)),
        Outcome::Heard(hearings) => {
            let mut text = String::new();
            for hearing in hearings {
                if !text.is_empty() {
                    text.push(' ');
                }
                put_hearing(&mut text, hearing);
            }
            if text.is_empty() {
                text.push('-');
            }
            text
        }
        Outcome::Ticked { count, dropped, delivered } => {
            let mut text = count.to_string();
            let place = |text: &mut String, tick: u64, module: usize| {
                text.push(' ');
                if let Event::Ticks(_) = event {
                    let _ = write!(text, "{tick}:");
                }
                let _ = write!(text, "{module}:");
            };
            let mut drops = dropped.iter().peekable();
            let mut put_drops = |text: &mut String, until: Option<(u64, usize)>| {
                let due = |drops: &&Drops| until.is_none_or(|until| (drops.tick, drops.module) <= until);
                while let Some(drops) = drops.next_if(due) {
                    place(text, drops.tick, drops.module);
                    let _ = write!(text, "{DROPPED}:{}", drops.number);
                }
            };
            for delivery in delivered {
                // A module's drops stand before its deliveries of the tick.
                put_drops(&mut text, Some((delivery.tick, delivery.module)));
                place(&mut text, delivery.tick, delivery.module);
                let _ = write!(text, "{}:", delivery.stream.0);
                put_hex(&mut text, &delivery.payload);
            }
            put_drops(&mut text, None);
            text
        }
    }
}

/// What stands in place of a stream before the number of messages that a tick dropped.
const DROPPED: &str = "dropped";

/// A refusal by its number alone; what a frame did that was taken, and what was delivered at once.
fn put_hearing(text: &mut String, hearing: &Hearing) {
    let _ = write!(text, "{}:{}", hearing.module, hearing.reply.number());
    if let (Reply::Done, Some(did)) = (hearing.reply, hearing.did) {
        let _ = write!(text, ":{}", did.word());
    }
    if let Some((stream, payload)) = &hearing.delivered {
        let _ = write!(text, ":{}:", stream.0);
        put_hex(text, payload);
    }
}

/// The outcome that an answer tells of; none if it is no answer to such an event.
pub fn read_answer(event: &Event, answer: &str) -> Option<Outcome> {
    let words: Vec<&str> = answer.split(' ').collect();
    let value = |word: &str| number(word.as_bytes(), u64::MAX);
    let reply = |word: &str| value(word).and_then(Reply::from_number);
    let index = |word: &str| value(word).and_then(|value| usize::try_from(value).ok());
    let stream = |word: &str| number_u32(word.as_bytes()).map(Stream);
    let bytes = |word: &str| payload(word.as_bytes());
    match (event, words.as_slice()) {
        (Event::Death { .. } | Event::Request { .. } | Event::Give { .. } | Event::Send { .. }, ["dead"]) => {
            Some(Outcome::Dead)
        }
        (Event::Give { .. } | Event::Send { .. }, ["?"]) => Some(Outcome::Refused),
        (Event::Request { .. }, [word]) => Some(Outcome::Replied(reply(word)?)),
        (Event::Give { .. }, ["12"]) => Some(Outcome::NothingPending),
        (Event::Give { .. }, ["0", frame, id, payload]) => Some(Outcome::Gave {
            frame: index(frame)?,
            id: BusId(number_u32(id.as_bytes())?),
            payload: bytes(payload)?,
        }),
        (Event::Send { .. }, ["-"]) => Some(Outcome::Heard(Vec::new())),
        (Event::Send { .. }, hearings) => {
            let read = |word: &&str| {
                let fields: Vec<&str> = word.split(':').collect();
                let [module, number, told @ ..] = fields.as_slice() else {
                    return None;
                };
                let (module, reply) = (index(module)?, reply(number)?);
                let (did, delivered) = match (reply, told) {
                    (Reply::Done, [did]) => (Some(Did::from_word(did)?), None),
                    (Reply::Done, [did, of, payload]) => {
                        (Some(Did::from_word(did)?), Some((stream(of)?, bytes(payload)?)))
                    }
                    (Reply::Done, _) => return None,
                    (_, []) => (None, None),
                    _ => return None,
                };
                let at_once = did == Some(Did::DeliveredAtOnce);
                (at_once == delivered.is_some()).then_some(Hearing { module, reply, did, delivered })
            };
            hearings.iter().map(read).collect::<Option<Vec<Hearing>>>().map(Outcome::Heard)
        }
        (Event::Tick | Event::Ticks(_), [count, happened @ ..]) => {
            let count = value(count)?;
            let (mut dropped, mut delivered) = (Vec::new(), Vec::new());
            for word in happened {
                let fields: Vec<&str> = word.split(':').collect();
                let (tick, fields) = match (event, fields.as_slice()) {
                    (Event::Ticks(_), [tick, fields @ ..]) => (value(tick)?, fields),
                    (_, fields) => (count, fields),
                };
                let [module, what, rest] = fields else {
                    return None;
                };
                let module = index(module)?;
                if *what == DROPPED {
                    dropped.push(Drops { tick, module, number: index(rest).filter(|number| *number > 0)? });
                } else {
                    delivered.push(Delivery { tick, module, stream: stream(what)?, payload: bytes(rest)? });
                }
            }
            Some(Outcome::Ticked { count, dropped, delivered })
        }
        _ => None,
    }
}

/// A bench, once there is one, driven by lines of text.
pub struct Harness {
    bench: Option<Bench>,
    fault: Fault,
}

impl Harness {
    pub fn new(fault: Fault) -> Harness {
        Harness { bench: None, fault }
    }

    pub fn answer_cut(&mut self, line: Cut) -> Option<String> {
        if line.cut && !skipped(line.bytes) {
            return Some("?".to_string());
        }
        self.answer(line.bytes)
    }

    /// The answer to a line; none if it is skipped.
    pub fn answer(&mut self, line: &[u8]) -> Option<String> {
        if skipped(line) {
            return None;
        }
        let Some(line) = read(line, self.bench.as_ref()) else {
            return Some("?".to_string());
        };
        Some(match (line, &mut self.bench) {
            (Line::Modules(count), _) => {
                self.bench = Some(Bench::with(count, self.fault));
                format!("modules {count}")
            }
            (Line::SetUp { module, asked }, Some(bench)) => bench.set_up(module, asked).number().to_string(),
            (Line::Event(event), Some(bench)) => {
                let Step { outcome, .. } = bench.run(&event);
                write_answer(&event, &outcome)
            }
            _ => "?".to_string(),
        })
    }
}
