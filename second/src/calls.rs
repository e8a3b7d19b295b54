//! The text format of `calls`: one node and its tally, driven by lines of text.

use std::fmt::Write;

use crate::bench::LOOK_EACH;
use crate::call_counts::{Call, CallCounts};
use crate::fault::Fault;
use crate::fields::{Fields, Unread};
use crate::lines::Cut;
use crate::node::{Node, Ticked, TICK_OUTPUT};
use crate::reply::{Reply, Tally};
use crate::settings::Asked;
use crate::words::{hex, put_hex};

/// What a lent output is filled with before a call.
const FILL: u8 = 0xee;
const OUTPUT_MOST: u64 = 1_024;
const TICKS_MOST: u64 = 65_536;

/// A line that was read.
enum Line {
    Node,
    SetUp(Asked),
    Hear { id: u32, dlc: u8, payload: Vec<u8>, output: usize },
    Tick { output: usize },
    Ticks { number: u64 },
    Request { stream: u32, payload: Vec<u8> },
    Next { output: usize },
    Tally,
}

/// The seven numbers of a set up from one place on, as both text formats have them.
pub fn read_asked(fields: &Fields, from: usize) -> Result<Asked, Unread> {
    Ok(Asked {
        stream: fields.u32(from)?,
        role: fields.u8(from + 1)?,
        class: fields.u8(from + 2)?,
        data_reach: fields.u16(from + 3)?,
        confirm_delay: fields.u16(from + 4)?,
        abort_reach: fields.u16(from + 5)?,
        deliver_delay: fields.u16(from + 6)?,
    })
}

pub fn write_asked(asked: &Asked) -> String {
    let Asked { stream, role, class, data_reach, confirm_delay, abort_reach, deliver_delay } = asked;
    format!("{stream} {role} {class} {data_reach} {confirm_delay} {abort_reach} {deliver_delay}")
}

/// The forms of the lines.
const FORMS: [&str; 8] = [
    "node",
    "setup STREAM ROLE CLASS RD DC RA DD",
    "hear IDENT DLC PAYLOAD OUT",
    "tick OUT",
    "ticks N",
    "request STREAM PAYLOAD",
    "next OUT",
    "tally",
];

fn read(line: &[u8]) -> Result<Line, Unread> {
    let fields = Fields::of(line, &FORMS)?;
    let output = |at: usize| Ok(fields.number(at, OUTPUT_MOST)? as usize);
    Ok(match fields.verb() {
        "node" => Line::Node,
        "setup" => Line::SetUp(read_asked(&fields, 1)?),
        "hear" => {
            Line::Hear { id: fields.u32(1)?, dlc: fields.u8(2)?, payload: fields.payload(3)?, output: output(4)? }
        }
        "tick" => Line::Tick { output: output(1)? },
        "ticks" => Line::Ticks { number: fields.number(1, TICKS_MOST)? },
        "request" => Line::Request { stream: fields.u32(1)?, payload: fields.payload(2)? },
        "next" => Line::Next { output: output(1)? },
        _ => Line::Tally,
    })
}

/// Why a line can't be read; none if it can.
pub fn why_unread(line: &[u8]) -> Option<Unread> {
    read(line).err()
}

/// One node and its tally; before the first `node` they are fresh.
pub struct Calls {
    node: Node,
    tally: Tally,
    fault: Fault,
    /// What happened since the program began.
    pub seen: CallCounts,
}

impl Calls {
    pub fn new(fault: Fault) -> Calls {
        Calls { node: Node::with(fault), tally: Tally::default(), fault, seen: CallCounts::default() }
    }

    pub fn answer_cut(&mut self, line: Cut) -> String {
        if line.cut {
            return self.unreadable();
        }
        self.answer(line.bytes)
    }

    /// The answer to a line.
    pub fn answer(&mut self, line: &[u8]) -> String {
        match read(line) {
            Ok(Line::Node) => self.start(),
            Ok(line) => {
                let before = self.node.now();
                let answer = self.run(line);
                self.seen.rollovers += self.node.now() / 65_536 - before / 65_536;
                answer
            }
            Err(_) => self.unreadable(),
        }
    }

    /// As when the program begins: a fresh node and tally.
    pub fn begin(&mut self) {
        self.node = Node::with(self.fault);
        self.tally = Tally::default();
    }

    fn start(&mut self) -> String {
        self.begin();
        self.seen.nodes += 1;
        "node".to_string()
    }

    fn unreadable(&mut self) -> String {
        self.seen.unreadable += 1;
        "?".to_string()
    }

    fn count(&mut self, call: Call, reply: Reply) {
        self.seen.replies[call as usize][reply.place()] += 1;
        match self.fault {
            Fault::InventedTally => self.tally.count(Reply::Done),
            Fault::TallyMissesRefusals if reply != Reply::Done => {}
            Fault::TallyOfFour if reply >= Reply::IdentifierTooBig => self.tally.count(Reply::BadFrame),
            _ => self.tally.count(reply),
        }
    }

    fn run(&mut self, line: Line) -> String {
        match line {
            Line::Node => self.start(),
            Line::SetUp(asked) => {
                let reply = self.node.set_up(asked);
                self.count(Call::SetUp, reply);
                if reply == Reply::Done {
                    self.seen.set_up(asked.class, asked.role);
                }
                reply.number().to_string()
            }
            Line::Hear { id, dlc, payload, output } => self.hear(id, dlc, &payload, output),
            Line::Tick { output } => {
                let mut lent = vec![FILL; output];
                let ticked = self.tick(&mut lent);
                self.seen.told(&ticked);
                let Ticked { reply, written, dropped, delivered, .. } = ticked;
                let clean = if lent[written..].iter().all(|byte| *byte == FILL) { "clean" } else { "dirty" };
                format!("{} {written} {} {clean} {dropped} {delivered}", reply.number(), hex(&lent[..written]))
            }
            Line::Ticks { number } => self.ticks(number),
            Line::Request { stream, payload } => {
                let reply = self.node.request(stream, &payload);
                self.count(Call::Request, reply);
                reply.number().to_string()
            }
            Line::Next { output } => {
                let mut lent = vec![FILL; output];
                let next = self.node.next_frame(&mut lent);
                self.count(Call::NextFrame, next.reply);
                format!("{} {} {} {}", next.reply.number(), next.id.0, next.length, hex(&lent))
            }
            Line::Tally => {
                let counts: Vec<String> = self.tally.counts().iter().map(u32::to_string).collect();
                counts.join(" ")
            }
        }
    }

    fn hear(&mut self, id: u32, dlc: u8, payload: &[u8], output: usize) -> String {
        let mut lent = vec![FILL; output];
        let heard = self.node.hear(id, dlc, payload, &mut lent);
        self.count(Call::Hear, heard.reply);
        self.seen.heard(dlc, payload.len());
        self.seen.aborts += u64::from(heard.causes_abort);
        let told = match heard.did {
            Some(did) => {
                self.seen.deeds.count(did);
                did.word()
            }
            None => "-",
        };
        format!("{} {} {} {told}", heard.reply.number(), heard.written, hex(&lent))
    }

    fn tick(&mut self, lent: &mut [u8]) -> Ticked {
        let ticked = self.node.tick(lent);
        self.count(Call::Tick, ticked.reply);
        self.seen.ticked(&ticked);
        ticked
    }

    fn ticks(&mut self, number: u64) -> String {
        let mut text = String::new();
        let mut lent = [FILL; TICK_OUTPUT];
        for at in 1..=number {
            if at % LOOK_EACH == 0 && self.node.is_idle() {
                let rest = number - at + 1;
                self.node.pass(rest);
                (0..rest).for_each(|_| self.count(Call::Tick, Reply::Done));
                break;
            }
            let written = self.tick(&mut lent).written;
            if written > 0 {
                let _ = write!(text, "{at} ");
                put_hex(&mut text, &lent[..written]);
                text.push(' ');
            }
        }
        let _ = write!(text, "{}", self.node.counter());
        text
    }
}
