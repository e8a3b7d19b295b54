//! Where a history breaks the bench rules, and how, in words.

use std::fmt;

use crate::fault::Fault;
use crate::history::{Event, Line};
use crate::ident::{Code, Stream};
use crate::pairs::Pair;
use crate::rules::{Book, Break, Broken};
use crate::settings::Role;
use crate::told::{judged_by_line, Judged};
use crate::words::hex;

/// A rule that is broken.
#[derive(Clone, Debug, PartialEq, Eq)]
pub struct Finding {
    /// The number of the line in the file.
    pub line: usize,
    pub broken: Broken,
    pub says: String,
}

impl Finding {
    /// The rule by its number.
    pub fn rule(&self) -> String {
        match self.broken.what.rule() {
            0 => "settings rule".to_string(),
            rule => format!("rule {rule}"),
        }
    }
}

impl fmt::Display for Finding {
    fn fmt(&self, f: &mut fmt::Formatter) -> fmt::Result {
        write!(f, "line {}: breaks {}, {:?}: {}", self.line, self.rule(), self.broken.what, self.says)
    }
}

/// What a history breaks, in the order of its lines. The rules are judged as this implementation runs them.
pub fn findings(pairs: &[Pair]) -> Vec<Finding> {
    let lines: Vec<Line> = pairs.iter().map(Pair::asks).collect();
    let judged = judged_by_line(&lines, Fault::None);
    let script = Script { pairs, lines: &lines, judged: &judged };
    let so_far = judged.judge.broken();
    let mut found: Vec<(usize, Broken, String)> =
        so_far.iter().zip(&judged.broken_at).map(|(broken, at)| (*at, *broken, script.says(*at, broken))).collect();
    let mut streams = judged.judge.without_one_sender().into_iter();
    for broken in &judged.judge.verdict().broken[so_far.len()..] {
        let (at, says) = match broken.message {
            Some(message) => script.omissions(message),
            None => script.senders(streams.next().unwrap_or(Stream(0))),
        };
        found.push((at, *broken, says));
    }
    found.sort_by_key(|(at, ..)| *at);
    found.into_iter().map(|(at, broken, says)| Finding { line: pairs[at].line, broken, says }).collect()
}

/// A script and what came of it.
struct Script<'a> {
    pairs: &'a [Pair],
    lines: &'a [Line],
    judged: &'a Judged,
}

impl Script<'_> {
    /// What was broken at a place of the script.
    fn says(&self, at: usize, broken: &Broken) -> String {
        let judge = &self.judged.judge;
        let book = broken.book.map(|at| &judge.books()[at]);
        let frame = book.map_or(String::new(), |book| self.frame(book));
        let end = book.and_then(|book| judge.end_of_reach(book)).unwrap_or_default();
        match broken.what {
            Break::LateSettings => "settings are made before anything else".to_string(),
            Break::UnequalSettings => match &self.lines[at] {
                Line::SetUp { asked, .. } => {
                    format!("stream {} has another class or other numbers where it was set up before", asked.stream)
                }
                _ => String::new(),
            },
            Break::NotGivenOut => "the frame was not given out".to_string(),
            Break::OwnerDead => format!("{frame} is sent, and its module is dead"),
            Break::AfterFull => format!("{frame} is sent again after a full sending"),
            Break::Unsent => format!("{frame} was not sent by tick {end}, the end of its reach"),
            Break::DataLate | Break::ConfirmationLate | Break::AbortLate => {
                format!("{frame} is sent after tick {end}, the end of its reach")
            }
            Break::ConfirmationFirst => format!("{frame} is sent before its data"),
            Break::DataAfterConfirmation => format!("{frame} is sent after its confirmation"),
            Break::DeadActs => self.dead(&self.lines[at]),
            Break::NotOneSender | Break::TwoOmissions => String::new(),
        }
    }

    fn dead(&self, line: &Line) -> String {
        match line {
            Line::Event(Event::Death { module }) => format!("module {module} is dead already"),
            Line::Event(Event::Request { module, .. }) => {
                format!("module {module} is dead, and a request is made of it")
            }
            Line::Event(Event::Give { module }) => format!("module {module} is dead, and is to give out a frame"),
            _ => String::new(),
        }
    }

    /// The two omissions of a message, and the last line that sends one of them.
    fn omissions(&self, message: usize) -> (usize, String) {
        let books = self.judged.judge.books().iter();
        let omitted = books.filter(|book| book.message == Some(message) && book.is_omission());
        let frames: Vec<usize> = omitted.filter_map(|book| book.given).collect();
        let sends = |line: &Line| matches!(line, Line::Event(Event::Send { frame, .. }) if frames.contains(frame));
        let at = self.lines.iter().rposition(sends).unwrap_or_default();
        let numbers: Vec<String> = frames.iter().map(usize::to_string).collect();
        let message = self.message(message);
        (at, format!("frames {} of {message} each have a short sending as their last", numbers.join(" and ")))
    }

    /// What is wrong with the senders of a stream, and the set up that shows it.
    fn senders(&self, stream: Stream) -> (usize, String) {
        let set_ups = self.judged.set_up_at.iter().filter(|(_, settings)| settings.stream == stream);
        let senders: Vec<usize> =
            set_ups.clone().filter(|(_, settings)| settings.role == Role::Send).map(|(at, _)| *at).collect();
        let first = set_ups.map(|(at, _)| *at).next().unwrap_or_default();
        match senders.get(1) {
            Some(second) => (*second, format!("stream {} has {} senders", stream.0, senders.len())),
            None => (first, format!("stream {} has no sender", stream.0)),
        }
    }

    /// A frame as it is named: its number once it is given out, its module, what it is, and of which message.
    fn frame(&self, book: &Book) -> String {
        let code = match book.code {
            Code::Data => "data",
            Code::Confirmation => "confirmation",
            Code::Abort => "abort",
            Code::Plain => "plain frame",
        };
        let number = book.given.map_or(String::new(), |number| format!(", frame {number},"));
        let message = book.message.map_or(format!("stream {}", book.stream.0), |message| self.message(message));
        match book.code {
            Code::Abort => format!("the {code} by module {}{number} of {message}", book.owner),
            _ => format!("the {code}{number} of {message}"),
        }
    }

    /// A message as STREAM:PAYLOAD, and the line of its request.
    fn message(&self, number: usize) -> String {
        let at = self.judged.asked_at[number];
        match &self.lines[at] {
            Line::Event(Event::Request { stream, payload, .. }) => {
                format!("{stream}:{} (requested in line {})", hex(payload), self.pairs[at].line)
            }
            _ => String::new(),
        }
    }
}
