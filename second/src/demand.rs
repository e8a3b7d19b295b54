//! Demand 3, checked on what a bench answered: all or none, all if full, other traffic moves nothing, same order.

use std::fmt;

use crate::bench::Outcome;
use crate::history::{Event, Line};
use crate::ident::Stream;
use crate::messages::{Account, Message, Received};
use crate::settings::{Class, Settings};

/// A history with what was answered to each event.
#[derive(Clone, Debug, Default)]
pub struct Told {
    pub modules: usize,
    /// The set ups that were taken.
    pub set_ups: Vec<(usize, Settings)>,
    pub events: Vec<(Event, Outcome)>,
}

/// The four parts of demand 3.
#[derive(Clone, Copy, Debug, PartialEq, Eq, PartialOrd, Ord, Hash)]
pub enum Part {
    AllOrNone,
    AllIfFull,
    OtherTraffic,
    SameOrder,
}

impl Part {
    pub const ALL: [Part; 4] = [Part::AllOrNone, Part::AllIfFull, Part::OtherTraffic, Part::SameOrder];

    pub fn name(self) -> &'static str {
        match self {
            Part::AllOrNone => "all or none",
            Part::AllIfFull => "all if full",
            Part::OtherTraffic => "other traffic",
            Part::SameOrder => "same order",
        }
    }
}

#[derive(Clone, Debug, PartialEq, Eq)]
pub struct Failure {
    pub part: Part,
    pub says: String,
}

impl fmt::Display for Failure {
    fn fmt(&self, f: &mut fmt::Formatter) -> fmt::Result {
        write!(f, "{}: {}", self.part.name(), self.says)
    }
}

/// What was looked at while checking.
#[derive(Clone, Copy, Debug, Default, PartialEq, Eq)]
pub struct Looked {
    /// Messages that every live receiver delivered.
    pub all: u64,
    /// Messages that no live receiver delivered.
    pub none: u64,
    /// Messages with no live receiver.
    pub nobody: u64,
    /// Messages whose data and confirmation were full.
    pub full: u64,
    /// Pairs of messages whose order was compared between two receivers.
    pub ordered: u64,
}

/// All or none, and all if full, of the two-message requests that `judged` lets be judged.
pub fn check_messages(told: &Told, judged: impl Fn(usize) -> bool, looked: &mut Looked) -> Vec<Failure> {
    let mut failures = Vec::new();
    for (number, message) in Account::of(told).messages.iter().enumerate() {
        if message.settings.class != Class::TwoMessage || !message.is_over() || !judged(number) {
            continue;
        }
        let (all, none, nobody) = (message.is_all(), message.is_none(), message.live().next().is_none());
        let full = message.data_full && message.confirmation_full;
        looked.nobody += u64::from(nobody);
        looked.all += u64::from(all && !nobody);
        looked.none += u64::from(none && !nobody);
        looked.full += u64::from(full);
        if !all && !none {
            failures.push(Failure { part: Part::AllOrNone, says: counts(message) });
        }
        if full && !all {
            failures.push(Failure { part: Part::AllIfFull, says: counts(message) });
        }
    }
    failures
}

fn counts(message: &Message) -> String {
    let count = |receiver: &Received| format!("module {}: {}", receiver.module, receiver.delivered.len());
    let counts: Vec<String> = message.live().map(count).collect();
    format!(
        "stream {}, requested at {}, judged at {}: deliveries by {}",
        message.settings.stream.0,
        message.requested,
        message.moment(),
        counts.join(", ")
    )
}

/// Same order: two receivers deliver two 2M messages, whose data each had a full sending, in the same order.
pub fn check_order(told: &Told, looked: &mut Looked) -> Vec<Failure> {
    let account = Account::of(told);
    let mut lists: Vec<Vec<usize>> = vec![Vec::new(); told.modules];
    for (delivery, message) in &account.deliveries {
        let Some(number) = *message else { continue };
        let message = &account.messages[number];
        let list = &mut lists[delivery.module];
        if message.settings.class == Class::TwoMessage && message.data_full && !list.contains(&number) {
            list.push(number);
        }
    }
    let mut failures = Vec::new();
    for one in 0..told.modules {
        for other in one + 1..told.modules {
            let common = |list: &Vec<usize>, among: &Vec<usize>| -> Vec<usize> {
                list.iter().copied().filter(|number| among.contains(number)).collect()
            };
            let (first, second) = (common(&lists[one], &lists[other]), common(&lists[other], &lists[one]));
            let pairs = first.len() * first.len().saturating_sub(1) / 2;
            looked.ordered += pairs as u64;
            if first != second {
                let says = format!("modules {one} and {other} delivered messages {first:?} and {second:?}");
                failures.push(Failure { part: Part::SameOrder, says });
            }
        }
    }
    failures
}

/// The history without every request, giving out and sending that concerns another stream; `told` says what was
/// given out. Frames are numbered anew.
pub fn alone(lines: &[Line], told: &Told, stream: Stream) -> Vec<Line> {
    let mut kept = Vec::new();
    let mut new_numbers: Vec<Option<usize>> = Vec::new();
    let mut given = 0;
    let mut events = told.events.iter();
    for line in lines {
        let Line::Event(event) = line else {
            if !matches!(line, Line::Other(_)) {
                kept.push(line.clone());
            }
            continue;
        };
        let outcome = events.next().map(|(_, outcome)| outcome);
        let keep = match (event, outcome) {
            (Event::Request { stream: other, .. }, _) => (*other == stream.0).then(|| event.clone()),
            (Event::Give { .. }, Some(Outcome::Gave { id, .. })) => {
                let ours = Stream(id.0 / 4) == stream;
                new_numbers.push(ours.then_some(given));
                given += usize::from(ours);
                ours.then(|| event.clone())
            }
            (Event::Send { frame, hearers }, _) => {
                new_numbers.get(*frame).copied().flatten().map(|frame| Event::Send { frame, hearers: hearers.clone() })
            }
            _ => Some(event.clone()),
        };
        kept.extend(keep.map(Line::Event));
    }
    kept
}

/// Other traffic moves nothing: a stream's deliveries are the same in the history without other traffic.
pub fn check_alone(whole: &Told, alone: &Told, stream: Stream) -> Option<Failure> {
    let of = |told: &Told| -> Vec<(u64, usize, Vec<u8>)> {
        let account = Account::of(told);
        let ours = account.deliveries.into_iter().filter(|(delivery, _)| delivery.stream == stream);
        ours.map(|(delivery, _)| (delivery.tick, delivery.module, delivery.payload)).collect()
    };
    let (with, without) = (of(whole), of(alone));
    (with != without).then(|| Failure {
        part: Part::OtherTraffic,
        says: format!("stream {}: {with:?} with other traffic, {without:?} without", stream.0),
    })
}
