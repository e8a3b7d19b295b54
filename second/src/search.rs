//! A search through every history of one message that keeps the rules, up to equal states, with demand 3 checked at
//! the end of each: one sender and two receivers.

use std::collections::HashMap;
use std::time::Instant;

use crate::bench::{Bench, Outcome};
use crate::fault::Fault;
use crate::history::{Event, Hearers, Line};
use crate::ident::{Code, Stream};
use crate::node::Part;
use crate::rules::{Book, Judge};
use crate::settings::Asked;

pub const STREAM: u32 = 5;
const SENDER: usize = 0;
const RECEIVERS: [usize; 2] = [1, 2];
const MODULES: usize = 3;

/// A confirmation that is repeated within a tick can cause one abort after the other without end. More than this many
/// aborts of one module that became pending at one tick are not followed: they do what a repeat of the first would do.
pub const ABORTS_MOST: usize = 2;

/// How many histories from a state on end in which way: all delivered, none did, no receiver was live. Loops through
/// equal states are not counted. The numbers are huge, and rounded.
#[derive(Clone, Copy, Debug, Default)]
pub struct Ends {
    pub ways: [f64; 3],
}

impl Ends {
    fn add(&mut self, other: Ends) {
        for (way, more) in self.ways.iter_mut().zip(other.ways) {
            *way += more;
        }
    }
}

#[derive(Clone)]
struct State {
    bench: Bench,
    judge: Judge,
    /// How often each receiver has delivered.
    delivered: [u8; RECEIVERS.len()],
}

/// Why a search stopped.
pub enum Stop {
    /// A history that keeps the rules and breaks demand 3.
    Found(Vec<Event>),
    OutOfTime,
}

/// What a search went through.
#[derive(Clone, Copy, Debug, Default)]
pub struct Extent {
    pub states: usize,
    pub transitions: u64,
    /// States in which a history that keeps the rules has ended, by way of ending.
    pub end_states: [u64; 3],
    /// Sendings that would have made more aborts pending than are followed.
    pub cut: u64,
}

struct Search {
    deadline: Instant,
    /// The last tick: one beyond data reach plus deliver delay.
    moment: u64,
    seen: HashMap<Vec<u8>, Ends>,
    path: Vec<Event>,
    extent: Extent,
}

/// The lines that set the bench up.
pub fn set_ups(asked: Asked) -> Vec<Line> {
    let mut lines = vec![Line::Modules(MODULES), Line::SetUp { module: SENDER, asked: Asked { role: 1, ..asked } }];
    lines.extend(RECEIVERS.iter().map(|module| Line::SetUp { module: *module, asked }));
    lines
}

/// Explores all histories of one message with these settings.
pub fn explore(asked: Asked, fault: Fault, deadline: Instant) -> (Extent, Result<Ends, Stop>) {
    let mut bench = Bench::with(MODULES, fault);
    let mut judge = Judge::new(MODULES);
    for line in set_ups(asked) {
        if let Line::SetUp { module, asked } = line {
            bench.set_up(module, asked);
            if let Some(settings) = asked.tested_by(fault) {
                judge.set_up(settings);
            }
        }
    }
    let mut search = Search {
        deadline,
        moment: u64::from(asked.data_reach) + u64::from(asked.deliver_delay) + 1,
        seen: HashMap::new(),
        path: Vec::new(),
        extent: Extent::default(),
    };
    let mut state = State { bench, judge, delivered: [0; RECEIVERS.len()] };
    let request = Event::Request { module: SENDER, stream: STREAM, payload: Vec::new() };
    state.happens(&request);
    search.path.push(request);
    let ends = search.visit(&state);
    (Extent { states: search.seen.len(), ..search.extent }, ends)
}

impl Search {
    fn visit(&mut self, state: &State) -> Result<Ends, Stop> {
        let Some(key) = state.key() else {
            return Ok(Ends::default());
        };
        if let Some(ends) = self.seen.get(&key) {
            return Ok(*ends);
        }
        if self.seen.len().is_multiple_of(1_024) && Instant::now() > self.deadline {
            return Err(Stop::OutOfTime);
        }
        // A way back to a state on the way here is a loop, and ends nowhere.
        self.seen.insert(key.clone(), Ends::default());
        let mut ends = Ends::default();
        if state.bench.count() == self.moment {
            ends = self.judge(state)?;
        } else {
            for event in state.events() {
                let mut next = state.clone();
                next.happens(&event);
                if !next.judge.broken().is_empty() {
                    continue;
                }
                if next.aborts().into_iter().any(|aborts| aborts > ABORTS_MOST) {
                    self.extent.cut += 1;
                    continue;
                }
                self.extent.transitions += 1;
                self.path.push(event);
                ends.add(self.visit(&next)?);
                self.path.pop();
            }
        }
        self.seen.insert(key, ends);
        Ok(ends)
    }

    /// Demand 3 at its moment.
    fn judge(&mut self, state: &State) -> Result<Ends, Stop> {
        if !state.judge.verdict().keeps() {
            return Ok(Ends::default());
        }
        let live = RECEIVERS.iter().zip(state.delivered).filter(|(module, _)| state.judge.is_live(**module));
        let counts: Vec<u8> = live.map(|(_, count)| count).collect();
        let all = counts.iter().all(|count| *count == 1);
        let none = counts.iter().all(|count| *count == 0);
        if !(all || (none && !state.is_full())) {
            return Err(Stop::Found(self.path.clone()));
        }
        let mut ends = Ends::default();
        let way = if counts.is_empty() { 2 } else { usize::from(none) };
        self.extent.end_states[way] += 1;
        ends.ways[way] = 1.0;
        Ok(ends)
    }
}

impl State {
    fn happens(&mut self, event: &Event) {
        let step = self.bench.run(event);
        if let Outcome::Ticked { delivered, .. } = &step.outcome {
            for delivery in delivered {
                if let Some(at) = RECEIVERS.iter().position(|module| *module == delivery.module) {
                    self.delivered[at] += 1;
                }
            }
        }
        self.judge.note(event, &step);
    }

    /// Everything that the rules let happen next. Short sendings name receivers only: a frame of the stream that the
    /// sender hears is answered 5 and changes nothing.
    fn events(&self) -> Vec<Event> {
        let mut events = Vec::new();
        let live = |module: &usize| self.judge.is_live(*module);
        for module in (0..MODULES).filter(live) {
            events.push(Event::Death { module });
            if self.bench.modules()[module].node.has_pending() {
                events.push(Event::Give { module });
            }
        }
        for (frame, it) in self.bench.frames().iter().enumerate() {
            let full = Event::Send { frame, hearers: Hearers::Full };
            if self.judge.breaks(&full).is_some() {
                continue;
            }
            events.push(full);
            let others: Vec<usize> =
                RECEIVERS.into_iter().filter(|module| live(module) && *module != it.owner).collect();
            for subset in 0..1_usize << others.len() {
                let named = |at: &usize| subset >> at & 1 == 1;
                let names = (0..others.len()).filter(named).map(|at| others[at]).collect();
                events.push(Event::Send { frame, hearers: Hearers::Short(names) });
            }
        }
        if self.judge.unsent_at(self.bench.count() + 1).is_empty() {
            events.push(Event::Tick);
        }
        events
    }

    fn is_full(&self) -> bool {
        let full = |code: Code| {
            let ours = |book: &&Book| book.code == code;
            self.judge.books().iter().find(ours).is_some_and(|book| book.sent.is_some_and(|sent| sent.full))
        };
        full(Code::Data) && full(Code::Confirmation)
    }

    /// How many aborts of each receiver became pending at this tick.
    fn aborts(&self) -> [usize; RECEIVERS.len()] {
        let now = self.bench.count();
        RECEIVERS.map(|module| {
            let fresh = |book: &&Book| book.code == Code::Abort && book.owner == module && book.pending_since == now;
            self.judge.books().iter().filter(fresh).count()
        })
    }

    /// Whether a frame can't be sent any more, whatever happens.
    fn is_shut(&self, book: &Book) -> bool {
        !self.judge.is_live(book.owner)
            || book.sent.is_some_and(|sent| sent.full)
            || self.judge.end_of_reach(book).is_some_and(|end| end < self.bench.count())
    }

    /// All that the rest of a history depends on; none if the rules are bound to be broken.
    fn key(&self) -> Option<Vec<u8>> {
        let mut key = vec![self.bench.count() as u8];
        key.extend(self.delivered);
        for (number, module) in self.bench.modules().iter().enumerate() {
            match module.node.part(Stream(STREAM)) {
                _ if !module.live => key.push(255),
                Some(Part::Sends(sender)) => {
                    key.push(u8::from(sender.data.is_some()) + 2 * u8::from(sender.confirmation));
                }
                Some(Part::Receives(receiver)) => {
                    key.push(receiver.aborts as u8);
                    if let Some(message) = &receiver.message {
                        key.push(message.state as u8 + 1);
                        key.extend([message.time_to_confirm as u8, message.time_to_deliver as u8]);
                    } else {
                        key.push(0);
                    }
                }
                None => {}
            }
            key.push(number as u8);
        }
        let mut omissions = 0;
        let mut open = Vec::new();
        for book in self.judge.books() {
            let sent = book.sent.map_or(0, |sent| 1 + u8::from(sent.full));
            let own = match book.code {
                // The first sending opens the confirmation's reach, and a full one matters at the end.
                Code::Data => Some([sent, book.sent.map_or(255, |sent| sent.first as u8)]),
                Code::Confirmation => Some([sent, 0]),
                _ => None,
            };
            key.extend(own.into_iter().flatten());
            if self.is_shut(book) {
                omissions += u8::from(book.is_omission());
            } else {
                let given = u8::from(book.given.is_some());
                open.push([book.owner as u8, book.code as u8, given, sent, book.pending_since as u8]);
            }
        }
        if omissions > 1 {
            return None;
        }
        key.push(omissions);
        key.extend(self.aborts().map(|aborts| aborts as u8));
        open.sort_unstable();
        key.extend(open.into_iter().flatten());
        Some(key)
    }
}
