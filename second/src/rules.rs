//! The bench rules: a judge that keeps a book of every frame of a history and says which rules were broken.

use std::collections::BTreeMap;

use crate::bench::{Cause, Outcome, Step};
use crate::history::{Event, Hearers};
use crate::ident::{Code, Stream};
use crate::reply::Reply;
use crate::settings::{Class, Role, Settings};

/// A way to break the rules.
#[derive(Clone, Copy, Debug, PartialEq, Eq, PartialOrd, Ord, Hash)]
pub enum Break {
    /// Settings: made after the history began.
    LateSettings,
    /// Settings: class or numbers are not equal at all modules that have the stream.
    UnequalSettings,
    /// Settings: not exactly one module sends the stream.
    NotOneSender,
    /// Rule 1: a sending of a frame that was not given out.
    NotGivenOut,
    /// Rule 1: a sending of a dead module's frame.
    OwnerDead,
    /// Rule 1: a sending after a full one.
    AfterFull,
    /// Rule 2: two frames of a message are omissions.
    TwoOmissions,
    /// Rule 2: a live module's frame was not sent within its reach.
    Unsent,
    /// Rule 3: data sent more than Rd ticks after the request.
    DataLate,
    /// Rule 3: a confirmation sent before its data.
    ConfirmationFirst,
    /// Rule 3: data sent after its confirmation.
    DataAfterConfirmation,
    /// Rule 3: a confirmation sent more than dc ticks after the first sending of its data.
    ConfirmationLate,
    /// Rule 3: an abort sent more than Ra ticks after it became pending.
    AbortLate,
    /// Rule 4: a dead module is asked, gives out or dies.
    DeadActs,
}

impl Break {
    pub const ALL: [Break; 14] = [
        Break::LateSettings,
        Break::UnequalSettings,
        Break::NotOneSender,
        Break::NotGivenOut,
        Break::OwnerDead,
        Break::AfterFull,
        Break::TwoOmissions,
        Break::Unsent,
        Break::DataLate,
        Break::ConfirmationFirst,
        Break::DataAfterConfirmation,
        Break::ConfirmationLate,
        Break::AbortLate,
        Break::DeadActs,
    ];

    /// The number of the rule, 0 for what is said of settings.
    pub fn rule(self) -> usize {
        match self {
            Break::LateSettings | Break::UnequalSettings | Break::NotOneSender => 0,
            Break::NotGivenOut | Break::OwnerDead | Break::AfterFull => 1,
            Break::TwoOmissions | Break::Unsent => 2,
            Break::DataLate
            | Break::ConfirmationFirst
            | Break::DataAfterConfirmation
            | Break::ConfirmationLate
            | Break::AbortLate => 3,
            Break::DeadActs => 4,
        }
    }
}

/// What was broken, in which message (accepted requests are numbered from 0) and by which frame (its book's place), where
/// it concerns one.
#[derive(Clone, Copy, Debug, PartialEq, Eq, PartialOrd, Ord, Hash)]
pub struct Broken {
    pub what: Break,
    pub message: Option<usize>,
    pub book: Option<usize>,
}

impl Broken {
    fn here(what: Break) -> Broken {
        Broken { what, message: None, book: None }
    }

    /// Whether a message can't be judged for it: two omissions are asked after in that message alone, all else everywhere.
    pub fn bars(&self, message: usize) -> bool {
        self.what != Break::TwoOmissions || self.message == Some(message)
    }
}

/// The sendings of a frame, as far as a rule reads them.
#[derive(Clone, Copy, Debug, PartialEq, Eq, PartialOrd, Ord, Hash)]
pub struct Sendings {
    pub first: u64,
    /// Whether the last one was full.
    pub full: bool,
}

/// The book of a frame.
#[derive(Clone, Debug, PartialEq, Eq, PartialOrd, Ord, Hash)]
pub struct Book {
    pub owner: usize,
    pub stream: Stream,
    pub code: Code,
    pub message: Option<usize>,
    pub pending_since: u64,
    /// The frame's number, once it is given out.
    pub given: Option<usize>,
    pub sent: Option<Sendings>,
    /// Already found unsent at the end of its reach.
    missed: bool,
}

impl Book {
    pub fn is_omission(&self) -> bool {
        self.sent.is_some_and(|sent| !sent.full)
    }
}

/// An accepted request.
#[derive(Clone, Debug, PartialEq, Eq, Hash)]
pub struct MessageBook {
    pub settings: Settings,
    pub requested: u64,
    /// Where the book of its data (or plain) frame is.
    data: usize,
    confirmation: Option<usize>,
}

/// The judge of a history: the books of its frames and messages, and what was broken so far.
#[derive(Clone, Debug)]
pub struct Judge {
    count: u64,
    live: Vec<bool>,
    begun: bool,
    streams: BTreeMap<Stream, Settings>,
    senders: BTreeMap<Stream, usize>,
    messages: Vec<MessageBook>,
    newest: BTreeMap<Stream, usize>,
    books: Vec<Book>,
    broken: Vec<Broken>,
}

impl Judge {
    pub fn new(modules: usize) -> Judge {
        Judge {
            count: 0,
            live: vec![true; modules],
            begun: false,
            streams: BTreeMap::new(),
            senders: BTreeMap::new(),
            messages: Vec::new(),
            newest: BTreeMap::new(),
            books: Vec::new(),
            broken: Vec::new(),
        }
    }

    pub fn count(&self) -> u64 {
        self.count
    }

    pub fn books(&self) -> &[Book] {
        &self.books
    }

    pub fn messages(&self) -> &[MessageBook] {
        &self.messages
    }

    pub fn is_live(&self, module: usize) -> bool {
        self.live[module]
    }

    /// What was broken so far; two omissions only count at the end.
    pub fn broken(&self) -> &[Broken] {
        &self.broken
    }

    /// Notes a set up that was taken. A refused one is no part of the history.
    pub fn set_up(&mut self, settings: Settings) {
        let mut broke = |what| self.broken.push(Broken::here(what));
        if self.begun {
            broke(Break::LateSettings);
        }
        let first = self.streams.entry(settings.stream).or_insert(settings);
        if (Settings { role: first.role, ..settings }) != *first {
            broke(Break::UnequalSettings);
        }
        if settings.role == Role::Send {
            *self.senders.entry(settings.stream).or_insert(0) += 1;
        }
    }

    /// The place of the book of a frame that was given out.
    fn frame(&self, number: usize) -> Option<usize> {
        self.books.iter().position(|book| book.given == Some(number))
    }

    /// The last tick at which a frame may be sent; none for a plain frame and a confirmation whose data was never sent.
    pub fn end_of_reach(&self, book: &Book) -> Option<u64> {
        let message = book.message.map(|number| &self.messages[number]);
        match book.code {
            Code::Plain => None,
            Code::Data => message.map(|message| message.requested + message.settings.data_reach),
            Code::Confirmation => {
                let message = message?;
                Some(self.books[message.data].sent?.first + message.settings.confirm_delay)
            }
            Code::Abort => self.streams.get(&book.stream).map(|settings| book.pending_since + settings.abort_reach),
        }
    }

    /// What an event would break, but for the frames that a tick leaves unsent.
    pub fn breaks(&self, event: &Event) -> Option<Broken> {
        match event {
            Event::Request { module, .. } | Event::Give { module } | Event::Death { module } => {
                (!self.live[*module]).then_some(Broken::here(Break::DeadActs))
            }
            Event::Tick | Event::Ticks(_) => None,
            Event::Send { frame, .. } => match self.frame(*frame) {
                None => Some(Broken::here(Break::NotGivenOut)),
                Some(at) => self.sending_breaks(&self.books[at]).map(|what| self.broken_by(what, at)),
            },
        }
    }

    fn broken_by(&self, what: Break, at: usize) -> Broken {
        Broken { what, message: self.books[at].message, book: Some(at) }
    }

    fn sending_breaks(&self, book: &Book) -> Option<Break> {
        if !self.live[book.owner] {
            return Some(Break::OwnerDead);
        }
        if book.sent.is_some_and(|sent| sent.full) {
            return Some(Break::AfterFull);
        }
        let late = self.end_of_reach(book).is_some_and(|end| end < self.count);
        let message = book.message.map(|number| &self.messages[number]);
        match book.code {
            Code::Plain => None,
            Code::Data => {
                let confirmed =
                    message.and_then(|message| message.confirmation).is_some_and(|at| self.books[at].sent.is_some());
                if late {
                    Some(Break::DataLate)
                } else {
                    confirmed.then_some(Break::DataAfterConfirmation)
                }
            }
            Code::Confirmation => {
                if message.is_none_or(|message| self.books[message.data].sent.is_none()) {
                    return Some(Break::ConfirmationFirst);
                }
                late.then_some(Break::ConfirmationLate)
            }
            Code::Abort => late.then_some(Break::AbortLate),
        }
    }

    /// The frames of live modules that are unsent though their reach has ended when the count is `count`.
    pub fn unsent_at(&self, count: u64) -> Vec<usize> {
        let unsent = |book: &Book| {
            !book.missed
                && book.sent.is_none()
                && self.live[book.owner]
                && self.end_of_reach(book).is_some_and(|end| end < count)
        };
        (0..self.books.len()).filter(|at| unsent(&self.books[*at])).collect()
    }

    /// How many frames of a message are omissions as things stand.
    pub fn omissions(&self, message: usize) -> usize {
        self.books.iter().filter(|book| book.message == Some(message) && book.is_omission()).count()
    }

    /// Takes an event and what it led to into the books.
    pub fn note(&mut self, event: &Event, step: &Step) {
        self.begun = true;
        self.broken.extend(self.breaks(event));
        match (event, &step.outcome) {
            (Event::Request { module, stream, .. }, Outcome::Replied(Reply::Done)) => {
                self.open_message(*module, Stream(*stream));
            }
            (Event::Give { module }, Outcome::Gave { frame, id, .. }) => {
                let (stream, code) = (Stream(id.0 / 4), Code::ALL[(id.0 % 4) as usize]);
                self.give_out(*module, stream, code, *frame);
            }
            (Event::Send { frame, hearers }, Outcome::Heard(_)) => {
                let count = self.count;
                if let Some(at) = self.frame(*frame) {
                    let book = &mut self.books[at];
                    let first = book.sent.map_or(count, |sent| sent.first);
                    book.sent = Some(Sendings { first, full: *hearers == Hearers::Full });
                }
            }
            (Event::Death { module }, _) => self.live[*module] = false,
            (_, Outcome::Ticked { count, .. }) => self.count = *count,
            _ => {}
        }
        for cause in &step.causes {
            self.open_abort(cause);
        }
        for at in self.unsent_at(self.count) {
            self.books[at].missed = true;
            self.broken.push(self.broken_by(Break::Unsent, at));
        }
    }

    fn open(&mut self, owner: usize, stream: Stream, code: Code, pending_since: u64) -> usize {
        let message = self.newest.get(&stream).copied();
        self.books.push(Book { owner, stream, code, message, pending_since, given: None, sent: None, missed: false });
        self.books.len() - 1
    }

    fn open_message(&mut self, module: usize, stream: Stream) {
        let Some(settings) = self.streams.get(&stream).copied() else {
            return;
        };
        self.newest.insert(stream, self.messages.len());
        let code = if settings.class == Class::Plain { Code::Plain } else { Code::Data };
        let data = self.open(module, stream, code, self.count);
        let confirmation =
            (settings.class == Class::TwoMessage).then(|| self.open(module, stream, Code::Confirmation, self.count));
        self.messages.push(MessageBook { settings, requested: self.count, data, confirmation });
    }

    /// An abort's message is its stream's last accepted request when it becomes pending.
    fn open_abort(&mut self, cause: &Cause) {
        self.open(cause.module, cause.stream, Code::Abort, cause.tick);
    }

    fn give_out(&mut self, owner: usize, stream: Stream, code: Code, number: usize) {
        let pending =
            |book: &Book| book.given.is_none() && (book.owner, book.stream, book.code) == (owner, stream, code);
        let at = match self.books.iter().rposition(pending) {
            Some(at) => at,
            // Only a mutant gives out a frame that nothing made pending.
            None => self.open(owner, stream, code, self.count),
        };
        self.books[at].given = Some(number);
    }

    /// Everything that was broken, now that the history has ended.
    pub fn verdict(&self) -> Verdict {
        let mut broken = self.broken.clone();
        for message in 0..self.messages.len() {
            if self.omissions(message) > 1 {
                broken.push(Broken { what: Break::TwoOmissions, message: Some(message), book: None });
            }
        }
        broken.extend(self.without_one_sender().iter().map(|_| Broken::here(Break::NotOneSender)));
        Verdict { broken }
    }

    /// The streams that have not exactly one sender.
    pub fn without_one_sender(&self) -> Vec<Stream> {
        self.streams.keys().filter(|stream| self.senders.get(*stream) != Some(&1)).copied().collect()
    }
}

/// What a history broke.
#[derive(Clone, Debug, PartialEq, Eq)]
pub struct Verdict {
    pub broken: Vec<Broken>,
}

impl Verdict {
    pub fn keeps(&self) -> bool {
        self.broken.is_empty()
    }

    /// Whether a message may be judged.
    pub fn spares(&self, message: usize) -> bool {
        !self.broken.iter().any(|broken| broken.bars(message))
    }

    /// Whether one of the rules, 0 for settings, was broken.
    pub fn breaks_rule(&self, rule: usize) -> bool {
        self.broken.iter().any(|broken| broken.what.rule() == rule)
    }
}
