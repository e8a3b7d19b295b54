//! A stream that a node receives: the message it holds, with 002's absolute times, and its pending abort.

use crate::clock::Clock;
use crate::fault::Fault;
use crate::reply::Reply;
use crate::settings::{Class, Settings};

#[derive(Clone, Debug, PartialEq, Eq, Hash)]
pub struct Receiver {
    pub settings: Settings,
    pub message: Option<Message>,
    /// Pending aborts: one at most, but in a mutant.
    pub aborts: u32,
}

/// A message that a receiver holds.
#[derive(Clone, Debug, PartialEq, Eq, Hash)]
pub struct Message {
    pub payload: Vec<u8>,
    pub state: State,
    pub time_to_confirm: u64,
    pub time_to_deliver: u64,
}

/// 002's states of a received message. What is failed or delivered is out of the table, but in a mutant.
#[derive(Clone, Copy, Debug, PartialEq, Eq, PartialOrd, Ord, Hash)]
pub enum State {
    Unstable,
    Confirmed,
    Failed,
    Delivered,
}

/// What a frame did that was heard with reply 0, in the paper's order.
#[derive(Clone, Copy, Debug, PartialEq, Eq, PartialOrd, Ord)]
pub enum Did {
    New,
    Duplicate,
    Confirmed,
    ConfirmedAgain,
    /// An abort was made pending, or is pending already.
    AbortPending,
    Dropped,
    NothingToDrop,
    DeliveredAtOnce,
}

impl Did {
    pub const ALL: [Did; 8] = [
        Did::New,
        Did::Duplicate,
        Did::Confirmed,
        Did::ConfirmedAgain,
        Did::AbortPending,
        Did::Dropped,
        Did::NothingToDrop,
        Did::DeliveredAtOnce,
    ];

    /// The number by which it is told, from 1 on; 0 tells nothing.
    pub fn number(self) -> usize {
        self as usize + 1
    }

    /// The word of both text formats.
    pub fn word(self) -> &'static str {
        match self {
            Did::New => "new",
            Did::Duplicate => "duplicate",
            Did::Confirmed => "confirmed",
            Did::ConfirmedAgain => "confirmed-again",
            Did::AbortPending => "abort-pending",
            Did::Dropped => "dropped",
            Did::NothingToDrop => "nothing-to-drop",
            Did::DeliveredAtOnce => "delivered",
        }
    }

    pub fn from_word(word: &str) -> Option<Did> {
        Did::ALL.into_iter().find(|did| did.word() == word)
    }
}

/// What a receiver makes of a frame that it takes: what the frame did, and whether an abort became pending by it that
/// was not pending before.
#[derive(Clone, Copy, Debug, PartialEq, Eq)]
pub(crate) struct Taken {
    pub did: Did,
    pub causes_abort: bool,
}

impl Taken {
    pub(crate) fn only(did: Did) -> Taken {
        Taken { did, causes_abort: false }
    }
}

/// What a tick did to a held message.
#[derive(Clone, Debug, PartialEq, Eq)]
pub enum Happened {
    Delivered(Vec<u8>),
    /// Dropped, and an abort became pending that was not pending before.
    AbortPending,
    /// Dropped while an abort was pending already.
    Dropped,
}

/// What a tick does with a held message that is due.
#[derive(Clone, Copy, PartialEq, Eq)]
pub(crate) enum Fate {
    Drop,
    Deliver,
}

impl Message {
    fn set_times(&mut self, settings: &Settings, now: u64) {
        self.time_to_confirm = now + settings.confirm_delay;
        self.time_to_deliver = now + settings.deliver_delay;
    }

    fn same(&self, payload: &[u8], fault: Fault) -> bool {
        match fault {
            Fault::ClashByLength => self.payload.len() == payload.len(),
            Fault::ClashByBytes => self.payload.iter().zip(payload).all(|(held, heard)| held == heard),
            _ => self.payload == payload,
        }
    }
}

impl Receiver {
    pub(crate) fn new(settings: Settings) -> Receiver {
        Receiver { settings, message: None, aborts: 0 }
    }

    /// What a tick has to do with what is held.
    pub(crate) fn fate(&self, clock: Clock) -> Option<Fate> {
        let class = self.settings.class;
        let message = self.message.as_ref()?;
        let unconfirmed = class == Class::TwoMessage && message.state == State::Unstable;
        let ready = match message.state {
            State::Delivered => false,
            State::Confirmed => true,
            State::Unstable | State::Failed => class == Class::Imd || clock.fault == Fault::AgeAlone,
        };
        if unconfirmed && clock.past(message.time_to_confirm, Fault::ConfirmNotStrict) {
            Some(Fate::Drop)
        } else if ready && clock.past(message.time_to_deliver, Fault::DeliverNotStrict) {
            Some(Fate::Deliver)
        } else {
            None
        }
    }

    /// Makes an abort pending; says whether none was pending before.
    pub(crate) fn abort(&mut self, fault: Fault) -> bool {
        let fresh = self.aborts == 0;
        if fresh || fault == Fault::AbortTwice {
            self.aborts += 1;
        }
        fresh
    }

    pub(crate) fn hear_data(&mut self, payload: &[u8], clock: Clock) -> Result<Taken, Reply> {
        let replaced = match &mut self.message {
            Some(message) if message.same(payload, clock.fault) => {
                if clock.fault != Fault::DuplicateKeepsStamp {
                    message.set_times(&self.settings, clock.now);
                }
                if clock.fault == Fault::DuplicateUnconfirms {
                    message.state = State::Unstable;
                }
                return Ok(Taken::only(if clock.fault == Fault::DuplicateIsNew { Did::New } else { Did::Duplicate }));
            }
            Some(_) if clock.fault != Fault::ClashReplaces => return Err(Reply::Clash),
            Some(_) => true,
            None => false,
        };
        let mut message =
            Message { payload: payload.to_vec(), state: State::Unstable, time_to_confirm: 0, time_to_deliver: 0 };
        message.set_times(&self.settings, clock.now);
        self.message = Some(message);
        if replaced {
            Err(Reply::Clash)
        } else {
            Ok(Taken::only(Did::New))
        }
    }

    pub(crate) fn hear_confirmation(&mut self, clock: Clock) -> Taken {
        let fault = clock.fault;
        let Some(message) = &mut self.message else {
            let already = self.aborts > 0;
            let causes_abort = fault != Fault::LoneConfirmation && self.abort(fault);
            let did = if already && fault == Fault::PendingToldOnce { Did::NothingToDrop } else { Did::AbortPending };
            return Taken { did, causes_abort };
        };
        let again = message.state != State::Unstable && fault != Fault::AgainIsConfirmed;
        if message.state != State::Delivered {
            message.state = State::Confirmed;
        }
        if fault == Fault::ConfirmationStamps {
            message.set_times(&self.settings, clock.now);
        }
        Taken::only(if again { Did::ConfirmedAgain } else { Did::Confirmed })
    }

    pub(crate) fn hear_abort(&mut self, fault: Fault) -> Taken {
        if fault == Fault::AbortClearsOwn {
            self.aborts = 0;
        }
        let Some(message) = &mut self.message else {
            return Taken { did: Did::NothingToDrop, causes_abort: fault == Fault::LoneAbort && self.abort(fault) };
        };
        let unconfirmed = message.state == State::Unstable;
        match fault {
            Fault::AbortSparesConfirmed if !unconfirmed => {}
            Fault::AgeAlone => message.state = State::Failed,
            _ => self.message = None,
        }
        let told = unconfirmed || fault != Fault::ConfirmedDropUntold;
        Taken::only(if told { Did::Dropped } else { Did::NothingToDrop })
    }

    pub(crate) fn drop_unconfirmed(&mut self, fault: Fault) -> Happened {
        match &mut self.message {
            Some(message) if fault == Fault::AgeAlone => message.state = State::Failed,
            _ => self.message = None,
        }
        if fault != Fault::DropsSilently && self.abort(fault) {
            Happened::AbortPending
        } else {
            Happened::Dropped
        }
    }

    /// Takes out what is to be delivered.
    pub(crate) fn deliver(&mut self, fault: Fault) -> Vec<u8> {
        match &mut self.message {
            Some(message) if fault == Fault::DeliveredStays => {
                message.state = State::Delivered;
                message.payload.clone()
            }
            _ => self.message.take().map_or(Vec::new(), |message| message.payload),
        }
    }
}
