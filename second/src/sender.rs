//! A stream that a node sends: what is pending, and the hold after a request.

use crate::clock::Clock;
use crate::fault::Fault;
use crate::ident::Code;
use crate::settings::{Class, Settings};

#[derive(Clone, Debug, PartialEq, Eq, Hash)]
pub struct Sender {
    pub settings: Settings,
    /// The pending data or plain frame.
    pub data: Option<Vec<u8>>,
    pub confirmation: bool,
    /// The hold ends when this time is past.
    pub held_until: Option<u64>,
}

impl Sender {
    pub(crate) fn new(settings: Settings) -> Sender {
        Sender { settings, data: None, confirmation: false, held_until: None }
    }

    pub(crate) fn busy(&self, fault: Fault) -> bool {
        let pending = self.data.is_some() || self.confirmation;
        self.held_until.is_some() || (pending && fault != Fault::BusyMissesPending)
    }

    pub(crate) fn request(&mut self, payload: &[u8], clock: Clock) {
        let settings = &self.settings;
        self.data = Some(payload.to_vec());
        self.confirmation = settings.class == Class::TwoMessage;
        self.held_until = match settings.class {
            Class::Plain => None,
            Class::Imd if clock.fault == Fault::ImdNotHeld => None,
            _ if clock.fault == Fault::HoldWithoutReach => Some(clock.now + settings.deliver_delay),
            _ => Some(clock.now + settings.hold()),
        };
    }

    pub(crate) fn hold_has_ended(&self, clock: Clock) -> bool {
        self.held_until.is_some_and(|time| clock.past(time, Fault::HoldNotStrict))
    }

    /// The code of the next frame that is pending.
    pub(crate) fn pending(&self, fault: Fault) -> Option<Code> {
        if self.data.is_some() && !(fault == Fault::ConfirmationFirst && self.confirmation) {
            Some(if self.settings.class == Class::Plain { Code::Plain } else { Code::Data })
        } else {
            self.confirmation.then_some(Code::Confirmation)
        }
    }

    pub(crate) fn give_out(&mut self, code: Code, fault: Fault) -> Vec<u8> {
        if code == Code::Confirmation {
            self.confirmation = false;
            return Vec::new();
        }
        match fault {
            Fault::NextStaysPending => self.data.clone(),
            _ => self.data.take(),
        }
        .unwrap_or_default()
    }
}
