//! The node in its 1,026 lent bytes: what each of the 32 slots is, by the table of the layout, and what this
//! implementation's own node holds of one. Any bytes are a node: numbers have their lowest byte first, and a byte is
//! true unless it is 0.

use crate::ident::Stream;
use crate::node::{Node, Part};
use crate::receiver::{Message, Receiver, State};
use crate::sender::Sender;
use crate::settings::{Class, Role, Settings};

pub const SLOTS: usize = 32;
pub const SLOT_SIZE: usize = 32;
pub const NODE_SIZE: usize = SLOTS * SLOT_SIZE + 2;

/// Where the parts of a slot stand, from its first byte on. The mutants have one of them elsewhere.
#[derive(Clone, Copy, Debug, PartialEq, Eq)]
pub struct Layout {
    pub stream: usize,
    pub used: usize,
    pub held: usize,
    pub stamp: usize,
    pub payload_pending: usize,
    pub confirmation_pending: usize,
    pub abort_pending: usize,
    pub confirmed: usize,
    pub length: usize,
    pub role: usize,
    pub class: usize,
    pub data_reach: usize,
    pub confirm_delay: usize,
    pub abort_reach: usize,
    pub deliver_delay: usize,
    pub payload: usize,
    /// The most that a byte may be and be true; 255 but in a mutant.
    pub true_most: u8,
}

pub const LAYOUT: Layout = Layout {
    stream: 0,
    used: 4,
    held: 5,
    stamp: 6,
    payload_pending: 8,
    confirmation_pending: 9,
    abort_pending: 10,
    confirmed: 11,
    length: 12,
    role: 13,
    class: 14,
    data_reach: 16,
    confirm_delay: 18,
    abort_reach: 20,
    deliver_delay: 22,
    payload: 24,
    true_most: 255,
};

/// One place of the layout changed, or what is true: each has to be found.
pub const MUTANTS: [(&str, Layout); 5] = [
    ("confirmed-where-abort-is", Layout { confirmed: 10, ..LAYOUT }),
    ("stamp-one-on", Layout { stamp: 7, ..LAYOUT }),
    ("confirm-delay-where-data-reach-is", Layout { confirm_delay: 16, ..LAYOUT }),
    ("payload-one-before", Layout { payload: 23, ..LAYOUT }),
    ("only-one-is-true", Layout { true_most: 1, ..LAYOUT }),
];

/// A slot as its bytes say it.
#[derive(Clone, Debug, PartialEq, Eq)]
pub struct Slot {
    pub stream: u32,
    pub used: bool,
    pub held: bool,
    pub stamp: u16,
    pub payload_pending: bool,
    pub confirmation_pending: bool,
    pub abort_pending: bool,
    pub confirmed: bool,
    pub length: u8,
    pub role: u8,
    pub class: u8,
    pub data_reach: u16,
    pub confirm_delay: u16,
    pub abort_reach: u16,
    pub deliver_delay: u16,
    pub payload: [u8; 8],
}

/// All slots, and the counter.
#[derive(Clone, Debug, PartialEq, Eq)]
pub struct Decoded {
    pub slots: Vec<Slot>,
    pub counter: u16,
}

/// What a slot is to this implementation.
#[derive(Clone, Debug, PartialEq, Eq)]
pub enum Kept {
    /// Not in use.
    Free,
    /// In use for a stream that is neither received nor sent: a role that is none.
    Neither,
    /// What its own node keeps for the stream.
    Part(Part),
    /// What no calls make, and its own node has no place for.
    Odd,
}

fn two(bytes: &[u8], at: usize) -> u16 {
    u16::from_le_bytes([bytes[at], bytes[at + 1]])
}

fn slot_of(layout: &Layout, bytes: &[u8]) -> Slot {
    let flag = |at: usize| bytes[at] != 0 && bytes[at] <= layout.true_most;
    let mut payload = [0; 8];
    payload.copy_from_slice(&bytes[layout.payload..layout.payload + 8]);
    Slot {
        stream: u32::from(two(bytes, layout.stream)) + 65_536 * u32::from(two(bytes, layout.stream + 2)),
        used: flag(layout.used),
        held: flag(layout.held),
        stamp: two(bytes, layout.stamp),
        payload_pending: flag(layout.payload_pending),
        confirmation_pending: flag(layout.confirmation_pending),
        abort_pending: flag(layout.abort_pending),
        confirmed: flag(layout.confirmed),
        length: bytes[layout.length],
        role: bytes[layout.role],
        class: bytes[layout.class],
        data_reach: two(bytes, layout.data_reach),
        confirm_delay: two(bytes, layout.confirm_delay),
        abort_reach: two(bytes, layout.abort_reach),
        deliver_delay: two(bytes, layout.deliver_delay),
        payload,
    }
}

/// The node that these bytes are; none where they are not as many as a node has.
pub fn decode(layout: &Layout, bytes: &[u8]) -> Option<Decoded> {
    if bytes.len() != NODE_SIZE {
        return None;
    }
    let (slots, counter) = bytes.split_at(SLOTS * SLOT_SIZE);
    let slots = slots.chunks(SLOT_SIZE).map(|bytes| slot_of(layout, bytes)).collect();
    Some(Decoded { slots, counter: two(counter, 0) })
}

impl Slot {
    /// The slot of a stream that was just set up.
    pub fn set_up(settings: &Settings) -> Slot {
        let ticks = |ticks: u64| u16::try_from(ticks).unwrap_or(u16::MAX);
        Slot {
            stream: settings.stream.0,
            used: true,
            held: false,
            stamp: 0,
            payload_pending: false,
            confirmation_pending: false,
            abort_pending: false,
            confirmed: false,
            length: 0,
            role: settings.role as u8,
            class: settings.class as u8,
            data_reach: ticks(settings.data_reach),
            confirm_delay: ticks(settings.confirm_delay),
            abort_reach: ticks(settings.abort_reach),
            deliver_delay: ticks(settings.deliver_delay),
            payload: [0; 8],
        }
    }

    pub fn is_pending(&self) -> bool {
        self.payload_pending || self.confirmation_pending || self.abort_pending
    }

    /// Whether no tick changes the slot, whatever it holds: it sends nothing, and receives nothing that is held.
    pub fn rests(&self) -> bool {
        self.role > 1 || (self.role == 0 && !(1..=2).contains(&self.class))
    }

    fn bytes_held(&self) -> Vec<u8> {
        self.payload[..usize::from(self.length).min(8)].to_vec()
    }

    fn settings(&self, role: Role) -> Option<Settings> {
        let class = match self.class {
            0 => Class::Plain,
            1 => Class::Imd,
            2 => Class::TwoMessage,
            _ => return None,
        };
        Some(Settings {
            stream: Stream(self.stream),
            role,
            class,
            data_reach: self.data_reach.into(),
            confirm_delay: self.confirm_delay.into(),
            abort_reach: self.abort_reach.into(),
            deliver_delay: self.deliver_delay.into(),
        })
    }

    /// What the slot is at a time whose counter of 16 bits is `now` modulo 65,536. `now` is at least 65,536.
    pub fn kept(&self, now: u64) -> Kept {
        if !self.used {
            return Kept::Free;
        }
        let part = match self.role {
            0 => self.received(now),
            1 => self.sent(now),
            _ if self.is_pending() => None,
            _ => return Kept::Neither,
        };
        part.map_or(Kept::Odd, Kept::Part)
    }

    /// When the message was taken up: within the last 65,535 ticks. One that is older by the next tick has no time here.
    fn taken_up(&self, now: u64) -> Option<u64> {
        let age = (now + 65_536 - u64::from(self.stamp)) % 65_536;
        (age < 65_535).then_some(now - age)
    }

    fn received(&self, now: u64) -> Option<Part> {
        let settings = self.settings(Role::Receive)?;
        if self.payload_pending || self.confirmation_pending {
            return None;
        }
        let message = if self.held {
            if settings.class == Class::Plain || self.length > 8 {
                return None;
            }
            let taken_up = self.taken_up(now)?;
            Some(Message {
                payload: self.bytes_held(),
                state: if self.confirmed { State::Confirmed } else { State::Unstable },
                time_to_confirm: taken_up + settings.confirm_delay,
                time_to_deliver: taken_up + settings.deliver_delay,
            })
        } else {
            None
        };
        Some(Part::Receives(Receiver { settings, message, aborts: self.abort_pending.into() }))
    }

    fn sent(&self, now: u64) -> Option<Part> {
        let settings = self.settings(Role::Send)?;
        if self.abort_pending || (settings.class == Class::Plain && self.confirmation_pending) {
            return None;
        }
        let held_until = match self.held {
            true => Some(self.taken_up(now)? + settings.hold()),
            false => None,
        };
        let data = self.payload_pending.then(|| self.bytes_held());
        Some(Part::Sends(Sender { settings, data, confirmation: self.confirmation_pending, held_until }))
    }

    /// A node that has this slot alone; none where the slot is odd.
    pub fn alone(&self, now: u64) -> Option<Node> {
        let part = match self.kept(now) {
            Kept::Part(part) => Some(part),
            Kept::Free | Kept::Neither => None,
            Kept::Odd => return None,
        };
        Some(Node::at(now, Stream(self.stream), part))
    }
}
