//! The messages of a history, by what was answered: who delivered each of them, when, and how that ended.

use crate::bench::{Delivery, Outcome};
use crate::demand::Told;
use crate::history::{Event, Hearers};
use crate::ident::{code_of, Code, Stream};
use crate::reply::Reply;
use crate::settings::{Class, Role, Settings};

/// How a message ended.
#[derive(Clone, Copy, Debug, PartialEq, Eq)]
pub enum End {
    /// Every live receiver delivered the message, and nothing else of its stream, once.
    All,
    /// No live receiver delivered anything of its stream.
    None,
    Differs,
    /// The history ends before the message can be judged.
    Open,
}

impl End {
    pub fn word(self) -> &'static str {
        match self {
            End::All => "all",
            End::None => "none",
            End::Differs => "differs",
            End::Open => "open",
        }
    }
}

/// What a receiver did with a message.
#[derive(Clone, Debug, PartialEq, Eq)]
pub struct Received {
    pub module: usize,
    /// Dead when the message is judged.
    pub dead: bool,
    /// The ticks and bytes that it delivered on the stream from the request to that moment.
    pub delivered: Vec<(u64, Vec<u8>)>,
}

/// An accepted request.
#[derive(Clone, Debug)]
pub struct Message {
    /// Which event of the history the request is.
    pub event: usize,
    pub sender: usize,
    pub settings: Settings,
    pub payload: Vec<u8>,
    pub requested: u64,
    pub data_full: bool,
    pub confirmation_full: bool,
    /// When its plain frame was first sent, and who was dead then.
    plain: Option<(u64, Vec<usize>)>,
    /// What its plain frame delivered as it was heard.
    at_once: Vec<(usize, u64, Vec<u8>)>,
    /// Whether the history goes as far as the moment of judgement.
    is_over: bool,
    pub receivers: Vec<Received>,
}

impl Message {
    /// The tick just after which the message is judged; a plain one is judged as it is sent.
    pub fn moment(&self) -> u64 {
        match self.settings.class {
            Class::Plain => self.plain.as_ref().map_or(self.requested, |(tick, _)| *tick),
            _ => self.requested + self.settings.hold() + 1,
        }
    }

    pub fn live(&self) -> impl Iterator<Item = &Received> {
        self.receivers.iter().filter(|receiver| !receiver.dead)
    }

    pub fn is_over(&self) -> bool {
        self.is_over
    }

    /// Whether every live receiver delivered it once, and nothing else.
    pub fn is_all(&self) -> bool {
        self.live().all(|receiver| receiver.delivered.len() == 1 && receiver.delivered[0].1 == self.payload)
    }

    pub fn is_none(&self) -> bool {
        self.live().all(|receiver| receiver.delivered.is_empty())
    }

    pub fn end(&self) -> End {
        match (self.is_over, self.is_none(), self.is_all()) {
            (false, ..) => End::Open,
            (true, true, _) => End::None,
            (true, false, true) => End::All,
            (true, false, false) => End::Differs,
        }
    }
}

/// A history read for its messages.
pub struct Account<'a> {
    told: &'a Told,
    count: u64,
    pub messages: Vec<Message>,
    /// What ticks delivered, with the number of the message, in the order in which it was told.
    pub deliveries: Vec<(Delivery, Option<usize>)>,
    /// The count at which each module died.
    died: Vec<Option<u64>>,
}

impl<'a> Account<'a> {
    pub fn of(told: &'a Told) -> Account<'a> {
        let mut account =
            Account { told, count: 0, messages: Vec::new(), deliveries: Vec::new(), died: vec![None; told.modules] };
        let mut frames: Vec<(Code, Option<usize>)> = Vec::new();
        for (at, (event, outcome)) in told.events.iter().enumerate() {
            match (event, outcome) {
                (Event::Request { module, stream, payload }, Outcome::Replied(Reply::Done)) => {
                    account.open(at, *module, *stream, payload);
                }
                (Event::Give { .. }, Outcome::Gave { id, .. }) => {
                    frames.push((code_of(id.0), account.newest(Stream(id.0 / 4))));
                }
                (Event::Send { frame, hearers }, Outcome::Heard(heard)) => {
                    let Some((code, Some(message))) = frames.get(*frame) else { continue };
                    let dead = (0..told.modules).filter(|module| account.died[*module].is_some());
                    let message = &mut account.messages[*message];
                    let full = *hearers == Hearers::Full;
                    message.data_full |= full && *code == Code::Data;
                    message.confirmation_full |= full && *code == Code::Confirmation;
                    if *code == Code::Plain {
                        message.plain.get_or_insert_with(|| (account.count, dead.collect()));
                    }
                    for hearing in heard {
                        let bytes = hearing.delivered.iter().map(|(_, bytes)| bytes.clone());
                        message.at_once.extend(bytes.map(|bytes| (hearing.module, account.count, bytes)));
                    }
                }
                (Event::Death { module }, _) => {
                    account.died[*module].get_or_insert(account.count);
                }
                (_, Outcome::Ticked { count, delivered, .. }) => {
                    for delivery in delivered {
                        let message = account.newest(delivery.stream);
                        account.deliveries.push((delivery.clone(), message));
                    }
                    account.count = *count;
                }
                _ => {}
            }
        }
        for at in 0..account.messages.len() {
            let message = &account.messages[at];
            let is_over = match message.settings.class {
                Class::Plain => message.plain.is_some(),
                _ => message.moment() <= account.count,
            };
            let receivers = account.received(message);
            account.messages[at].is_over = is_over;
            account.messages[at].receivers = receivers;
        }
        account
    }

    fn open(&mut self, event: usize, sender: usize, stream: u32, payload: &[u8]) {
        let of = |(at, settings): &&(usize, Settings)| *at == sender && settings.stream.0 == stream;
        let Some((_, settings)) = self.told.set_ups.iter().find(of) else { return };
        self.messages.push(Message {
            event,
            sender,
            settings: *settings,
            payload: payload.to_vec(),
            requested: self.count,
            data_full: false,
            confirmation_full: false,
            plain: None,
            at_once: Vec::new(),
            is_over: false,
            receivers: Vec::new(),
        });
    }

    /// The stream's last accepted request so far.
    fn newest(&self, stream: Stream) -> Option<usize> {
        self.messages.iter().rposition(|message| message.settings.stream == stream)
    }

    fn received(&self, message: &Message) -> Vec<Received> {
        let stream = message.settings.stream;
        let receives = |(_, settings): &&(usize, Settings)| settings.stream == stream && settings.role == Role::Receive;
        let moment = message.moment();
        let of = |module: usize| {
            let ours = |delivery: &&(Delivery, Option<usize>)| {
                delivery.0.module == module
                    && delivery.0.stream == stream
                    && (message.requested + 1..=moment).contains(&delivery.0.tick)
            };
            let by_tick = self.deliveries.iter().filter(ours).map(|(it, _)| (it.tick, it.payload.clone()));
            let at_once = message.at_once.iter().filter(|(at, ..)| *at == module);
            let dead = match &message.plain {
                Some((_, dead)) => dead.contains(&module),
                None => self.died[module].is_some_and(|died| died < moment),
            };
            Received {
                module,
                dead,
                delivered: by_tick.chain(at_once.map(|(_, tick, bytes)| (*tick, bytes.clone()))).collect(),
            }
        };
        self.told.set_ups.iter().filter(receives).map(|(module, _)| of(*module)).collect()
    }
}
