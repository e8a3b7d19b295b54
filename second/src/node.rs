//! The node: the protocol state of one module and its five calls, with absolute times as in 002's listing
//! (`time_to_confirm`, `time_to_deliver`), parts kept in a map by stream, and ticks counted without bound.

use std::collections::BTreeMap;

use crate::clock::Clock;
use crate::fault::Fault;
use crate::ident::{code_of, own, split_by, BusId, Code, Stream};
use crate::limits::Limit;
use crate::receiver::{Did, Fate, Happened, Receiver, Taken};
use crate::record;
use crate::reply::Reply;
use crate::sender::Sender;
use crate::settings::{Asked, Role};

/// The lengths of the lent outputs that are always long enough.
pub const HEAR_OUTPUT: usize = 16;
pub const TICK_OUTPUT: usize = 512;
pub const NEXT_OUTPUT: usize = 8;

#[derive(Clone, Debug, PartialEq, Eq, Hash)]
pub struct Node {
    now: u64,
    parts: BTreeMap<Stream, Part>,
    fault: Fault,
    /// The streams as they were set up. Only mutants look at it.
    order: Vec<Stream>,
    /// Whether a frame was heard. Only a mutant looks at it.
    heard_one: bool,
}

/// What a node keeps for a stream.
#[derive(Clone, Debug, PartialEq, Eq, Hash)]
pub enum Part {
    Sends(Sender),
    Receives(Receiver),
}

/// What hearing answers: the reply, the bytes written, and what the frame did, which is told with reply 0 alone.
#[derive(Clone, Debug, PartialEq, Eq)]
pub struct Heard {
    pub reply: Reply,
    pub written: usize,
    pub did: Option<Did>,
    /// Whether an abort became pending that was not pending before. It is not told.
    pub causes_abort: bool,
}

impl Heard {
    fn refused(reply: Reply) -> Heard {
        Heard { reply, written: 0, did: None, causes_abort: false }
    }

    fn taken(taken: Taken) -> Heard {
        Heard { reply: Reply::Done, written: 0, did: Some(taken.did), causes_abort: taken.causes_abort }
    }

    /// The answer of a mutant that does nothing with a frame.
    fn nodded() -> Heard {
        Heard::taken(Taken::only(Did::New))
    }
}

/// What a tick answers: the reply, the bytes written, and how many messages it dropped and delivered.
#[derive(Clone, Debug, PartialEq, Eq)]
pub struct Ticked {
    pub reply: Reply,
    pub written: usize,
    pub dropped: usize,
    pub delivered: usize,
    /// What happened to which stream, ascending. It is not told.
    pub happened: Vec<(Stream, Happened)>,
}

/// What next frame answers.
#[derive(Clone, Copy, Debug, PartialEq, Eq)]
pub struct NextFrame {
    pub reply: Reply,
    pub id: BusId,
    pub length: usize,
}

impl Part {
    /// The code of the next frame of the stream that is pending.
    fn pending(&self, fault: Fault) -> Option<Code> {
        match self {
            Part::Sends(sender) => sender.pending(fault),
            Part::Receives(receiver) => (receiver.aborts > 0).then_some(Code::Abort),
        }
    }

    /// Whether a tick has something to do for the stream.
    fn is_due(&self, clock: Clock) -> bool {
        match self {
            Part::Sends(sender) => sender.hold_has_ended(clock),
            Part::Receives(receiver) => receiver.fate(clock).is_some(),
        }
    }
}

impl Node {
    pub fn fresh() -> Node {
        Node::with(Fault::None)
    }

    /// A fresh node with a fault switched on.
    pub fn with(fault: Fault) -> Node {
        Node { now: 0, parts: BTreeMap::new(), fault, order: Vec::new(), heard_one: false }
    }

    /// A node at some time, with this part for a stream, or with none.
    pub fn at(now: u64, stream: Stream, part: Option<Part>) -> Node {
        Node { now, parts: part.into_iter().map(|part| (stream, part)).collect(), ..Node::fresh() }
    }

    /// The ticks since the node was fresh.
    pub fn now(&self) -> u64 {
        self.now
    }

    /// The tick counter of 16 bits.
    pub fn counter(&self) -> u64 {
        self.now % 65_536
    }

    pub fn part(&self, stream: Stream) -> Option<&Part> {
        self.parts.get(&stream)
    }

    /// Whether a frame is pending.
    pub fn has_pending(&self) -> bool {
        self.parts.values().any(|part| part.pending(self.fault).is_some())
    }

    /// Whether ticks do nothing but count: no message is held, and no hold.
    pub fn is_idle(&self) -> bool {
        let counts = !matches!(self.fault, Fault::DoesNothing | Fault::Limit(Limit::TickOutput, _));
        counts
            && self.parts.values().all(|part| match part {
                Part::Sends(sender) => sender.held_until.is_none(),
                Part::Receives(receiver) => receiver.message.is_none(),
            })
    }

    /// So many ticks of an idle node.
    pub fn pass(&mut self, ticks: u64) {
        self.now += ticks;
    }

    fn clock(&self) -> Clock {
        Clock { now: self.now, fault: self.fault }
    }

    /// Whether the length of an output (or the like) is below the limit.
    fn below(&self, length: usize, limit: Limit) -> bool {
        i64::try_from(length).is_ok_and(|length| length < limit.of(self.fault))
    }

    fn above(&self, length: usize, limit: Limit) -> bool {
        i64::try_from(length).map_or(true, |length| length > limit.of(self.fault))
    }

    /// Sets a stream up.
    pub fn set_up(&mut self, asked: Asked) -> Reply {
        if self.fault == Fault::DoesNothing {
            return Reply::Done;
        }
        let taken = self.parts.contains_key(&Stream(asked.stream));
        let full = !self.below(self.parts.len(), Limit::Slots);
        if taken && self.fault == Fault::TakenFirst {
            return Reply::Taken;
        }
        let Some(settings) = asked.tested_by(self.fault) else {
            return Reply::BadSettings;
        };
        if full && self.fault == Fault::FullFirst {
            return Reply::TableFull;
        }
        if taken {
            return Reply::Taken;
        }
        if full {
            return Reply::TableFull;
        }
        let part = match settings.role {
            Role::Send => Part::Sends(Sender::new(settings)),
            Role::Receive => Part::Receives(Receiver::new(settings)),
        };
        self.parts.insert(settings.stream, part);
        self.order.push(settings.stream);
        Reply::Done
    }

    /// Hears a frame from the bus.
    pub fn hear(&mut self, id: u32, dlc: u8, payload: &[u8], output: &mut [u8]) -> Heard {
        let mut heard = self.take(id, dlc, payload, output).unwrap_or_else(Heard::refused);
        if self.fault == Fault::RefusalTells {
            heard.did.get_or_insert(Did::New);
        }
        heard
    }

    fn take(&mut self, id: u32, dlc: u8, payload: &[u8], output: &mut [u8]) -> Result<Heard, Reply> {
        if self.fault == Fault::DoesNothing {
            return Ok(Heard::nodded());
        }
        let (stream, code) = self.frame_heard(id, dlc, payload, output.len())?;
        let (fault, clock) = (self.fault, self.clock());
        let receiver = match self.parts.get_mut(&stream) {
            Some(Part::Receives(receiver)) => receiver,
            Some(Part::Sends(_)) if fault == Fault::SendSlotHears => return Ok(Heard::nodded()),
            _ => return Err(Reply::NotMine),
        };
        if !receiver.settings.class.carries_by(fault, code) {
            return Err(Reply::Misfit);
        }
        if fault == Fault::FirstFrameOnly && std::mem::replace(&mut self.heard_one, true) {
            return Ok(Heard::nodded());
        }
        Ok(match code {
            Code::Data if fault == Fault::HeldLengthIsDlc => {
                Heard::taken(receiver.hear_data(&as_long_as(dlc, payload), clock)?)
            }
            Code::Data => Heard::taken(receiver.hear_data(payload, clock)?),
            Code::Confirmation => Heard::taken(receiver.hear_confirmation(clock)),
            Code::Abort => Heard::taken(receiver.hear_abort(fault)),
            Code::Plain if fault == Fault::NeverDelivers => Heard::nodded(),
            Code::Plain => {
                let written = record::put(fault, stream, payload, output);
                Heard { written, ..Heard::taken(Taken::only(Did::DeliveredAtOnce)) }
            }
        })
    }

    /// The stream and code of a frame that the lent output and the frame test let through.
    fn frame_heard(&self, id: u32, dlc: u8, payload: &[u8], output: usize) -> Result<(Stream, Code), Reply> {
        let short = self.below(output, Limit::HearOutput);
        if short && self.fault != Fault::FrameFirst {
            return Err(Reply::ShortOutput);
        }
        if self.fault == Fault::MineFirst && !matches!(self.parts.get(&Stream(id / 4)), Some(Part::Receives(_))) {
            return Err(Reply::NotMine);
        }
        if let Some(reply) = self.fault_in(id, dlc, payload.len()) {
            return Err(reply);
        }
        if short {
            return Err(Reply::ShortOutput);
        }
        split_by(self.fault, BusId(id))
    }

    /// The first fault in a frame with so many bytes, if it has one.
    fn fault_in(&self, id: u32, dlc: u8, bytes: usize) -> Option<Reply> {
        let mut faults = [
            (split_by(self.fault, BusId(id)).is_err(), Reply::IdentifierTooBig),
            (self.above(usize::from(dlc), Limit::DlcMost), Reply::DlcTooBig),
            (!self.means(dlc, bytes), Reply::PayloadLength),
            (matches!(code_of(id), Code::Confirmation | Code::Abort) && dlc != 0, Reply::UnwantedPayload),
        ];
        match self.fault {
            Fault::DlcFirst => faults.swap(0, 1),
            Fault::UnwantedFirst => faults.swap(2, 3),
            Fault::RefusesFrames => faults[0].0 = true,
            _ => {}
        }
        let reply = faults.iter().find(|(holds, _)| *holds).map(|(_, reply)| *reply)?;
        Some(match self.fault {
            Fault::OneFaultOfFrames => Reply::BadFrame,
            Fault::Swapped(one, other) if reply == one => other,
            Fault::Swapped(one, other) if reply == other => one,
            _ => reply,
        })
    }

    /// Whether a DLC means so many bytes. ISO 11898-1 reads every DLC from 9 to 15 as eight.
    fn means(&self, dlc: u8, bytes: usize) -> bool {
        match self.fault {
            Fault::DlcAboveEight if dlc > 8 => false,
            Fault::NineBytes if dlc == 9 && bytes == 9 => true,
            fault => i64::try_from(bytes) == Ok(i64::from(dlc).min(Limit::DlcBytes.of(fault))),
        }
    }

    /// Moves the count, then drops, delivers and ends holds, by ascending stream.
    pub fn tick(&mut self, output: &mut [u8]) -> Ticked {
        let fault = self.fault;
        let mut ticked = Ticked { reply: Reply::Done, written: 0, dropped: 0, delivered: 0, happened: Vec::new() };
        if fault == Fault::DoesNothing {
            return ticked;
        }
        if self.below(output.len(), Limit::TickOutput) {
            self.now += u64::from(fault == Fault::RefusedTickMoves);
            ticked.reply = Reply::ShortOutput;
            return ticked;
        }
        self.now += 1;
        let clock = self.clock();
        let mut holds = 0;
        for stream in self.due(clock) {
            match self.parts.get_mut(&stream) {
                Some(Part::Sends(sender)) => {
                    sender.held_until = None;
                    holds += 1;
                }
                Some(Part::Receives(receiver)) => match receiver.fate(clock) {
                    Some(Fate::Drop) => ticked.happened.push((stream, receiver.drop_unconfirmed(fault))),
                    Some(Fate::Deliver) if fault == Fault::TickDeliversOne && ticked.written > 0 => {}
                    Some(Fate::Deliver) => {
                        let payload = receiver.deliver(fault);
                        if fault != Fault::NeverDelivers {
                            ticked.written += record::put(fault, stream, &payload, &mut output[ticked.written..]);
                            ticked.happened.push((stream, Happened::Delivered(payload)));
                        }
                    }
                    None => {}
                },
                None => {}
            }
        }
        let delivered =
            ticked.happened.iter().filter(|(_, happened)| matches!(happened, Happened::Delivered(_))).count();
        let dropped = ticked.happened.len() - delivered;
        (ticked.dropped, ticked.delivered) = match fault {
            Fault::DropsCountDelivered => (dropped + delivered, delivered),
            Fault::DeliveredCountDrops => (dropped, delivered + dropped),
            Fault::OneDropTold => (dropped.min(1), delivered),
            Fault::HoldIsDrop => (dropped + holds, delivered),
            Fault::HoldIsDelivery => (dropped, delivered + holds),
            _ => (dropped, delivered),
        };
        ticked
    }

    /// The streams that a tick has something to do for, ascending.
    fn due(&self, clock: Clock) -> Vec<Stream> {
        let mut due: Vec<Stream> =
            self.parts.iter().filter(|(_, part)| part.is_due(clock)).map(|(stream, _)| *stream).collect();
        if self.fault == Fault::SlotOrder {
            due.sort_by_key(|stream| self.order.iter().position(|other| other == stream));
        }
        due
    }

    /// Takes a request to send.
    pub fn request(&mut self, stream: u32, payload: &[u8]) -> Reply {
        let (fault, clock) = (self.fault, self.clock());
        if fault == Fault::DoesNothing {
            return Reply::Done;
        }
        let long = self.above(payload.len(), Limit::RequestMost);
        if long && fault != Fault::SenderFirst {
            return Reply::BadLength;
        }
        let Some(Part::Sends(sender)) = self.parts.get_mut(&Stream(stream)) else {
            return Reply::NotSender;
        };
        if long {
            return Reply::BadLength;
        }
        if sender.busy(fault) {
            return Reply::Busy;
        }
        sender.request(payload, clock);
        Reply::Done
    }

    /// Gives out the pending frame with the lowest bus identifier.
    pub fn next_frame(&mut self, output: &mut [u8]) -> NextFrame {
        let fault = self.fault;
        let refused = |reply| NextFrame { reply, id: BusId(0), length: 0 };
        if fault == Fault::DoesNothing {
            return refused(Reply::Done);
        }
        let next = self.next_pending();
        let short = self.below(output.len(), Limit::NextOutput);
        if fault == Fault::RefusalWrites && (short || next.is_none()) {
            output.fill(0);
        }
        if short && !(fault == Fault::NothingFirst && next.is_none()) {
            return refused(Reply::ShortOutput);
        }
        let Some((stream, code)) = next else {
            return refused(Reply::Nothing);
        };
        let payload = match self.parts.get_mut(&stream) {
            Some(Part::Sends(sender)) => sender.give_out(code, fault),
            Some(Part::Receives(receiver)) => {
                receiver.aborts -= 1;
                Vec::new()
            }
            None => Vec::new(),
        };
        let length = payload.len().min(output.len());
        output[..length].copy_from_slice(&payload[..length]);
        if fault == Fault::PastRecord {
            output[length..].fill(0);
        }
        NextFrame { reply: Reply::Done, id: own(stream, code), length }
    }

    /// The pending frame with the lowest bus identifier: the map ascends by stream, and a part names its lowest.
    fn next_pending(&self) -> Option<(Stream, Code)> {
        let pending = |stream: &Stream| {
            let part = self.parts.get(stream)?;
            Some((*stream, part.pending(self.fault)?))
        };
        if self.fault == Fault::NextInSlotOrder {
            return self.order.iter().find_map(pending);
        }
        self.parts.keys().find_map(pending)
    }
}

/// What a mutant takes for the payload: as many bytes as the DLC's number says, the last ones zeros.
fn as_long_as(dlc: u8, payload: &[u8]) -> Vec<u8> {
    let mut long = payload.to_vec();
    long.resize(usize::from(dlc), 0);
    long
}
