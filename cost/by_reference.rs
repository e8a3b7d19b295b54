//! The node in Rust, as it would be written by hand for one module: changed where it stands, by `&mut`, with its slots in an array in stream
//! order. Its fields, its refusals and its searches are those of the node in C by pointer (node.h, slot.h), and it is offered to C in its place.
#![no_std]

const SLOTS: usize = 32;
const MAX_STREAM: u32 = 134_217_727;
const MAX_BUS_ID: u32 = 536_870_911;
const HEAR_OUTPUT: usize = 16;
const TICK_OUTPUT: usize = 512;
const NEXT_OUTPUT: usize = 8;

#[derive(Clone, Copy)]
enum Refusal {
    BadSettings = 1,
    TableFull = 2,
    Taken = 3,
    NotMine = 5,
    Misfit = 6,
    Clash = 7,
    Busy = 8,
    NotSender = 9,
    BadLength = 10,
    ShortOutput = 11,
    Nothing = 12,
    IdentifierTooBig = 18,
    DlcTooBig = 19,
    PayloadLength = 20,
    UnwantedPayload = 21,
}

/// What a frame did that was heard.
#[derive(Clone, Copy)]
enum Told {
    New = 1,
    Duplicate,
    Confirmed,
    ConfirmedAgain,
    AbortPending,
    Dropped,
    NothingToDrop,
    Delivered,
}

#[derive(Clone, Copy, PartialEq)]
#[repr(u8)]
enum Role {
    Receive,
    Send,
}

#[derive(Clone, Copy, PartialEq)]
#[repr(u8)]
enum Class {
    Plain,
    Imd,
    TwoMessage,
}

#[derive(Clone, Copy, PartialEq)]
enum Code {
    Data,
    Confirmation,
    Abort,
    Plain,
}

/// Settings as they are handed over, legal or not.
#[derive(Clone, Copy)]
#[repr(C)]
pub struct Asked {
    rd: u16,
    dc: u16,
    ra: u16,
    dd: u16,
    role: u8,
    class: u8,
}

#[derive(Clone, Copy)]
#[repr(C)]
struct Settings {
    rd: u16,
    dc: u16,
    ra: u16,
    dd: u16,
    role: Role,
    class: Class,
}

#[derive(Clone, Copy, Default)]
#[repr(C)]
struct Message {
    stamp: u16,
    len: u8,
    held: bool,
    confirmed: bool,
    bytes: [u8; 8],
}

#[derive(Clone, Copy, Default)]
#[repr(C)]
struct Pending {
    payload: bool,
    confirmation: bool,
    abort: bool,
}

#[derive(Clone, Copy)]
#[repr(C)]
struct Slot {
    stream: u32,
    settings: Settings,
    message: Message,
    pending: Pending,
    used: bool,
}

/// The slots that are used come first, by ascending stream. A node of zeros is the fresh one.
#[repr(C)]
pub struct Node {
    slots: [Slot; SLOTS],
    counter: u16,
}

/// As long as node.h's, which C makes.
const _: () = assert!(core::mem::size_of::<Node>() == 1028);

struct Heard {
    written: usize,
    told: Told,
}

#[derive(Default)]
struct Ticked {
    written: usize,
    dropped: u32,
    delivered: u32,
}

struct Given {
    id: u32,
    length: usize,
}

enum Fate {
    Kept,
    Late,
    Due,
}

impl Code {
    fn of(id: u32) -> Code {
        match id % 4 {
            0 => Code::Data,
            1 => Code::Confirmation,
            2 => Code::Abort,
            _ => Code::Plain,
        }
    }
}

impl Class {
    fn carries(self, code: Code) -> bool {
        match self {
            Class::Plain => code == Code::Plain,
            Class::Imd => code == Code::Data,
            Class::TwoMessage => code != Code::Plain,
        }
    }
}

impl Asked {
    fn judged(self) -> Option<Settings> {
        let Asked { rd, dc, ra, dd, .. } = self;
        let role = match self.role {
            0 => Role::Receive,
            1 => Role::Send,
            _ => return None,
        };
        let (class, legal) = match self.class {
            0 => (Class::Plain, rd == 0 && dc == 0 && ra == 0 && dd == 0),
            1 => (Class::Imd, (1..=8000).contains(&rd) && dc == 0 && ra == 0 && (rd..=16000).contains(&dd)),
            2 => (
                Class::TwoMessage,
                (1..=8000).contains(&rd)
                    && (rd..=8000).contains(&dc)
                    && (1..=4000).contains(&ra)
                    && (dc + ra + 1..=16000).contains(&dd),
            ),
            _ => return None,
        };
        legal.then_some(Settings { rd, dc, ra, dd, role, class })
    }
}

impl Message {
    fn holding(stamp: u16, payload: &[u8]) -> Message {
        let mut bytes = [0; 8];
        bytes[..payload.len()].copy_from_slice(payload);
        Message { stamp, len: payload.len() as u8, held: true, confirmed: false, bytes }
    }

    fn payload(&self) -> &[u8] {
        &self.bytes[..usize::from(self.len)]
    }
}

impl Pending {
    fn any(&self) -> bool {
        self.payload || self.confirmation || self.abort
    }
}

impl Slot {
    /// Hears a frame that is not plain.
    fn hear(&mut self, counter: u16, code: Code, payload: &[u8]) -> Result<Told, Refusal> {
        let message = &mut self.message;
        match code {
            Code::Data if !message.held => {
                *message = Message::holding(counter, payload);
                Ok(Told::New)
            }
            Code::Data if message.payload() == payload => {
                message.stamp = counter;
                Ok(Told::Duplicate)
            }
            Code::Data => Err(Refusal::Clash),
            Code::Confirmation if !message.held => {
                self.pending.abort = true;
                Ok(Told::AbortPending)
            }
            Code::Confirmation if message.confirmed => Ok(Told::ConfirmedAgain),
            Code::Confirmation => {
                message.confirmed = true;
                Ok(Told::Confirmed)
            }
            _ if message.held => {
                *message = Message::default();
                Ok(Told::Dropped)
            }
            _ => Ok(Told::NothingToDrop),
        }
    }

    /// Whether the message is due for delivery now; what is late is dropped, and a sender's hold ends.
    fn lapse(&mut self, counter: u16) -> Fate {
        let settings = &self.settings;
        let message = &mut self.message;
        let age = counter.wrapping_sub(message.stamp);
        if !message.held {
            return Fate::Kept;
        }
        if settings.role == Role::Send {
            if age > settings.rd + settings.dd {
                *message = Message { stamp: 0, held: false, confirmed: false, ..*message };
            }
            return Fate::Kept;
        }
        if settings.class == Class::TwoMessage && !message.confirmed {
            if age > settings.dc {
                *message = Message::default();
                self.pending.abort = true;
                return Fate::Late;
            }
            return Fate::Kept;
        }
        if age > settings.dd {
            Fate::Due
        } else {
            Fate::Kept
        }
    }

    fn request(&mut self, counter: u16, payload: &[u8]) -> Result<(), Refusal> {
        if self.settings.role != Role::Send {
            return Err(Refusal::NotSender);
        }
        if self.message.held || self.pending.any() {
            return Err(Refusal::Busy);
        }
        self.message = Message::holding(counter, payload);
        if self.settings.class == Class::Plain {
            self.message.stamp = 0;
            self.message.held = false;
        }
        self.pending.payload = true;
        self.pending.confirmation = self.settings.class == Class::TwoMessage;
        Ok(())
    }

    /// The lowest code of the pending frames; one is pending.
    fn lowest_code(&self) -> Code {
        if self.pending.payload && self.settings.class != Class::Plain {
            Code::Data
        } else if self.pending.confirmation {
            Code::Confirmation
        } else if self.pending.abort {
            Code::Abort
        } else {
            Code::Plain
        }
    }

    /// The frame with this code is given out; its payload goes to the front of the output.
    fn give_out(&mut self, code: Code, out: &mut [u8]) -> usize {
        match code {
            Code::Confirmation => {
                self.pending.confirmation = false;
                0
            }
            Code::Abort => {
                self.pending.abort = false;
                0
            }
            Code::Data | Code::Plain => {
                let payload = self.message.payload();
                self.pending.payload = false;
                out[..payload.len()].copy_from_slice(payload);
                payload.len()
            }
        }
    }
}

fn write_record(out: &mut [u8], stream: u32, payload: &[u8]) -> usize {
    let written = 8 + payload.len();
    let out = &mut out[..written];
    out[..4].copy_from_slice(&[6 + payload.len() as u8, 0, 1, 0]);
    out[4..8].copy_from_slice(&stream.to_le_bytes());
    out[8..].copy_from_slice(payload);
    written
}

fn judge_frame(id: u32, dlc: u8, len: usize) -> Result<Code, Refusal> {
    let code = Code::of(id);
    if id > MAX_BUS_ID {
        Err(Refusal::IdentifierTooBig)
    } else if dlc > 15 {
        Err(Refusal::DlcTooBig)
    } else if len != usize::from(dlc.min(8)) {
        Err(Refusal::PayloadLength)
    } else if matches!(code, Code::Confirmation | Code::Abort) && dlc != 0 {
        Err(Refusal::UnwantedPayload)
    } else {
        Ok(code)
    }
}

impl Node {
    /// Where the stream's slot stands, or would stand.
    fn place(&self, stream: u32) -> usize {
        self.slots.iter().position(|slot| !slot.used || slot.stream >= stream).unwrap_or(SLOTS)
    }

    fn find(&mut self, stream: u32) -> Option<&mut Slot> {
        let at = self.place(stream);
        self.slots.get_mut(at).filter(|slot| slot.used && slot.stream == stream)
    }

    fn set_up(&mut self, stream: u32, asked: Asked) -> Result<(), Refusal> {
        if stream > MAX_STREAM {
            return Err(Refusal::BadSettings);
        }
        let settings = asked.judged().ok_or(Refusal::BadSettings)?;
        let at = self.place(stream);
        if self.slots.get(at).is_some_and(|slot| slot.used && slot.stream == stream) {
            return Err(Refusal::Taken);
        }
        if self.slots[SLOTS - 1].used {
            return Err(Refusal::TableFull);
        }
        self.slots.copy_within(at..SLOTS - 1, at + 1);
        self.slots[at] =
            Slot { stream, settings, message: Message::default(), pending: Pending::default(), used: true };
        Ok(())
    }

    fn hear(&mut self, id: u32, dlc: u8, payload: &[u8], out: &mut [u8]) -> Result<Heard, Refusal> {
        if out.len() < HEAR_OUTPUT {
            return Err(Refusal::ShortOutput);
        }
        let code = judge_frame(id, dlc, payload.len())?;
        let stream = id / 4;
        let counter = self.counter;
        let slot = self.find(stream).filter(|slot| slot.settings.role == Role::Receive).ok_or(Refusal::NotMine)?;
        if !slot.settings.class.carries(code) {
            return Err(Refusal::Misfit);
        }
        if code == Code::Plain {
            return Ok(Heard { written: write_record(out, stream, payload), told: Told::Delivered });
        }
        Ok(Heard { written: 0, told: slot.hear(counter, code, payload)? })
    }

    fn tick(&mut self, out: &mut [u8]) -> Result<Ticked, Refusal> {
        if out.len() < TICK_OUTPUT {
            return Err(Refusal::ShortOutput);
        }
        let mut ticked = Ticked::default();
        self.counter = self.counter.wrapping_add(1);
        for slot in &mut self.slots {
            match slot.lapse(self.counter) {
                Fate::Kept => {}
                Fate::Late => ticked.dropped += 1,
                Fate::Due => {
                    ticked.written += write_record(&mut out[ticked.written..], slot.stream, slot.message.payload());
                    ticked.delivered += 1;
                    slot.message = Message::default();
                }
            }
        }
        Ok(ticked)
    }

    fn request(&mut self, stream: u32, payload: &[u8]) -> Result<(), Refusal> {
        if payload.len() > 8 {
            return Err(Refusal::BadLength);
        }
        let counter = self.counter;
        self.find(stream).ok_or(Refusal::NotSender)?.request(counter, payload)
    }

    fn next_frame(&mut self, out: &mut [u8]) -> Result<Given, Refusal> {
        if out.len() < NEXT_OUTPUT {
            return Err(Refusal::ShortOutput);
        }
        let slot = self.slots.iter_mut().find(|slot| slot.pending.any()).ok_or(Refusal::Nothing)?;
        let code = slot.lowest_code();
        Ok(Given { id: slot.stream * 4 + code as u32, length: slot.give_out(code, out) })
    }
}

/// The calls as node.h declares them, on its node.
mod for_c {
    use super::{Asked, Given, Heard, Node, Refusal, Ticked};
    use core::slice::{from_raw_parts, from_raw_parts_mut};

    const DONE: u32 = 0;
    const TOLD_NOTHING: u32 = 0;

    #[repr(C)]
    pub struct CAnswered {
        reply: u32,
    }

    #[repr(C)]
    pub struct CHeard {
        reply: u32,
        written: usize,
        told: u32,
    }

    #[repr(C)]
    pub struct CTicked {
        reply: u32,
        written: usize,
        dropped: u32,
        delivered: u32,
    }

    #[repr(C)]
    pub struct CGiven {
        reply: u32,
        id: u32,
        length: usize,
    }

    fn answered(answer: Result<(), Refusal>) -> CAnswered {
        CAnswered { reply: answer.map_or_else(|refusal| refusal as u32, |()| DONE) }
    }

    #[no_mangle]
    extern "C" fn set_up(node: &mut Node, stream: u32, asked: Asked) -> CAnswered {
        answered(node.set_up(stream, asked))
    }

    /// # Safety
    /// `payload` has `len` bytes, and `out` has `room` that nothing else uses.
    #[no_mangle]
    unsafe extern "C" fn hear(
        node: &mut Node,
        id: u32,
        dlc: u8,
        payload: *const u8,
        len: usize,
        out: *mut u8,
        room: usize,
    ) -> CHeard {
        match node.hear(id, dlc, from_raw_parts(payload, len), from_raw_parts_mut(out, room)) {
            Ok(Heard { written, told }) => CHeard { reply: DONE, written, told: told as u32 },
            Err(refusal) => CHeard { reply: refusal as u32, written: 0, told: TOLD_NOTHING },
        }
    }

    /// # Safety
    /// `out` has `room` bytes that nothing else uses.
    #[no_mangle]
    unsafe extern "C" fn tick(node: &mut Node, out: *mut u8, room: usize) -> CTicked {
        match node.tick(from_raw_parts_mut(out, room)) {
            Ok(Ticked { written, dropped, delivered }) => CTicked { reply: DONE, written, dropped, delivered },
            Err(refusal) => CTicked { reply: refusal as u32, written: 0, dropped: 0, delivered: 0 },
        }
    }

    /// # Safety
    /// `payload` has `len` bytes.
    #[no_mangle]
    unsafe extern "C" fn request(node: &mut Node, stream: u32, payload: *const u8, len: usize) -> CAnswered {
        answered(node.request(stream, from_raw_parts(payload, len)))
    }

    /// # Safety
    /// `out` has `room` bytes that nothing else uses.
    #[no_mangle]
    unsafe extern "C" fn next_frame(node: &mut Node, out: *mut u8, room: usize) -> CGiven {
        match node.next_frame(from_raw_parts_mut(out, room)) {
            Ok(Given { id, length }) => CGiven { reply: DONE, id, length },
            Err(refusal) => CGiven { reply: refusal as u32, id: 0, length: 0 },
        }
    }

    /// Only a node that no call made gets here.
    #[panic_handler]
    fn panic(_: &core::panic::PanicInfo) -> ! {
        loop {}
    }
}
