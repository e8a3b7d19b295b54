//! The bench: two to eight modules on a modelled bus. It runs what it is given and judges nothing.

use crate::fault::Fault;
use crate::history::{Event, Hearers};
use crate::ident::{BusId, Stream};
use crate::node::{Node, HEAR_OUTPUT, NEXT_OUTPUT, TICK_OUTPUT};
use crate::receiver::{Did, Happened};
use crate::reply::Reply;
use crate::settings::Asked;

/// How many frames may be given out.
pub const FRAMES: usize = 1_024;

/// In a long run of ticks it is looked this often whether there is nothing left to do.
pub const LOOK_EACH: u64 = 64;

#[derive(Clone, Debug, PartialEq, Eq, Hash)]
pub struct Module {
    pub node: Node,
    pub live: bool,
}

impl Module {
    fn is_ticked(&self, fault: Fault) -> bool {
        self.live || fault == Fault::DeadTicks
    }
}

/// A frame that was given out.
#[derive(Clone, Debug, PartialEq, Eq, Hash)]
pub struct Frame {
    pub owner: usize,
    pub id: BusId,
    pub payload: Vec<u8>,
}

#[derive(Clone, Debug, PartialEq, Eq, Hash)]
pub struct Bench {
    modules: Vec<Module>,
    frames: Vec<Frame>,
    /// The common ticks so far.
    count: u64,
    fault: Fault,
}

#[derive(Clone, Debug, PartialEq, Eq)]
pub struct Delivery {
    pub tick: u64,
    pub module: usize,
    pub stream: Stream,
    pub payload: Vec<u8>,
}

/// What a module dropped at a tick.
#[derive(Clone, Copy, Debug, PartialEq, Eq)]
pub struct Drops {
    pub tick: u64,
    pub module: usize,
    /// How many messages: one or more.
    pub number: usize,
}

/// One module's hearing of a sending: what it did, which a refused frame does not; a plain frame is delivered at once.
#[derive(Clone, Debug, PartialEq, Eq)]
pub struct Hearing {
    pub module: usize,
    pub reply: Reply,
    pub did: Option<Did>,
    pub delivered: Option<(Stream, Vec<u8>)>,
}

/// What an event led to, as the bench answers it.
#[derive(Clone, Debug, PartialEq, Eq)]
pub enum Outcome {
    /// The reply to a request.
    Replied(Reply),
    /// The module, or the frame's owner, is dead; also the answer to a death.
    Dead,
    /// There is no such frame, or no more can be given out: nothing changed.
    Refused,
    NothingPending,
    Gave {
        frame: usize,
        id: BusId,
        payload: Vec<u8>,
    },
    Heard(Vec<Hearing>),
    /// The new count, the drops by tick and module, and the deliveries by tick, module and stream.
    Ticked {
        count: u64,
        dropped: Vec<Drops>,
        delivered: Vec<Delivery>,
    },
}

/// An abort that became pending.
#[derive(Clone, Debug, PartialEq, Eq)]
pub struct Cause {
    pub tick: u64,
    pub module: usize,
    pub stream: Stream,
}

/// An outcome and the aborts that the event caused.
#[derive(Clone, Debug, PartialEq, Eq)]
pub struct Step {
    pub outcome: Outcome,
    pub causes: Vec<Cause>,
}

impl Bench {
    pub fn new(modules: usize) -> Bench {
        Bench::with(modules, Fault::None)
    }

    pub fn with(modules: usize, fault: Fault) -> Bench {
        let module = Module { node: Node::with(fault), live: true };
        Bench { modules: vec![module; modules], frames: Vec::new(), count: 0, fault }
    }

    pub fn modules(&self) -> &[Module] {
        &self.modules
    }

    pub fn frames(&self) -> &[Frame] {
        &self.frames
    }

    pub fn count(&self) -> u64 {
        self.count
    }

    pub fn set_up(&mut self, module: usize, asked: Asked) -> Reply {
        self.modules[module].node.set_up(asked)
    }

    /// Runs one event. The modules that it names are on the bench.
    pub fn run(&mut self, event: &Event) -> Step {
        let mut causes = Vec::new();
        let outcome = match event {
            Event::Request { module, stream, payload } => self.request(*module, *stream, payload),
            Event::Give { module } => self.give(*module),
            Event::Send { frame, hearers } => self.send(*frame, hearers, &mut causes),
            Event::Tick => self.ticks(1, &mut causes),
            Event::Ticks(number) => self.ticks(*number, &mut causes),
            Event::Death { module } => {
                self.modules[*module].live = false;
                Outcome::Dead
            }
        };
        Step { outcome, causes }
    }

    fn request(&mut self, module: usize, stream: u32, payload: &[u8]) -> Outcome {
        let module = &mut self.modules[module];
        if !module.live {
            return Outcome::Dead;
        }
        Outcome::Replied(module.node.request(stream, payload))
    }

    fn give(&mut self, owner: usize) -> Outcome {
        let module = &mut self.modules[owner];
        if !module.live {
            return Outcome::Dead;
        }
        if !module.node.has_pending() {
            return Outcome::NothingPending;
        }
        if self.frames.len() == FRAMES {
            return Outcome::Refused;
        }
        let mut output = [0; NEXT_OUTPUT + 1];
        let next = module.node.next_frame(&mut output);
        let payload = output[..next.length].to_vec();
        self.frames.push(Frame { owner, id: next.id, payload: payload.clone() });
        Outcome::Gave { frame: self.frames.len() - 1, id: next.id, payload }
    }

    fn send(&mut self, number: usize, hearers: &Hearers, causes: &mut Vec<Cause>) -> Outcome {
        let Some(frame) = self.frames.get(number) else {
            return Outcome::Refused;
        };
        if !self.modules[frame.owner].live {
            return Outcome::Dead;
        }
        let dlc = frame.payload.len() as u8;
        let mut heard = Vec::new();
        for (number, module) in self.modules.iter_mut().enumerate() {
            let named = match hearers {
                Hearers::Short(names) if self.fault != Fault::ShortReachesAll => names.contains(&number),
                _ => true,
            };
            let other = number != frame.owner || self.fault == Fault::OwnerHears;
            let live = module.live || self.fault == Fault::DeadHears;
            if !(named && other && live) {
                continue;
            }
            let mut output = [0; HEAR_OUTPUT + 1];
            let hearing = module.node.hear(frame.id.0, dlc, &frame.payload, &mut output);
            let stream = Stream(frame.id.0 / 4);
            if hearing.causes_abort {
                causes.push(Cause { tick: self.count, module: number, stream });
            }
            let delivered = (hearing.did == Some(Did::DeliveredAtOnce)).then(|| (stream, frame.payload.clone()));
            heard.push(Hearing { module: number, reply: hearing.reply, did: hearing.did, delivered });
        }
        Outcome::Heard(heard)
    }

    fn ticks(&mut self, number: u64, causes: &mut Vec<Cause>) -> Outcome {
        let (mut dropped, mut delivered) = (Vec::new(), Vec::new());
        let mut output = [0; TICK_OUTPUT + 1];
        for done in 0..number {
            if done % LOOK_EACH == 0 && self.is_idle() {
                self.pass(number - done);
                break;
            }
            self.count += 1;
            let tick = self.count;
            for (module, it) in self.modules.iter_mut().enumerate() {
                if !it.is_ticked(self.fault) {
                    continue;
                }
                let ticked = it.node.tick(&mut output);
                if ticked.dropped > 0 {
                    dropped.push(Drops { tick, module, number: ticked.dropped });
                }
                for (stream, happened) in ticked.happened {
                    match happened {
                        Happened::Delivered(payload) => delivered.push(Delivery { tick, module, stream, payload }),
                        Happened::AbortPending => causes.push(Cause { tick, module, stream }),
                        Happened::Dropped => {}
                    }
                }
            }
        }
        Outcome::Ticked { count: self.count, dropped, delivered }
    }

    fn is_idle(&self) -> bool {
        self.modules.iter().all(|module| !module.is_ticked(self.fault) || module.node.is_idle())
    }

    /// So many ticks of an idle bench.
    fn pass(&mut self, ticks: u64) {
        self.count += ticks;
        for module in self.modules.iter_mut().filter(|module| module.is_ticked(self.fault)) {
            module.node.pass(ticks);
        }
    }
}
