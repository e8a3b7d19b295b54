//! Random bench histories: 2 to 8 modules, several streams of all classes, repeats, short sendings to subsets, deaths
//! at every point. A careful one keeps the rules; a sinful one is let break some of them.

use std::collections::BTreeSet;

use crate::bench::{Bench, Outcome};
use crate::demand::Told;
use crate::fault::Fault;
use crate::harness::{reads, write_line};
use crate::history::{Event, Hearers, Line};
use crate::ident::{Code, Stream};
use crate::random::Random;
use crate::random_calls::damage;
use crate::random_plans::{plans, set_ups, Plan};
use crate::reply::{Reply, REPLIES};
use crate::rules::{Break, Broken, Judge, Verdict};
use crate::settings::Asked;

/// How to make histories.
#[derive(Clone, Copy, Debug)]
pub struct Making {
    /// What the bench that runs them is like; histories keep the rules as that bench behaves.
    pub fault: Fault,
    /// Whether some histories are let break the rules.
    pub sinful: bool,
    /// Also lines that are skipped or can't be read.
    pub noise: bool,
    /// Also what the text format leaves to a reading.
    pub edges: bool,
}

/// A history, what was answered, and what it broke.
pub struct Made {
    pub lines: Vec<Line>,
    pub told: Told,
    pub verdict: Verdict,
    /// Frames whose last sending was short.
    pub omissions: u64,
    /// Sendings of frames that had been sent before.
    pub repeats: u64,
    /// Aborts that became pending.
    pub aborts: u64,
    /// The replies to set ups, by number.
    pub set_ups: [u64; REPLIES],
}

struct Maker<'a> {
    random: &'a mut Random,
    making: Making,
    bench: Bench,
    judge: Judge,
    told: Told,
    lines: Vec<Line>,
    plans: Vec<Plan>,
    sins: Vec<Break>,
    deaths_left: usize,
    /// By how much the stream's numbers are larger than the small ones.
    scale: u64,
    repeats: u64,
    aborts: u64,
    set_ups: [u64; REPLIES],
}

pub fn history(random: &mut Random, making: Making) -> Made {
    let modules = random.from(2, 8).min(random.from(2, 9)) as usize;
    let mut sins = Vec::new();
    if making.sinful && random.percent(40) {
        for _ in 0..random.from(1, 2) {
            sins.push(random.pick(&Break::ALL));
        }
    }
    let deaths_left = match random.below(10) {
        0..=3 => 0,
        4..=6 => 1,
        7..=8 => 2,
        _ => modules,
    };
    let scale = if random.percent(2) { random.from(5, 200) } else { 1 };
    let mut maker = Maker {
        bench: Bench::with(modules, making.fault),
        judge: Judge::new(modules),
        told: Told { modules, ..Told::default() },
        lines: vec![Line::Modules(modules)],
        plans: Vec::new(),
        sins,
        deaths_left,
        scale,
        repeats: 0,
        aborts: 0,
        set_ups: [0; REPLIES],
        random,
        making,
    };
    maker.make();
    let omissions = maker.judge.books().iter().filter(|book| book.is_omission()).count() as u64;
    Made {
        verdict: maker.judge.verdict(),
        lines: maker.lines,
        told: maker.told,
        omissions,
        repeats: maker.repeats,
        aborts: maker.aborts,
        set_ups: maker.set_ups,
    }
}

impl Maker<'_> {
    fn make(&mut self) {
        self.plans = plans(self.random, self.modules(), self.scale, self.making.fault);
        for (module, asked) in set_ups(self.random, &self.plans, &self.sins) {
            self.set_up(module, asked);
        }
        if self.random.one_in(250) {
            let before = self.random.from(65_500, 65_536);
            self.happens(Event::Ticks(before));
        }
        let steps = self.random.from(20, 170);
        for _ in 0..steps {
            self.step(true);
        }
        if self.random.percent(85) {
            self.wind_down();
        }
    }

    fn sins(&self, what: Break) -> bool {
        self.sins.contains(&what)
    }

    fn modules(&self) -> usize {
        self.bench.modules().len()
    }

    fn set_up(&mut self, module: usize, asked: Asked) {
        self.lines.push(Line::SetUp { module, asked });
        let reply = self.bench.set_up(module, asked);
        self.set_ups[reply.place()] += 1;
        if reply != Reply::Done {
            return;
        }
        if let Some(settings) = asked.tested_by(self.making.fault) {
            self.judge.set_up(settings);
            self.told.set_ups.push((module, settings));
        }
    }

    /// Runs an event, if the rules or the sins allow it.
    fn happens(&mut self, event: Event) -> bool {
        if self.judge.breaks(&event).is_some_and(|broken| !self.sins(broken.what)) {
            return false;
        }
        if let Event::Send { frame, .. } = &event {
            let sent = self.judge.books().iter().any(|book| book.given == Some(*frame) && book.sent.is_some());
            self.repeats += u64::from(sent);
        }
        let step = self.bench.run(&event);
        self.aborts += step.causes.len() as u64;
        self.judge.note(&event, &step);
        self.lines.push(Line::Event(event.clone()));
        self.told.events.push((event, step.outcome));
        true
    }

    fn step(&mut self, asking: bool) {
        match self.random.below(100) {
            0..=13 if asking => self.request(),
            0..=36 => self.give(),
            37..=66 => self.send(),
            67..=91 => self.tick(),
            92..=93 => self.ticks(),
            94..=95 => self.death(),
            96 => self.late_set_up(),
            _ => self.noise(),
        }
    }

    fn some_live(&mut self) -> usize {
        let live: Vec<usize> = (0..self.modules()).filter(|module| self.judge.is_live(*module)).collect();
        let dead_too = self.sins(Break::DeadActs) && self.random.percent(30);
        if live.is_empty() || dead_too {
            return self.random.index(self.modules());
        }
        self.random.pick(&live)
    }

    fn request(&mut self) {
        let Some(at) = (!self.plans.is_empty()).then(|| self.random.index(self.plans.len())) else {
            return;
        };
        let stream = if self.random.percent(2) { 99 } else { self.plans[at].asked.stream };
        let module = if self.random.percent(4) { self.some_live() } else { self.plans[at].sender };
        let length = match self.random.below(40) {
            0 => 9,
            1 => self.random.below(65),
            2..=5 => 0,
            6..=9 => 8,
            _ => self.random.from(1, 3),
        };
        let mut payload = self.random.bytes(length as usize);
        if self.random.percent(40) {
            payload.fill(7);
        }
        self.happens(Event::Request { module, stream, payload });
    }

    fn give(&mut self) {
        let pending: Vec<usize> = (0..self.modules())
            .filter(|module| self.judge.is_live(*module) && self.bench.modules()[*module].node.has_pending())
            .collect();
        let module = if pending.is_empty() || self.random.percent(3) || self.sins(Break::DeadActs) {
            if pending.is_empty() && !self.random.percent(5) {
                return;
            }
            self.some_live()
        } else {
            self.random.pick(&pending)
        };
        self.happens(Event::Give { module });
    }

    fn send(&mut self) {
        let wanton = !self.sins.is_empty();
        let open: Vec<usize> = (0..self.judge.books().len())
            .filter(|at| {
                let book = &self.judge.books()[*at];
                match book.given {
                    None => false,
                    Some(_) if wanton => true,
                    Some(frame) => self.judge.breaks(&Event::Send { frame, hearers: Hearers::Full }).is_none(),
                }
            })
            .collect();
        if open.is_empty() {
            return;
        }
        let sins = |at: &usize| {
            let frame = self.judge.books()[*at].given;
            let event = frame.map(|frame| Event::Send { frame, hearers: Hearers::Full });
            event.and_then(|event| self.judge.breaks(&event)).is_some_and(|broken| self.sins(broken.what))
        };
        let sinful: Vec<usize> = open.iter().copied().filter(sins).collect();
        let at = if sinful.is_empty() || self.random.percent(60) {
            // A newer frame rather than an old one, where old ones may be sent again.
            let newer = if wanton { self.random.pick(&open) } else { 0 };
            newer.max(self.random.pick(&open))
        } else {
            self.random.pick(&sinful)
        };
        self.send_book(at);
    }

    fn send_book(&mut self, at: usize) {
        let book = &self.judge.books()[at];
        let (Some(frame), owner, message) = (book.given, book.owner, book.message) else {
            return;
        };
        let others = message
            .map_or(0, |message| self.judge.omissions(message) - usize::from(self.judge.books()[at].is_omission()));
        let may_omit = others == 0 || self.sins(Break::TwoOmissions) || self.random.percent(6);
        let hearers =
            if may_omit && self.random.percent(45) { Hearers::Short(self.some_names(owner)) } else { Hearers::Full };
        self.happens(Event::Send { frame, hearers });
    }

    /// A subset of the other modules, perhaps none; now and then with names that are passed over.
    fn some_names(&mut self, owner: usize) -> Vec<usize> {
        let cases = self.random.pick(&[0, 50, 50, 50, 100]);
        let mut names = Vec::new();
        for module in 0..self.modules() {
            if module != owner && self.random.percent(cases) {
                names.push(module);
            }
        }
        if self.random.percent(5) {
            names.push(self.random.index(self.modules()));
        }
        if self.random.percent(10) {
            self.random.shuffle(&mut names);
        }
        names
    }

    fn death(&mut self) {
        if self.deaths_left > 0 && self.random.percent(60) {
            let module = self.some_live();
            self.die(module);
        }
    }

    fn die(&mut self, module: usize) {
        self.deaths_left -= 1;
        self.happens(Event::Death { module });
    }

    fn tick(&mut self) {
        if self.scale > 1 && self.random.percent(70) {
            let many = self.random.from(1, 2 * self.scale);
            return self.ticks_of(many);
        }
        self.settle();
        self.happens(Event::Tick);
    }

    fn ticks(&mut self) {
        let few = self.random.from(1, 7);
        self.ticks_of(few);
    }

    /// That many ticks at once if no rule is broken by it, else one.
    fn ticks_of(&mut self, number: u64) {
        self.settle();
        let event = Event::Ticks(number);
        let (mut bench, mut judge) = (self.bench.clone(), self.judge.clone());
        judge.note(&event, &bench.run(&event));
        let before = |broken: &Broken| {
            self.judge.broken().iter().any(|it| (it.what, it.message) == (broken.what, broken.message))
        };
        let sinless = judge.broken().iter().all(|broken| self.sins(broken.what) || before(broken));
        self.happens(if sinless { event } else { Event::Ticks(1) });
    }

    /// Before a tick: what has to be sent by now is sent, or its owner dies, or it is a sin.
    fn settle(&mut self) {
        for _ in 0..60 {
            let unsent = self.judge.unsent_at(self.judge.count() + 1);
            if unsent.is_empty() || (self.sins(Break::Unsent) && self.random.percent(50)) {
                break;
            }
            let at = self.random.pick(&unsent);
            let owner = self.judge.books()[at].owner;
            if self.deaths_left > 0 && self.random.percent(12) {
                self.die(owner);
            } else if self.judge.books()[at].given.is_none() {
                if !self.happens(Event::Give { module: owner }) {
                    break;
                }
            } else {
                self.send_book(at);
            }
        }
        self.repair();
    }

    /// Where a message has two omissions, a frame whose reach ends now is sent in full.
    fn repair(&mut self) {
        if self.sins(Break::TwoOmissions) {
            return;
        }
        for at in 0..self.judge.books().len() {
            let book = &self.judge.books()[at];
            let last = self.judge.end_of_reach(book) == Some(self.judge.count());
            let (Some(frame), Some(message)) = (book.given, book.message) else {
                continue;
            };
            if last && book.is_omission() && self.judge.omissions(message) > 1 {
                self.happens(Event::Send { frame, hearers: Hearers::Full });
            }
        }
    }

    /// Goes on until the last message can be judged.
    fn wind_down(&mut self) {
        let end = |maker: &Self| {
            let ends = maker.judge.messages().iter().map(|message| message.requested + message.settings.hold() + 1);
            ends.max().unwrap_or(0) + 1
        };
        for _ in 0..400 {
            let left = end(self).saturating_sub(self.judge.count());
            if left == 0 {
                return;
            }
            self.step(false);
            if self.random.percent(30) {
                let many = if self.scale > 1 { self.random.from(1, left) } else { 1 };
                self.ticks_of(many);
            }
        }
    }

    fn late_set_up(&mut self) {
        if !self.sins(Break::LateSettings) || self.plans.is_empty() {
            return;
        }
        let module = self.some_live();
        let at = self.random.index(self.plans.len());
        let mut asked = self.plans[at].asked;
        asked.stream = asked.stream.wrapping_add(self.random.below(2) as u32);
        if self.judge.is_live(module) {
            self.set_up(module, asked);
        }
    }

    /// A line that is skipped or can't be read.
    fn noise(&mut self) {
        if !self.making.noise || !self.random.percent(25) {
            return;
        }
        if self.making.edges && self.random.percent(30) {
            let dead = (0..self.modules()).find(|module| !self.judge.is_live(*module));
            if let Some(module) = dead {
                let asked = Asked { stream: self.random.from(100, 200) as u32, ..self.plans[0].asked };
                self.lines.push(Line::SetUp { module, asked });
                self.bench.set_up(module, asked);
                return;
            }
            return self.lines.push(Line::Other(self.random.pick(DOUBTFUL).to_vec()));
        }
        let line = match self.random.below(4) {
            0 => self.random.pick(STRANGE).to_vec(),
            1 => format!("full {}", self.bench.frames().len()).into_bytes(),
            2 => format!("give {}", self.modules()).into_bytes(),
            _ => {
                let at = self.random.index(self.lines.len());
                let good = write_line(&self.lines[at]);
                match &self.lines[at] {
                    Line::Other(_) => return,
                    _ => damage(self.random, &String::from_utf8_lossy(&good)),
                }
            }
        };
        if !reads(&line, &self.bench) {
            self.lines.push(Line::Other(line));
        }
    }
}

/// Lines that are skipped or can't be read, whatever the bench.
const STRANGE: &[&[u8]] = &[
    b"",
    b"#",
    b"# full 0",
    b"#modules 2",
    b" ",
    b" #",
    b" tick",
    b"tick ",
    b"ticks",
    b"tick 1",
    b"modules",
    b"modules 1",
    b"modules 9",
    b"modules 0",
    b"modules 2 2",
    b"Modules 2",
    b"full",
    b"short",
    b"full 0 1",
    b"full 99999999999999999999999999999999",
    b"full -1",
    b"give",
    b"give 8",
    b"give 0 0",
    b"death",
    b"death 8",
    b"death 0 1",
    b"request 0 5",
    b"request 8 5 -",
    b"request 0 5 0",
    b"request 0 5 0g",
    b"request 0 5 abc",
    b"request 0 -5 -",
    b"setup 0 5 0 2 2 3 2",
    b"setup 8 5 0 2 2 3 2 6",
    b"setup 0 5 0 2 2 3 2 6 0",
    b"ticks -1",
    b"ticks 99999999999999999999999999999999",
    b"tick\r",
    b"\xff",
];

/// Lines whose answer rests on a reading of the format; as read here, none changes the bench.
const DOUBTFUL: &[&[u8]] = &[
    b"ticks 0",
    b"request 00 999 -",
    b"request 0 999 AB",
    b"setup 0 99 256 2 2 3 2 6",
    b"setup 0 99 0 2 2 3 2 65536",
    b"ticks 1000001",
];

/// The streams of a history that gave out a confirmation, ascending: those of class 2M with something to judge.
pub fn two_message_streams(told: &Told) -> Vec<Stream> {
    let confirmation = |outcome: &Outcome| match outcome {
        Outcome::Gave { id, .. } if id.0 % 4 == Code::Confirmation as u32 => Some(Stream(id.0 / 4)),
        _ => None,
    };
    let streams: BTreeSet<Stream> = told.events.iter().filter_map(|(_, outcome)| confirmation(outcome)).collect();
    streams.into_iter().collect()
}
