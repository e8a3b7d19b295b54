//! What there is to see in a history: its modules, streams, frames and windows, and what was answered, moment by moment.

use std::collections::{BTreeMap, BTreeSet};

use second::bench::{Delivery, Drops, Hearing, Outcome};
use second::history::{Event, Hearers};
use second::ident::Code;
use second::judge::Judgement;
use second::pairs::What as Answered;
use second::reply::Reply;
use second::settings::Asked;

use crate::captions::Caption;
use crate::held::{Dropped, Holdings};
use crate::reading::{Told, What};
use crate::tag::Tag;
use crate::windows::{self, Window};

/// Set ups of one stream with the same numbers.
#[derive(Clone, Debug, PartialEq, Eq)]
pub struct StreamRow {
    pub asked: Asked,
    pub senders: Vec<usize>,
    pub receivers: Vec<usize>,
}

/// A set up that was refused.
#[derive(Clone, Debug, PartialEq, Eq)]
pub struct Refused {
    pub line: usize,
    pub module: usize,
    pub stream: u32,
    pub reply: Reply,
}

/// A frame that was given out.
#[derive(Clone, Debug, PartialEq, Eq)]
pub struct Frame {
    pub owner: usize,
    pub code: Code,
    pub tag: Tag,
}

/// What one line did, or one tick of it.
#[derive(Clone, Debug, PartialEq, Eq)]
pub enum Seen {
    /// What modules dropped at one tick.
    Drops(Vec<Dropped>),
    /// Deliveries of one tick, at most one of each module.
    Deliveries(Vec<Delivery>),
    /// A request; `refused` says why it was not taken.
    Request {
        module: usize,
        tag: Tag,
        refused: Option<String>,
    },
    Give {
        frame: usize,
    },
    /// A giving out that gave nothing, and why.
    GiveNothing {
        module: usize,
        says: &'static str,
    },
    Sending {
        frame: usize,
        full: bool,
        heard: Vec<Hearing>,
        /// What the frame made its hearers drop.
        dropped: Vec<Dropped>,
        missed: Vec<usize>,
    },
    /// A sending of a dead module's frame, which is none.
    NoSending {
        frame: usize,
    },
    /// A module's first death.
    Death {
        module: usize,
    },
    /// Nothing but a note, after which time goes on or the history ends.
    Remark,
}

#[derive(Clone, Debug, PartialEq, Eq)]
pub struct Moment {
    /// The line of the file that it belongs to.
    pub line: usize,
    pub tick: u64,
    pub seen: Seen,
    /// The number of the note that is said of it.
    pub note: Option<usize>,
}

#[derive(Clone, Debug, Default)]
pub struct Scene {
    pub title: Option<String>,
    /// The modules' names, empty where the history gives none.
    pub names: Vec<String>,
    /// The tick at which each module died.
    pub deaths: Vec<Option<u64>>,
    pub set_ups: Vec<(usize, Asked)>,
    pub refused: Vec<Refused>,
    pub frames: Vec<Frame>,
    pub moments: Vec<Moment>,
    pub windows: Vec<Window>,
    pub notes: Vec<String>,
    /// What the history breaks of the bench rules.
    pub broken: Vec<String>,
    /// The tick count at the end.
    pub end: u64,
}

impl Scene {
    pub fn of(told: &[Told], judgement: &Judgement) -> Scene {
        let broken = judgement.findings.iter().map(ToString::to_string).collect();
        let mut scene = Scene { broken, ..Scene::default() };
        let mut holdings = Holdings::default();
        let mut names: BTreeMap<usize, &str> = BTreeMap::new();
        let mut waiting: Vec<&str> = Vec::new();
        for Told { line, what } in told {
            match what {
                What::Caption(Caption::Title(title)) => scene.title = Some(title.clone()),
                What::Caption(Caption::Name { module, name }) => {
                    names.insert(*module, name);
                }
                What::Caption(Caption::Note(text)) => waiting.push(text),
                What::Answered(Answered::Modules(modules)) => {
                    scene.names = vec![String::new(); *modules];
                    scene.deaths = vec![None; *modules];
                }
                What::Answered(Answered::SetUp { module, asked, reply: Reply::Done }) => {
                    scene.set_ups.push((*module, *asked));
                }
                What::Answered(Answered::SetUp { module, asked, reply }) => {
                    scene.refused.push(Refused { line: *line, module: *module, stream: asked.stream, reply: *reply });
                }
                What::Answered(Answered::Event(event, outcome)) => {
                    if matches!(event, Event::Tick | Event::Ticks(_)) {
                        scene.remark(*line, &mut waiting);
                    }
                    for (tick, seen) in scene.seen(event, outcome, &mut holdings) {
                        let note = scene.noted(&mut waiting);
                        scene.moments.push(Moment { line: *line, tick, seen, note });
                    }
                }
            }
        }
        scene.remark(told.last().map_or(0, |told| told.line), &mut waiting);
        for (module, name) in names {
            if let Some(place) = scene.names.get_mut(module) {
                *place = name.to_string();
            }
        }
        scene.windows = windows::windows(judgement);
        scene
    }

    /// Puts the notes that wait where they were written, before time goes on.
    fn remark(&mut self, line: usize, waiting: &mut Vec<&str>) {
        if let Some(note) = self.noted(waiting) {
            self.moments.push(Moment { line, tick: self.end, seen: Seen::Remark, note: Some(note) });
        }
    }

    /// Takes the notes that wait for a moment as one.
    fn noted(&mut self, waiting: &mut Vec<&str>) -> Option<usize> {
        if waiting.is_empty() {
            return None;
        }
        self.notes.push(waiting.join(" "));
        waiting.clear();
        Some(self.notes.len())
    }

    /// What an event's answer shows, with the ticks.
    fn seen(&mut self, event: &Event, outcome: &Outcome, holdings: &mut Holdings) -> Vec<(u64, Seen)> {
        let seen = match (event, outcome) {
            (_, Outcome::Ticked { count, dropped, delivered }) => {
                self.end = *count;
                return self.by_tick(dropped, delivered, holdings);
            }
            (Event::Request { module, stream, payload }, outcome) => Seen::Request {
                module: *module,
                tag: Tag::message(*stream, payload),
                refused: match outcome {
                    Outcome::Replied(Reply::Done) => None,
                    Outcome::Replied(reply) => Some(format!("{} {reply:?}", reply.number())),
                    _ => Some("dead".to_string()),
                },
            },
            (Event::Give { module }, Outcome::Gave { frame, id, payload }) => {
                let code = Code::ALL[(id.0 % 4) as usize];
                let carries = matches!(code, Code::Data | Code::Plain) || !payload.is_empty();
                let tag = Tag { stream: id.0 / 4, payload: carries.then(|| payload.clone()) };
                self.frames.push(Frame { owner: *module, code, tag });
                Seen::Give { frame: *frame }
            }
            (Event::Give { module }, Outcome::Dead) => Seen::GiveNothing { module: *module, says: "dead" },
            (Event::Give { module }, _) => Seen::GiveNothing { module: *module, says: "nothing" },
            (Event::Send { frame, hearers }, Outcome::Heard(heard)) => {
                let Frame { owner, tag, .. } = &self.frames[*frame];
                let owner = *owner;
                let dropped = heard.iter().filter_map(|hearing| holdings.hear(tag, hearing)).collect();
                let hears = |module: usize| heard.iter().any(|hearing| hearing.module == module);
                let missed = (0..self.names.len())
                    .filter(|module| *module != owner && self.deaths[*module].is_none() && !hears(*module))
                    .collect();
                let full = *hearers == Hearers::Full;
                Seen::Sending { frame: *frame, full, heard: heard.clone(), dropped, missed }
            }
            (Event::Send { frame, .. }, _) => Seen::NoSending { frame: *frame },
            (Event::Death { module }, _) if self.deaths[*module].is_some() => return Vec::new(),
            (Event::Death { module }, _) => {
                self.deaths[*module] = Some(self.end);
                Seen::Death { module: *module }
            }
            _ => return Vec::new(),
        };
        vec![(self.end, seen)]
    }

    /// Whether a module has a slot for a stream.
    pub fn has(&self, module: usize, stream: u32) -> bool {
        self.set_ups.iter().any(|(at, asked)| *at == module && asked.stream == stream)
    }

    /// A module as the picture calls it.
    pub fn name(&self, module: usize) -> String {
        match self.names[module].as_str() {
            "" => format!("module {module}"),
            name => format!("{module} {name}"),
        }
    }

    /// The streams with their numbers, ascending.
    pub fn streams(&self) -> Vec<StreamRow> {
        let mut rows: Vec<StreamRow> = Vec::new();
        for (module, asked) in &self.set_ups {
            let same = Asked { role: 0, ..*asked };
            let row = match rows.iter_mut().find(|row| row.asked == same) {
                Some(row) => row,
                None => {
                    rows.push(StreamRow { asked: same, senders: Vec::new(), receivers: Vec::new() });
                    let last = rows.len() - 1;
                    &mut rows[last]
                }
            };
            let list = if asked.role == 1 { &mut row.senders } else { &mut row.receivers };
            list.push(*module);
        }
        rows.sort_by_key(|row| row.asked);
        rows
    }

    /// Whether a module's stream is of a class that confirms: 2M.
    fn confirms(&self, module: usize, stream: u32) -> bool {
        self.set_ups.iter().any(|(at, asked)| *at == module && asked.stream == stream && asked.class == 2)
    }

    /// Drops and deliveries of one or many ticks in turn; a module's second delivery of a tick comes after everyone's first.
    fn by_tick(&self, dropped: &[Drops], delivered: &[Delivery], holdings: &mut Holdings) -> Vec<(u64, Seen)> {
        let mut drops: BTreeMap<u64, Vec<&Drops>> = BTreeMap::new();
        dropped.iter().for_each(|each| drops.entry(each.tick).or_default().push(each));
        let mut deliveries: BTreeMap<u64, Vec<Vec<Delivery>>> = BTreeMap::new();
        for delivery in delivered {
            let turns = deliveries.entry(delivery.tick).or_default();
            let has = |turn: &Vec<Delivery>| turn.iter().any(|other| other.module == delivery.module);
            match turns.iter_mut().find(|turn| !has(turn)) {
                Some(turn) => turn.push(delivery.clone()),
                None => turns.push(vec![delivery.clone()]),
            }
        }
        let ticks: BTreeSet<u64> = drops.keys().chain(deliveries.keys()).copied().collect();
        let mut seen = Vec::new();
        for tick in ticks {
            let drop = |each: &&Drops| holdings.drop(each, |stream| self.confirms(each.module, stream));
            if let Some(drops) = drops.get(&tick) {
                seen.push((tick, Seen::Drops(drops.iter().map(drop).collect())));
            }
            for turn in deliveries.remove(&tick).unwrap_or_default() {
                turn.iter().for_each(|delivery| holdings.deliver(delivery));
                seen.push((tick, Seen::Deliveries(turn)));
            }
        }
        seen
    }
}
