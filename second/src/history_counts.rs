//! What occurred in bench histories, counted so that the coverage is seen.

use std::fmt;

use crate::bench::{Delivery, Outcome};
use crate::deeds::Deeds;
use crate::demand::Looked;
use crate::history::{Event, Hearers};
use crate::random_histories::Made;
use crate::reply::{Reply, REPLIES};
use crate::rules::Break;

/// What occurred in histories.
#[derive(Clone, Debug, Default)]
pub struct HistoryCounts {
    pub histories: u64,
    pub lines: u64,
    pub kept: u64,
    /// Histories that broke a rule, 0 for settings; one may break several.
    pub broke: [u64; 5],
    pub broke_how: [u64; Break::ALL.len()],
    pub modules: [u64; 9],
    pub replies: [u64; REPLIES],
    /// Accepted requests of plain, IMD and 2M.
    pub requests: [u64; 3],
    /// Histories of more than 65,536 ticks.
    pub rolled: u64,
    pub deliveries: u64,
    /// What frames that were heard did.
    pub deeds: Deeds,
    /// Messages that ticks dropped, and ticks at which a module dropped several, or dropped and delivered.
    pub drops: u64,
    pub several: u64,
    pub both: u64,
    pub aborts: u64,
    pub omissions: u64,
    pub repeats: u64,
    pub full: u64,
    pub short: u64,
    pub deaths: u64,
    pub ticks: u64,
    pub looked: Looked,
    /// Histories run once more without other traffic.
    pub alone: u64,
}

impl HistoryCounts {
    pub fn count(&mut self, made: &Made) {
        self.histories += 1;
        self.lines += made.lines.len() as u64;
        self.kept += u64::from(made.verdict.keeps());
        for (rule, count) in self.broke.iter_mut().enumerate() {
            *count += u64::from(made.verdict.breaks_rule(rule));
        }
        for (what, count) in Break::ALL.iter().zip(&mut self.broke_how) {
            *count += u64::from(made.verdict.broken.iter().any(|broken| broken.what == *what));
        }
        self.modules[made.told.modules] += 1;
        self.omissions += made.omissions;
        self.repeats += made.repeats;
        self.aborts += made.aborts;
        for (count, set_ups) in self.replies.iter_mut().zip(made.set_ups) {
            *count += set_ups;
        }
        for (event, outcome) in &made.told.events {
            self.count_event(event, outcome);
            if let (Event::Request { stream, .. }, Outcome::Replied(Reply::Done)) = (event, outcome) {
                let set_up = made.told.set_ups.iter().find(|(_, settings)| settings.stream.0 == *stream);
                if let Some((_, settings)) = set_up {
                    self.requests[settings.class as usize] += 1;
                }
            }
        }
        let last = made.told.events.iter().rev().find_map(|(_, outcome)| match outcome {
            Outcome::Ticked { count, .. } => Some(*count),
            _ => None,
        });
        self.rolled += u64::from(last.is_some_and(|count| count > 65_536));
    }

    fn count_event(&mut self, event: &Event, outcome: &Outcome) {
        let mut replied = |reply: Reply| self.replies[reply.place()] += 1;
        match outcome {
            Outcome::Replied(reply) => replied(*reply),
            Outcome::NothingPending => replied(Reply::Nothing),
            Outcome::Gave { .. } => replied(Reply::Done),
            Outcome::Heard(hearings) => {
                hearings.iter().for_each(|hearing| replied(hearing.reply));
                self.deliveries += hearings.iter().filter(|hearing| hearing.delivered.is_some()).count() as u64;
                hearings.iter().filter_map(|hearing| hearing.did).for_each(|did| self.deeds.count(did));
                let full = matches!(event, Event::Send { hearers: Hearers::Full, .. });
                self.full += u64::from(full);
                self.short += u64::from(!full);
            }
            Outcome::Ticked { dropped, delivered, .. } => {
                self.deliveries += delivered.len() as u64;
                for drops in dropped {
                    let also = |delivery: &Delivery| (delivery.tick, delivery.module) == (drops.tick, drops.module);
                    self.drops += drops.number as u64;
                    self.several += u64::from(drops.number > 1);
                    self.both += u64::from(delivered.iter().any(also));
                }
                self.ticks += match event {
                    Event::Ticks(number) => *number,
                    _ => 1,
                };
            }
            Outcome::Dead => self.deaths += u64::from(matches!(event, Event::Death { .. })),
            Outcome::Refused => {}
        }
    }

    /// What should have occurred and did not.
    pub fn missing(&self) -> Vec<String> {
        let looked = &self.looked;
        let counts = [
            ("a history that keeps the rules", self.kept),
            ("an accepted request of plain", self.requests[0]),
            ("an accepted request of IMD", self.requests[1]),
            ("an accepted request of 2M", self.requests[2]),
            ("a rollover", self.rolled),
            ("a delivery", self.deliveries),
            ("a tick that drops several messages of a module", self.several),
            ("a tick at which a module drops and delivers", self.both),
            ("an abort", self.aborts),
            ("an omission", self.omissions),
            ("a repeat", self.repeats),
            ("a death", self.deaths),
            ("a message that all delivered", looked.all),
            ("a message that none delivered", looked.none),
            ("a message with full data and confirmation", looked.full),
            ("two messages in an order", looked.ordered),
            ("a history without other traffic", self.alone),
        ];
        let mut missing: Vec<String> =
            counts.iter().filter(|(_, count)| *count == 0).map(|(what, _)| what.to_string()).collect();
        missing.extend(self.deeds.missing());
        for (rule, count) in self.broke.iter().enumerate() {
            if *count == 0 {
                missing.push(format!("a history that breaks rule {rule}"));
            }
        }
        for modules in 2..=8 {
            if self.modules[modules] == 0 {
                missing.push(format!("a history of {modules} modules"));
            }
        }
        missing
    }
}

impl fmt::Display for HistoryCounts {
    fn fmt(&self, f: &mut fmt::Formatter) -> fmt::Result {
        writeln!(f, "  histories by number of modules, 2 to 8: {:?}", &self.modules[2..])?;
        writeln!(f, "  kept the rules {}, broke some {}", self.kept, self.histories - self.kept)?;
        writeln!(
            f,
            "  broke what is said of settings {}, rule 1 {}, rule 2 {}, rule 3 {}, rule 4 {}",
            self.broke[0], self.broke[1], self.broke[2], self.broke[3], self.broke[4]
        )?;
        write!(f, "  broke how:")?;
        for (what, count) in Break::ALL.iter().zip(&self.broke_how) {
            write!(f, " {what:?} {count}")?;
        }
        writeln!(f)?;
        let [plain, imd, two] = self.requests;
        writeln!(f, "  accepted requests: plain {plain}, IMD {imd}, 2M {two}; past the rollover {}", self.rolled)?;
        writeln!(
            f,
            "  sendings full {} and short {}, of these repeats {}; omissions {}",
            self.full, self.short, self.repeats, self.omissions
        )?;
        writeln!(
            f,
            "  deliveries {}, aborts made pending {}, deaths {}, ticks {}",
            self.deliveries, self.aborts, self.deaths, self.ticks
        )?;
        write!(f, "{}", self.deeds)?;
        writeln!(
            f,
            "  dropped by ticks {}; a module dropped several {} times, and dropped and delivered {} times",
            self.drops, self.several, self.both
        )?;
        write!(f, "  replies:")?;
        for reply in Reply::ALL {
            let count = self.replies[reply.place()];
            if count > 0 {
                write!(f, "  {} {reply:?} {count}", reply.number())?;
            }
        }
        writeln!(f)?;
        let looked = &self.looked;
        writeln!(
            f,
            "  demand 3: delivered by all {}, by none {}, no live receiver {}, of all these full {}",
            looked.all, looked.none, looked.nobody, looked.full
        )?;
        writeln!(
            f,
            "  demand 3: pairs whose order was compared {}, histories run without other traffic {}",
            looked.ordered, self.alone
        )
    }
}
