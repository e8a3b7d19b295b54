//! Scripts of the bench with their answers: run, read back, and made whole after lines were left out.

use crate::bench::{Bench, Outcome};
use crate::demand::Told;
use crate::fault::Fault;
use crate::harness::{read_answer, skipped, write_line, Harness};
use crate::history::{Event, Line};
use crate::pairs::names_modules;
use crate::reply::Reply;
use crate::rules::{Judge, Verdict};
use crate::settings::Settings;

/// The answers of this implementation to a script that begins with `modules`.
pub fn answers(lines: &[Line], fault: Fault) -> Vec<String> {
    let mut harness = Harness::new(fault);
    lines.iter().filter_map(|line| harness.answer(&write_line(line))).collect()
}

/// Whether a line has an answer.
pub fn is_answered(line: &Line) -> bool {
    !matches!(line, Line::Other(bytes) if skipped(bytes))
}

/// A script and its answers as a history; none if an answer can't be one. `fault` says which set ups are taken.
pub fn told(lines: &[Line], answers: &[String], fault: Fault) -> Option<Told> {
    let mut told = Told::default();
    let answered = lines.iter().filter(|line| is_answered(line));
    if answered.clone().count() != answers.len() {
        return None;
    }
    for (line, answer) in answered.zip(answers) {
        match line {
            Line::Modules(modules) => told.modules = *modules,
            Line::SetUp { module, asked } if answer == "0" => {
                told.set_ups.push((*module, asked.tested_by(fault)?));
            }
            Line::Event(event) => told.events.push((event.clone(), read_answer(event, answer)?)),
            _ => {}
        }
    }
    told.events.iter().all(|(_, outcome)| names_modules(outcome, told.modules)).then_some(told)
}

/// Judges a script that begins with `modules`, as this implementation runs it.
pub fn judged(lines: &[Line], fault: Fault) -> Verdict {
    judged_by_line(lines, fault).judge.verdict()
}

/// The judge after a script, and places of its lines.
pub struct Judged {
    pub judge: Judge,
    /// Where what is broken so far was found.
    pub broken_at: Vec<usize>,
    /// Where each message was requested.
    pub asked_at: Vec<usize>,
    /// The set ups that were taken.
    pub set_up_at: Vec<(usize, Settings)>,
}

/// Judges a script that begins with `modules`, with the places of its lines.
pub fn judged_by_line(lines: &[Line], fault: Fault) -> Judged {
    let modules = match lines.first() {
        Some(Line::Modules(modules)) => *modules,
        _ => 0,
    };
    let mut bench = Bench::with(modules, fault);
    let mut judge = Judge::new(modules);
    let (mut broken_at, mut asked_at, mut set_up_at) = (Vec::new(), Vec::new(), Vec::new());
    for (at, line) in lines.iter().enumerate() {
        match line {
            Line::SetUp { module, asked } => {
                let taken = bench.set_up(*module, *asked) == Reply::Done;
                if let (true, Some(settings)) = (taken, asked.tested_by(fault)) {
                    judge.set_up(settings);
                    set_up_at.push((at, settings));
                }
            }
            Line::Event(event) => {
                let step = bench.run(event);
                judge.note(event, &step);
            }
            Line::Modules(_) | Line::Other(_) => {}
        }
        broken_at.resize(judge.broken().len(), at);
        asked_at.resize(judge.messages().len(), at);
    }
    Judged { judge, broken_at, asked_at, set_up_at }
}

/// The kept lines of a script, with frames numbered as they are given out now. Sendings of frames that are no longer
/// given out are left out too.
pub fn leave_out(lines: &[Line], kept: &[bool], fault: Fault) -> Vec<Line> {
    let Some(Line::Modules(modules)) = lines.first() else {
        return crate::shrink::leave_out(lines, kept);
    };
    let (mut before, mut now) = (Bench::with(*modules, fault), Bench::with(*modules, fault));
    let mut new_numbers: Vec<Option<usize>> = Vec::new();
    let mut left = Vec::new();
    for (line, kept) in lines.iter().zip(kept) {
        let renumbered = match line {
            Line::Event(Event::Send { frame, hearers }) => match new_numbers.get(*frame) {
                Some(None) => None,
                Some(Some(frame)) => Some(Line::Event(Event::Send { frame: *frame, hearers: hearers.clone() })),
                None => Some(line.clone()),
            },
            _ => Some(line.clone()),
        };
        let stays = renumbered.filter(|_| *kept);
        let given_now = stays.as_ref().and_then(|line| run(&mut now, line));
        if run(&mut before, line).is_some() {
            new_numbers.push(given_now);
        }
        left.extend(stays);
    }
    left
}

/// Runs a line and gives the number of the frame that was given out, if one was.
fn run(bench: &mut Bench, line: &Line) -> Option<usize> {
    match line {
        Line::SetUp { module, asked } => {
            bench.set_up(*module, *asked);
            None
        }
        Line::Event(event) => match bench.run(event).outcome {
            Outcome::Gave { frame, .. } => Some(frame),
            _ => None,
        },
        Line::Modules(_) | Line::Other(_) => None,
    }
}
