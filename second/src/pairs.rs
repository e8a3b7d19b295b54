//! A history and a harness's answers to it, paired line by line. What can't be read is named by line, with the reason.

use std::fmt;

use crate::bench::Outcome;
use crate::demand::Told;
use crate::fields::{about, shown};
use crate::harness::{read_answer, read_line, skipped, why_unread, Stand};
use crate::history::{Event, Line};
use crate::reply::Reply;
use crate::settings::Asked;
use crate::words::number;

/// A line and what it was answered.
#[derive(Clone, Debug, PartialEq, Eq)]
pub enum What {
    Modules(usize),
    SetUp { module: usize, asked: Asked, reply: Reply },
    Event(Event, Outcome),
}

#[derive(Clone, Debug, PartialEq, Eq)]
pub struct Pair {
    /// The number of the line in the file, from 1.
    pub line: usize,
    pub what: What,
}

impl Pair {
    /// The line without its answer.
    pub fn asks(&self) -> Line {
        match &self.what {
            What::Modules(modules) => Line::Modules(*modules),
            What::SetUp { module, asked, .. } => Line::SetUp { module: *module, asked: *asked },
            What::Event(event, _) => Line::Event(event.clone()),
        }
    }
}

/// Why a history is not taken. Line 0 stands for the file as a whole.
#[derive(Clone, Debug, PartialEq, Eq)]
pub struct Trouble {
    pub line: usize,
    pub says: String,
}

impl Trouble {
    pub fn new(line: usize, says: impl Into<String>) -> Trouble {
        Trouble { line, says: says.into() }
    }
}

impl fmt::Display for Trouble {
    fn fmt(&self, f: &mut fmt::Formatter) -> fmt::Result {
        match self.line {
            0 => write!(f, "{}", self.says),
            line => write!(f, "line {line}: {}", self.says),
        }
    }
}

/// So many lines with errors are named.
pub const NAMED_MOST: usize = 20;

/// What is said of a history, called by `name`, that is not taken: a line for each trouble.
pub fn named(name: &str, troubles: &[Trouble]) -> Vec<String> {
    let mut says: Vec<String> = troubles.iter().take(NAMED_MOST).map(|trouble| format!("{name}: {trouble}")).collect();
    if troubles.len() > NAMED_MOST {
        says.push(format!("{name}: and {} more", troubles.len() - NAMED_MOST));
    }
    says
}

/// Pairs each line of a history of one bench, but for those that are skipped, with its answer.
pub fn pair(history: &[u8], answers: &[String]) -> Result<Vec<Pair>, Vec<Trouble>> {
    let mut pairs = Vec::new();
    let mut troubles = Vec::new();
    let mut answers = answers.iter();
    let mut stand: Option<Stand> = None;
    for (at, text) in history.split(|byte| *byte == b'\n').enumerate() {
        if skipped(text) {
            continue;
        }
        let line = at + 1;
        let Some(answer) = answers.next() else {
            troubles.push(Trouble::new(line, format!("the harness gave no answer: {}", shown(text))));
            break;
        };
        match answered(text, answer, &mut stand) {
            Ok(what) => pairs.push(Pair { line, what }),
            Err(says) => troubles.push(Trouble::new(line, about(&says, text))),
        }
    }
    let surplus = answers.count();
    if surplus > 0 {
        troubles.push(Trouble::new(0, format!("the harness gave {surplus} more answers than there are lines")));
    }
    if stand.is_none() && troubles.is_empty() {
        troubles.push(Trouble::new(0, "there is no line `modules N`"));
    }
    if troubles.is_empty() {
        Ok(pairs)
    } else {
        Err(troubles)
    }
}

/// A history with its answers, as demand 3 is asked of it.
pub fn told(pairs: &[Pair]) -> Told {
    let mut told = Told::default();
    for pair in pairs {
        match &pair.what {
            What::Modules(modules) => told.modules = *modules,
            What::SetUp { module, asked, reply } => {
                let taken = asked.tested().filter(|_| *reply == Reply::Done);
                told.set_ups.extend(taken.map(|settings| (*module, settings)));
            }
            What::Event(event, outcome) => told.events.push((event.clone(), outcome.clone())),
        }
    }
    told
}

fn answered(text: &[u8], answer: &str, stand: &mut Option<Stand>) -> Result<What, String> {
    if answer == "?" {
        return Err(why_unread(text, *stand).to_string());
    }
    let no_answer = || format!("the harness answered {}, which is no answer", shown(answer.as_bytes()));
    let line = read_line(text, *stand).map_err(|_| no_answer())?;
    match line {
        Line::Modules(_) if stand.is_some() => Err("a history is of one bench, and this begins another".to_string()),
        Line::Modules(modules) => {
            *stand = Some(Stand { modules, frames: 0 });
            (answer == format!("modules {modules}")).then_some(What::Modules(modules)).ok_or_else(no_answer)
        }
        Line::SetUp { module, asked } => {
            let reply = number(answer.as_bytes(), u64::MAX).and_then(Reply::from_number).ok_or_else(no_answer)?;
            Ok(What::SetUp { module, asked, reply })
        }
        Line::Event(event) => {
            let outcome = read_answer(&event, answer).ok_or_else(no_answer)?;
            let modules = stand.map_or(0, |stand| stand.modules);
            if !names_modules(&outcome, modules) {
                return Err("the answer names a module that is not there".to_string());
            }
            if let (Outcome::Gave { frame, .. }, Some(stand)) = (&outcome, stand) {
                if *frame != stand.frames {
                    return Err(no_answer());
                }
                stand.frames += 1;
            }
            Ok(What::Event(event, outcome))
        }
        Line::Other(_) => Err(no_answer()),
    }
}

/// Whether every module that an answer names is one of so many.
pub(crate) fn names_modules(outcome: &Outcome, modules: usize) -> bool {
    match outcome {
        Outcome::Heard(heard) => heard.iter().all(|hearing| hearing.module < modules),
        Outcome::Ticked { dropped, delivered, .. } => {
            let mut named = dropped.iter().map(|drops| drops.module).chain(delivered.iter().map(|each| each.module));
            named.all(|module| module < modules)
        }
        _ => true,
    }
}
