//! Random calls against a program that speaks the text format of `calls`.

use std::time::{Duration, Instant};

use crate::calls::Calls;
use crate::difference::{first_difference, report, text};
use crate::fault::Fault;
use crate::program::Program;
use crate::random::Random;
use crate::random_calls::{script, Making};

/// How many lines are put to the program at once.
const BATCH: usize = 60_000;
const PROGRAM_LIMIT: Duration = Duration::from_secs(240);

type Script = Vec<Vec<u8>>;

pub struct Options {
    pub program: Program,
    pub seed: u64,
    pub calls: u64,
    pub edges: bool,
}

/// Whether a line that was answered is a call.
pub fn is_call(line: &[u8], answer: &str) -> bool {
    answer != "?" && line != b"node" && line != b"tally"
}

struct Batch {
    scripts: Vec<Script>,
}

impl Batch {
    fn make(options: &Options, number: &mut u64) -> Batch {
        let mut scripts = Vec::new();
        let mut lines = 0;
        while lines < BATCH {
            let made = script(&mut Random::of(options.seed, *number), Making { edges: options.edges });
            *number += 1;
            lines += made.len();
            scripts.push(made);
        }
        Batch { scripts }
    }

    fn text(&self) -> Vec<u8> {
        self.scripts.iter().flat_map(|script| text(script)).collect()
    }
}

/// Compares, prints what occurred, and says whether there was no difference.
pub fn compare(options: &Options) -> Result<bool, String> {
    let start = Instant::now();
    println!("compare calls: seed {}, at least {} calls", options.seed, options.calls);
    let mut second = Calls::new(Fault::None);
    let (mut number, mut calls, mut lines) = (0, 0, 0);
    let mut batch = Batch::make(options, &mut number);
    loop {
        let running = options.program.start(batch.text())?;
        second.begin();
        // While the program works, the answers due, and the next batch.
        let due: Vec<Vec<String>> =
            batch.scripts.iter().map(|script| script.iter().map(|line| second.answer(line)).collect()).collect();
        let next = Batch::make(options, &mut number);
        let answers = running.finish(PROGRAM_LIMIT);
        if let Some(at) = first_difference(due.iter(), &answers.lines) {
            let due = |script: &[Vec<u8>]| {
                let mut second = Calls::new(Fault::None);
                script.iter().map(|line| Some(second.answer(line))).collect()
            };
            report("compare calls", &options.program, &batch.scripts[..=at], due, |line| simpler(line));
            return Ok(false);
        }
        if let Some(trouble) = answers.trouble {
            println!("compare calls: every answer was right, but {trouble}");
            return Ok(false);
        }
        for (script, due) in batch.scripts.iter().zip(&due) {
            lines += script.len();
            calls += script.iter().zip(due).filter(|(line, answer)| is_call(line, answer)).count() as u64;
        }
        if calls >= options.calls {
            break;
        }
        batch = next;
    }
    println!("compare calls: {calls} calls in {lines} lines, no difference, {:.1} s", start.elapsed().as_secs_f64());
    print!("{}", second.seen);
    let missing = second.seen.missing();
    for what in &missing {
        println!("compare calls: not covered: {what}");
    }
    Ok(missing.is_empty())
}

/// Fewer ticks in a line.
fn simpler(line: &[u8]) -> Vec<Vec<u8>> {
    let text = String::from_utf8_lossy(line);
    match text.strip_prefix("ticks ").and_then(|number| number.parse::<u64>().ok()) {
        Some(number) if number > 0 => {
            [number / 2, number - 1].iter().map(|number| format!("ticks {number}").into_bytes()).collect()
        }
        _ => Vec::new(),
    }
}
