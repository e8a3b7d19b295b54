//! The commands of `second`.

use std::io::{self, Read, Write};
use std::path::PathBuf;
use std::process::ExitCode;

use second::calls::Calls;
use second::explain::{explain, Format};
use second::fault::Fault;
use second::harness::Harness;
use second::lines::answer_lines;
use second::pairs::named;
use second::program::Program;
use second::{compare_calls, compare_harness, exhaust, judge, mutants};

const USAGE: &str = "\
usage:
  second calls [--fault NAME]        answers lines of `calls` from standard input
  second harness [--fault NAME]      answers lines of `harness` from standard input
  second compare calls --program PATH [--arg WORD]... [--seed S] [--calls N] [--edges]
  second compare harness --program PATH [--arg WORD]... [--seed S] [--histories N] [--edges]
  second mutants [--seed S] [--calls N] [--histories N]
  second exhaust [--seconds N]
  second explain calls|harness --program PATH [--name NAME]
                                     hands lines from standard input to a program and its answers on, and says on standard
                                     error why lines can't be read; NAME is what the input is called
  second judge [--program PATH] [--name NAME]
                                     says which bench rules a history of `harness` from standard input keeps and breaks,
                                     and what became of each message, by the program's answers
  second faults                      lists the faults that can be switched on";

/// The options after the command; each command takes those it knows.
#[derive(Default)]
struct Words {
    fault: Option<String>,
    program: Option<String>,
    name: Option<String>,
    arguments: Vec<String>,
    seed: Option<u64>,
    calls: Option<u64>,
    histories: Option<u64>,
    seconds: Option<u64>,
    edges: bool,
}

impl Words {
    fn read(words: &[String], known: &[&str]) -> Result<Words, String> {
        let mut read = Words::default();
        let mut words = words.iter();
        while let Some(word) = words.next() {
            if !known.contains(&word.as_str()) {
                return Err(format!("unknown word {word}"));
            }
            if word == "--edges" {
                read.edges = true;
                continue;
            }
            let value = words.next().ok_or(format!("{word} needs a value"))?.clone();
            let number = || value.parse::<u64>().map_err(|_| format!("{word} needs a number"));
            match word.as_str() {
                "--fault" => read.fault = Some(value),
                "--program" => read.program = Some(value),
                "--name" => read.name = Some(value),
                "--arg" => read.arguments.push(value),
                "--seed" => read.seed = Some(number()?),
                "--calls" => read.calls = Some(number()?),
                "--histories" => read.histories = Some(number()?),
                _ => read.seconds = Some(number()?),
            }
        }
        Ok(read)
    }

    fn fault(&self) -> Result<Fault, String> {
        let Some(name) = &self.fault else {
            return Ok(Fault::None);
        };
        Fault::from_name(name).ok_or(format!("no fault is called {name}; see `second faults`"))
    }

    /// What the input is called.
    fn name(&self) -> &str {
        self.name.as_deref().unwrap_or("standard input")
    }

    fn program(&self) -> Result<Program, String> {
        let path = self.program.as_ref().ok_or("--program is missing")?;
        Ok(Program { path: PathBuf::from(path), arguments: self.arguments.clone() })
    }
}

const SEED: u64 = 14;

fn run(words: &[String]) -> Result<bool, String> {
    let heads: Vec<&str> = words.iter().take(2).map(String::as_str).collect();
    let from = |first: usize| words.get(first..).unwrap_or_default();
    let spoken = |result: io::Result<()>| result.map(|()| true).map_err(|error| error.to_string());
    match heads.as_slice() {
        ["calls", ..] => {
            let words = Words::read(from(1), &["--fault"])?;
            let mut calls = Calls::new(words.fault()?);
            spoken(answer_lines(io::stdin().lock(), io::stdout().lock(), |line| Some(calls.answer_cut(line))))
        }
        ["harness", ..] => {
            let words = Words::read(from(1), &["--fault"])?;
            let mut harness = Harness::new(words.fault()?);
            spoken(answer_lines(io::stdin().lock(), io::stdout().lock(), |line| harness.answer_cut(line)))
        }
        ["compare", "calls"] => {
            let words = Words::read(from(2), &["--program", "--arg", "--seed", "--calls", "--edges"])?;
            compare_calls::compare(&compare_calls::Options {
                program: words.program()?,
                seed: words.seed.unwrap_or(SEED),
                calls: words.calls.unwrap_or(1_000_000),
                edges: words.edges,
            })
        }
        ["compare", "harness"] => {
            let words = Words::read(from(2), &["--program", "--arg", "--seed", "--histories", "--edges"])?;
            compare_harness::compare(&compare_harness::Options {
                program: words.program()?,
                seed: words.seed.unwrap_or(SEED),
                histories: words.histories.unwrap_or(20_000),
                edges: words.edges,
            })
        }
        ["mutants", ..] => {
            let words = Words::read(from(1), &["--seed", "--calls", "--histories"])?;
            Ok(mutants::run(&mutants::Options {
                seed: words.seed.unwrap_or(SEED),
                calls: words.calls.unwrap_or(200_000),
                histories: words.histories.unwrap_or(1_000),
            }))
        }
        ["exhaust", ..] => {
            let words = Words::read(from(1), &["--seconds"])?;
            Ok(exhaust::run(words.seconds.unwrap_or(60)))
        }
        ["explain", format] => {
            let format = match *format {
                "calls" => Format::Calls,
                "harness" => Format::Harness,
                other => return Err(format!("{other} is no format: calls and harness are")),
            };
            let words = Words::read(from(2), &["--program", "--name"])?;
            explain(format, &words.program()?, words.name(), io::stdin(), io::stdout().lock())
        }
        ["judge", ..] => {
            let words = Words::read(from(1), &["--program", "--arg", "--name"])?;
            let mut text = Vec::new();
            io::stdin().lock().read_to_end(&mut text).map_err(|error| error.to_string())?;
            let program = words.program.as_ref().map(|_| words.program()).transpose()?;
            let said = judge::judge(&text, program.as_ref()).map_err(|troubles| {
                let says = named(words.name(), &troubles);
                says.iter().map(|line| format!("judge: {line}")).collect::<Vec<String>>().join("\n")
            })?;
            // Whoever reads only the beginning has what it wanted.
            let _ = io::stdout().write_all(said.text.as_bytes());
            Ok(said.is_good)
        }
        ["faults"] => {
            for fault in Fault::all() {
                println!("{:<26} {}", fault.name(), fault.says());
            }
            Ok(true)
        }
        _ => Err(USAGE.to_string()),
    }
}

fn main() -> ExitCode {
    let words: Vec<String> = std::env::args().skip(1).collect();
    match run(&words) {
        Ok(true) => ExitCode::SUCCESS,
        Ok(false) => ExitCode::FAILURE,
        Err(says) => {
            eprintln!("{says}");
            ExitCode::from(2)
        }
    }
}
