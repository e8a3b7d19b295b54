//! The second implementation's recordings: its answers, its replays, their comparison with the programs, and its mutants.

use std::io::{self, Read, Write};
use std::path::PathBuf;
use std::process::ExitCode;

use second::compare_recording::{compare, compare_replay, mutants, Options};
use second::fault::Fault;
use second::lines::answer_lines;
use second::program::Program;
use second::recording::{printed, Recording};
use second::recording_faults::{Wrong, WRONGS};
use second::replay::Making;

const USAGE: &str = "\
usage:
  recording answer [FAULT]                   answers lines of `recording` from standard input
  recording replay [FAULT]                   prints what `replay` prints of a recording from standard input
  recording compare PROGRAM [SEED [N]]       at least N random replays against the program `recording`
  recording compare-replay PROGRAM [SEED [N]]   N random recordings against the program `replay`
  recording mutants [SEED [N]]               every fault against the faultless implementation
  recording faults                           lists the faults";

fn making(words: &[&str]) -> Result<Making, String> {
    let [name] = words else {
        return Ok(Making::FAULTLESS);
    };
    let wrong = Wrong::from_name(name).map(|wrong| Making { wrong, fault: Fault::None });
    let of_the_node = || Fault::from_name(name).map(|fault| Making { wrong: Wrong::Nothing, fault });
    wrong.or_else(of_the_node).ok_or(format!("no fault is called {name}"))
}

fn numbers(words: &[&str], replays: u64) -> Result<(u64, u64), String> {
    let number = |at: usize, other: u64| {
        words.get(at).map_or(Ok(other), |word| word.parse().map_err(|_| format!("{word} is no number")))
    };
    Ok((number(0, 14)?, number(1, replays)?))
}

fn options(program: &str, words: &[&str], replays: u64) -> Result<Options, String> {
    let (seed, replays) = numbers(words, replays)?;
    Ok(Options { program: Program { path: PathBuf::from(program), arguments: Vec::new() }, seed, replays })
}

fn run(words: &[String]) -> Result<bool, String> {
    let words: Vec<&str> = words.iter().map(String::as_str).collect();
    let spoken = |result: io::Result<()>| result.map(|()| true).map_err(|error| error.to_string());
    match words.as_slice() {
        ["answer", rest @ ..] => {
            let mut recording = Recording::new(making(rest)?);
            spoken(answer_lines(io::stdin().lock(), io::stdout().lock(), |line| recording.answer_cut(line)))
        }
        ["replay", rest @ ..] => {
            let making = making(rest)?;
            let mut recording = Vec::new();
            io::stdin().lock().read_to_end(&mut recording).map_err(|error| error.to_string())?;
            spoken(io::stdout().write_all(printed(&recording, making).as_bytes()))
        }
        ["compare", program, rest @ ..] => compare(&options(program, rest, 20_000)?),
        ["compare-replay", program, rest @ ..] => compare_replay(&options(program, rest, 2_000)?),
        ["mutants", rest @ ..] => numbers(rest, 5_000).map(|(seed, replays)| mutants(seed, replays)),
        ["faults"] => {
            for (_, name, says) in WRONGS {
                println!("{name:<24} {says}");
            }
            Ok(true)
        }
        _ => Err(USAGE.to_string()),
    }
}

fn main() -> ExitCode {
    let words: Vec<String> = std::env::args().skip(1).collect();
    match run(&words) {
        Ok(true) => ExitCode::SUCCESS,
        Ok(false) => ExitCode::FAILURE,
        Err(says) => {
            eprintln!("{says}");
            ExitCode::from(2)
        }
    }
}
