//! The second implementation's response-time sheet: its answers, its comparison with a program, and its mutants.

use std::io::{self, Read};
use std::path::PathBuf;
use std::process::ExitCode;
use std::time::Duration;

use second::compare_sheet::{compare, mutants, Options};
use second::lines::answer_lines;
use second::program::Program;
use second::response::{Wrong, WRONGS};
use second::sheet::answer_cut;
use second::sheet_table::table;

const USAGE: &str = "\
usage:
  sheet table PROGRAM NAME           shows the sheet of a list of streams from standard input, which is called NAME
  sheet answer [FAULT]               answers lines of `sheet` from standard input
  sheet compare PROGRAM [SEED [N]]   N random lines against a program
  sheet mutants [SEED [N]]           every fault against the faultless sheet
  sheet faults                       lists the faults";

fn run(words: &[String]) -> Result<bool, String> {
    let words: Vec<&str> = words.iter().map(String::as_str).collect();
    let numbers = |words: &[&str], sheets: u64| -> Result<(u64, u64), String> {
        let number = |at: usize, other: u64| {
            words.get(at).map_or(Ok(other), |word| word.parse().map_err(|_| format!("{word} is no number")))
        };
        Ok((number(0, 14)?, number(1, sheets)?))
    };
    match words.as_slice() {
        ["answer", rest @ ..] => {
            let wrong = match rest {
                [] => Wrong::Nothing,
                [name, ..] => Wrong::from_name(name).ok_or(format!("no fault is called {name}"))?,
            };
            let answered = answer_lines(io::stdin().lock(), io::stdout().lock(), |line| answer_cut(line, wrong));
            answered.map(|()| true).map_err(|error| error.to_string())
        }
        ["table", program, name] => {
            let mut text = String::new();
            io::stdin().lock().read_to_string(&mut text).map_err(|error| format!("{name}: {error}"))?;
            match table(name, &text, |line| asked(program, line)) {
                Ok(table) => print!("{table}"),
                Err(wrong) => {
                    wrong.iter().for_each(|says| eprintln!("{says}"));
                    return Ok(false);
                }
            }
            Ok(true)
        }
        ["compare", program, rest @ ..] => {
            let (seed, sheets) = numbers(rest, 20_000)?;
            let program = Program { path: PathBuf::from(program), arguments: Vec::new() };
            compare(&Options { program, seed, sheets })
        }
        ["mutants", rest @ ..] => numbers(rest, 20_000).map(|(seed, sheets)| mutants(seed, sheets)),
        ["faults"] => {
            for (_, name, says) in WRONGS {
                println!("{name:<24} {says}");
            }
            Ok(true)
        }
        _ => Err(USAGE.to_string()),
    }
}

/// What the program answers to one line.
fn asked(program: &str, line: &str) -> Result<String, String> {
    let program = Program { path: PathBuf::from(program), arguments: Vec::new() };
    let answers = program.answers(format!("{line}\n").into_bytes(), Duration::from_secs(60))?;
    match (answers.lines.as_slice(), answers.trouble) {
        ([answer], None) => Ok(answer.clone()),
        (_, trouble) => Err(format!(
            "the program sheet gave no answer{}",
            trouble.map_or(String::new(), |says| format!(": {says}"))
        )),
    }
}

fn main() -> ExitCode {
    let words: Vec<String> = std::env::args().skip(1).collect();
    match run(&words) {
        Ok(true) => ExitCode::SUCCESS,
        Ok(false) => ExitCode::FAILURE,
        Err(says) => {
            eprintln!("{says}");
            ExitCode::from(2)
        }
    }
}
