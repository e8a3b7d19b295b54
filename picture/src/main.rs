//! `picture HARNESS FILE OUT.svg`: runs the history in FILE with the program HARNESS and draws what it answers.

use std::path::Path;
use std::process::ExitCode;
use std::time::Duration;
use std::{env, fs};

use picture::picture;
use second::pairs::named;
use second::program::Program;

const USAGE: &str = "usage: picture HARNESS FILE OUT.svg";
/// How long the harness may take.
const LIMIT: Duration = Duration::from_secs(600);

fn run(harness: &str, file: &str, out: &str) -> Result<(), Vec<String>> {
    let one = |says: String| vec![says];
    if file == out {
        return Err(one(format!("{out} is the history itself")));
    }
    let history = fs::read(file).map_err(|error| one(format!("{file} can't be read: {error}")))?;
    let program = Program { path: harness.into(), arguments: Vec::new() };
    let answers = program.answers(history.clone(), LIMIT).map_err(|says| one(format!("the harness {says}")))?;
    if let Some(trouble) = answers.trouble {
        return Err(one(format!("the harness {harness} failed: {trouble}")));
    }
    let name = Path::new(file).file_stem().map_or(file.into(), |stem| stem.to_string_lossy());
    let svg = picture(&name, &history, &answers.lines).map_err(|troubles| named(file, &troubles))?;
    fs::write(out, svg).map_err(|error| one(format!("{out} can't be written: {error}")))
}

fn main() -> ExitCode {
    let words: Vec<String> = env::args().skip(1).collect();
    let [harness, file, out] = words.as_slice() else {
        eprintln!("{USAGE}");
        return ExitCode::from(2);
    };
    match run(harness, file, out) {
        Ok(()) => ExitCode::SUCCESS,
        Err(says) => {
            says.iter().for_each(|line| eprintln!("picture: {line}"));
            ExitCode::FAILURE
        }
    }
}
