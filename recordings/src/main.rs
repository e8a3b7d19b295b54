//! `recordings record LOG [TICK_US]` and `recordings candump RECORDING [TICK_US]`, on standard output.

use std::fs::File;
use std::io::{self, BufRead, BufReader, BufWriter, ErrorKind, Read};
use std::process::ExitCode;

use recordings::record::record;
use recordings::show::show;
use recordings::{Stop, TICK_US};

const USAGE: &str = "\
usage: recordings record LOG [TICK_US]
       recordings candump RECORDING [TICK_US]";

/// Why a command fails: the words, or the file, are not such, with exit status 2; or what a file holds is not, with 1.
enum Failure {
    Words(String),
    Contents(Vec<String>),
}

/// What is said of the file of this name, or of standard output. Whoever reads only the beginning has what it wanted.
fn stopped(name: &str) -> impl Fn(Stop) -> Failure + '_ {
    move |stop| match stop {
        Stop::Unread(error) => Failure::Words(format!("{name} can't be read: {error}")),
        Stop::Unwritten(error) if error.kind() == ErrorKind::BrokenPipe => Failure::Contents(Vec::new()),
        Stop::Unwritten(error) => Failure::Words(format!("standard output can't be written: {error}")),
    }
}

fn tick_us(word: Option<&String>) -> Result<u32, Failure> {
    let Some(word) = word else {
        return Ok(TICK_US);
    };
    let digits = word.bytes().all(|byte| byte.is_ascii_digit());
    word.parse().ok().filter(|tick: &u32| digits && *tick > 0).ok_or_else(|| {
        Failure::Words(format!("TICK_US is {word}, and must be a number of microseconds from 1 to {}", u32::MAX))
    })
}

/// Writes the recording of a log only where every line of it can be read: a file is gone through twice.
fn record_file(name: &str, tick_us: u32) -> Result<(), Failure> {
    let unread = |error| stopped(name)(Stop::Unread(error));
    let mut file = File::open(name).map_err(unread)?;
    let about = file.metadata().map_err(unread)?;
    if about.is_file() {
        // A log that is still being written is taken as it is now.
        return record_twice(name, tick_us, || Ok(BufReader::new(File::open(name).map_err(unread)?.take(about.len()))));
    }
    let mut log = Vec::new();
    file.read_to_end(&mut log).map_err(unread)?;
    record_twice(name, tick_us, || Ok(&log[..]))
}

fn record_twice<R: BufRead>(name: &str, tick_us: u32, open: impl Fn() -> Result<R, Failure>) -> Result<(), Failure> {
    let recorded = record(open()?, tick_us, io::sink()).map_err(stopped(name))?;
    if !recorded.troubles.is_empty() {
        return Err(Failure::Contents(recorded.troubles.lines(name)));
    }
    let notes = recorded.lost.lines(name).into_iter().chain(recorded.left_out().map(|says| format!("{name}: {says}")));
    notes.for_each(|line| eprintln!("record: {line}"));
    if recorded.records == 0 {
        return Err(Failure::Contents(vec![format!("{name}: there is no frame to record")]));
    }
    record(open()?, tick_us, BufWriter::new(io::stdout().lock())).map_err(stopped(name))?;
    Ok(())
}

fn show_file(name: &str, tick_us: u32) -> Result<(), Failure> {
    let file = File::open(name).map_err(|error| stopped(name)(Stop::Unread(error)))?;
    let troubles = show(file, tick_us, BufWriter::new(io::stdout().lock())).map_err(stopped(name))?;
    if troubles.is_empty() {
        return Ok(());
    }
    Err(Failure::Contents(troubles.lines(name)))
}

fn run(words: &[String]) -> Result<(), Failure> {
    match words {
        [command, name, rest @ ..] if rest.len() <= 1 => match command.as_str() {
            "record" => record_file(name, tick_us(rest.first())?),
            "candump" => show_file(name, tick_us(rest.first())?),
            _ => Err(Failure::Words(USAGE.to_string())),
        },
        _ => Err(Failure::Words(USAGE.to_string())),
    }
}

fn main() -> ExitCode {
    let words: Vec<String> = std::env::args().skip(1).collect();
    let command = words.first().map_or("recordings", String::as_str);
    match run(&words) {
        Ok(()) => ExitCode::SUCCESS,
        Err(Failure::Words(says)) => {
            eprintln!("{command}: {says}");
            ExitCode::from(2)
        }
        Err(Failure::Contents(says)) => {
            says.iter().for_each(|line| eprintln!("{command}: {line}"));
            ExitCode::FAILURE
        }
    }
}
