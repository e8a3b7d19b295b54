//! A program's answers handed on as they come, and a word on each line that it could not read.

use std::io::{self, BufRead, BufReader, BufWriter, Read, Write};
use std::process::{ChildStdin, Command, Stdio};
use std::sync::mpsc::{channel, Receiver, Sender};
use std::thread;

use crate::calls;
use crate::fields::{about, shown, LINE_MOST};
use crate::harness::{self, skipped, Stand};
use crate::pairs::NAMED_MOST;
use crate::program::Program;
use crate::words::words;

/// Which of the text formats the lines have.
#[derive(Clone, Copy, Debug, PartialEq, Eq)]
pub enum Format {
    Calls,
    Harness,
}

impl Format {
    pub fn word(self) -> &'static str {
        match self {
            Format::Calls => "calls",
            Format::Harness => "harness",
        }
    }

    fn is_answered(self, line: &[u8]) -> bool {
        self == Format::Calls || !skipped(line)
    }
}

/// A line that is to be answered, and its number in the input. Of a longer one than can be read, its beginning.
struct Asked {
    number: usize,
    text: Vec<u8>,
}

/// Why lines can't be read, after those that were answered.
struct Explainer {
    format: Format,
    stand: Option<Stand>,
}

impl Explainer {
    /// Why a line was answered so; none if it was read.
    fn why(&mut self, line: &[u8], answer: &[u8]) -> Option<String> {
        if answer != b"?" {
            self.read(line, answer);
            return None;
        }
        let unread = match self.format {
            Format::Calls => calls::why_unread(line),
            Format::Harness => Some(harness::why_unread(line, self.stand)),
        };
        Some(unread.map_or("it can't be read".to_string(), |unread| unread.to_string()))
    }

    fn read(&mut self, line: &[u8], answer: &[u8]) {
        let count = |word: &[u8]| crate::words::number(word, u64::MAX).and_then(|value| usize::try_from(value).ok());
        match (words(line).as_slice(), words(answer).as_slice(), &mut self.stand) {
            ([b"modules", _], [b"modules", modules], stand) => {
                *stand = count(modules).map(|modules| Stand { modules, frames: 0 });
            }
            ([b"give", _], [b"0", frame, ..], Some(stand)) => stand.frames = count(frame).unwrap_or(0) + 1,
            _ => {}
        }
    }
}

/// Runs a program on an input, called by `name`; says whether there were lines and each of them was read.
pub fn explain(
    format: Format,
    program: &Program,
    name: &str,
    input: impl Read + Send + 'static,
    output: impl Write,
) -> Result<bool, String> {
    let failed = |error: io::Error| format!("{} can't be run: {error}", program.path.display());
    let mut command = Command::new(&program.path);
    let command = command.args(&program.arguments).stdin(Stdio::piped()).stdout(Stdio::piped());
    let mut child = command.spawn().map_err(failed)?;
    let (sender, lines) = channel();
    if let Some(stdin) = child.stdin.take() {
        thread::spawn(move || feed(format, input, stdin, &sender));
    }
    let told = match child.stdout.take() {
        Some(stdout) => tell(format, name, BufReader::new(stdout), &lines, BufWriter::new(output)),
        None => Ok(false),
    };
    if matches!(&told, Err(error) if error.kind() == io::ErrorKind::BrokenPipe) {
        // Nobody wants the rest of the answers.
        let _ = child.kill();
        return Ok(false);
    }
    let told = told.map_err(|error| error.to_string())?;
    let status = child.wait().map_err(failed)?;
    if !status.success() {
        return Err(format!("{} ended with {status}", program.path.display()));
    }
    Ok(told)
}

/// Hands the input to the program, and its lines to whoever pairs them with the answers.
fn feed(format: Format, input: impl Read, mut program: ChildStdin, lines: &Sender<Asked>) {
    let mut input = BufReader::with_capacity(1 << 16, input);
    let mut line = Asked { number: 1, text: Vec::new() };
    let mut begun = false;
    while let Ok(ready) = input.fill_buf() {
        if ready.is_empty() {
            break;
        }
        for part in ready.split_inclusive(|byte| *byte == b'\n') {
            let bytes = part.strip_suffix(b"\n").unwrap_or(part);
            let room = LINE_MOST + 1 - line.text.len();
            line.text.extend_from_slice(&bytes[..bytes.len().min(room)]);
            begun = bytes.len() == part.len();
            if !begun {
                let next = Asked { number: line.number + 1, text: Vec::new() };
                send(format, std::mem::replace(&mut line, next), lines);
            }
        }
        let length = ready.len();
        if program.write_all(ready).is_err() {
            return;
        }
        input.consume(length);
    }
    if begun {
        send(format, line, lines);
    }
}

fn send(format: Format, line: Asked, lines: &Sender<Asked>) {
    if format.is_answered(&line.text) {
        // The receiver is gone where nobody wants the answers.
        let _ = lines.send(line);
    }
}

/// Prints each answer, and says on standard error why a line was not read.
fn tell(
    format: Format,
    name: &str,
    mut answers: BufReader<impl Read>,
    lines: &Receiver<Asked>,
    mut output: impl Write,
) -> io::Result<bool> {
    let word = format.word();
    let mut explainer = Explainer { format, stand: None };
    let (mut answered, mut unread) = (0, 0);
    let mut answer = Vec::new();
    while answers.read_until(b'\n', &mut answer)? > 0 {
        output.write_all(&answer)?;
        let Ok(line) = lines.recv() else {
            output.flush()?;
            eprintln!("{word}: {name}: there are more answers than lines");
            return Ok(false);
        };
        answered += 1;
        if let Some(why) = explainer.why(&line.text, answer.strip_suffix(b"\n").unwrap_or(&answer)) {
            output.flush()?;
            unread += 1;
            if unread <= NAMED_MOST {
                eprintln!("{word}: {name}: line {}: {}", line.number, about(&why, &line.text));
            }
        }
        answer.clear();
        // Whoever types the lines sees each answer before the next line.
        if answers.buffer().is_empty() {
            output.flush()?;
        }
    }
    output.flush()?;
    if unread > NAMED_MOST {
        eprintln!("{word}: {name}: and {} more lines can't be read", unread - NAMED_MOST);
    }
    if let Ok(line) = lines.try_recv() {
        eprintln!("{word}: {name}: line {}: there is no answer: {}", line.number, shown(&line.text));
        return Ok(false);
    }
    if answered == 0 {
        eprintln!("{word}: {name}: there is no line to answer");
    }
    Ok(answered > 0 && unread == 0)
}
