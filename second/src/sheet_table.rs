//! A list of streams for people: read from a file with names, put to the program `sheet`, and shown as a table or in words.

use crate::response::{Errors, Stream};
use crate::sheet::line;
use crate::words::number;

/// A stream, its name, and the line of the file that has it.
#[derive(Clone, Debug)]
struct Named {
    name: String,
    at: usize,
    stream: Stream,
}

/// What a file says, as far as it is read.
#[derive(Default)]
struct Lines {
    errors: Option<(usize, Errors)>,
    streams: Vec<Named>,
}

struct Plan {
    errors: Errors,
    streams: Vec<Named>,
}

/// The table, or what is wrong, each with the line that it is about.
pub fn table(name: &str, text: &str, ask: impl Fn(&str) -> Result<String, String>) -> Result<String, Vec<String>> {
    let plan = read(name, text)?;
    let streams: Vec<Stream> = plan.streams.iter().map(|named| named.stream).collect();
    let answer = ask(&line(2 * streams.len() as u64, plan.errors, &streams)).map_err(|trouble| vec![trouble])?;
    let words: Vec<&str> = answer.split(' ').collect();
    let numbers: Vec<u64> = words.iter().skip(2).filter_map(|word| word.parse().ok()).collect();
    match (words[0], words.get(1).and_then(|word| word.parse::<usize>().ok())) {
        ("0", Some(0)) if numbers.len() == 2 * streams.len() => Ok(shown(&plan.streams, &numbers)),
        ("14", Some(at)) if at < streams.len() => Err(vec![late(name, &plan.streams[at])]),
        _ => Err(vec![format!("{name}: the program sheet answers {answer:?}")]),
    }
}

fn late(name: &str, named: &Named) -> String {
    let Named { name: stream, at, stream: Stream { c, d, .. } } = named;
    format!(
        "{name}:{at}: {stream} can be late: no waiting time satisfies its equation and, with a message of {c} bits, its deadline of {d} bits"
    )
}

fn read(name: &str, text: &str) -> Result<Plan, Vec<String>> {
    let mut read = Lines::default();
    let mut wrong = Vec::new();
    for (at, line) in (1..).zip(text.lines()) {
        let words: Vec<&str> = line.split_whitespace().collect();
        let said = match words.as_slice() {
            [] => Ok(()),
            [first, ..] if first.starts_with('#') => Ok(()),
            ["errors", rest @ ..] => errors(&mut read, at, rest),
            [stream, rest @ ..] => one_stream(&mut read, at, stream, rest),
        };
        wrong.extend(said.err().map(|says| format!("{name}:{at}: {says}")));
    }
    if let Some(named) = read.streams.get(64) {
        wrong.push(format!("{name}:{}: this is the 65th stream, and 64 are the most", named.at));
    }
    match read.errors {
        _ if !wrong.is_empty() => Err(wrong),
        _ if read.streams.is_empty() => Err(vec![format!("{name}: there is no stream")]),
        None => Err(vec![format!("{name}: there is no line `errors N PERIOD INACC`")]),
        Some((_, errors)) => Ok(Plan { errors, streams: read.streams }),
    }
}

/// Numbers with their names and limits, in the order of the words.
fn numbers<const N: usize>(words: &[&str], limits: [(&str, u64, u64); N]) -> Result<[u64; N], String> {
    let names: Vec<&str> = limits.iter().map(|limit| limit.0).collect();
    if words.len() != N {
        return Err(format!("{} numbers are wanted here: {}", N, names.join(" ")));
    }
    let mut all = [0; N];
    for ((into, word), (name, least, most)) in all.iter_mut().zip(words).zip(limits) {
        let found = number(word.as_bytes(), u64::MAX).filter(|number| (least..=most).contains(number));
        *into = found.ok_or(format!("{name} is {word}, and must be a number from {least} to {most}"))?;
    }
    Ok(all)
}

fn errors(read: &mut Lines, at: usize, words: &[&str]) -> Result<(), String> {
    if let Some((before, _)) = read.errors {
        return Err(format!("a second line for the errors; line {before} has them"));
    }
    let limits = [("N", 0, 16), ("PERIOD", 1, 1_000_000), ("INACC", 0, 10_000)];
    let [n, period, inaccessibility] = numbers(words, limits)?;
    read.errors = Some((at, Errors { n, period, inaccessibility }));
    Ok(())
}

fn one_stream(read: &mut Lines, at: usize, name: &str, words: &[&str]) -> Result<(), String> {
    let limit = |name: &'static str| (name, 1, 1_000_000);
    let [priority, c, t, d] = numbers(words, [limit("PRIORITY"), limit("C"), limit("T"), limit("D")])?;
    if let Some(other) = read.streams.iter().find(|other| other.stream.priority == priority) {
        return Err(format!("priority {priority} is that of {} in line {} too", other.name, other.at));
    }
    read.streams.push(Named { name: name.to_string(), at, stream: Stream { priority, c, t, d } });
    Ok(())
}

fn shown(streams: &[Named], numbers: &[u64]) -> String {
    let mut rows = vec![["stream", "waiting", "response", "deadline", "margin"].map(str::to_string)];
    for (named, pair) in streams.iter().zip(numbers.chunks(2)) {
        let d = named.stream.d;
        let cells = [pair[0], pair[1], d, d.saturating_sub(pair[1])].map(|number| number.to_string());
        let [waiting, response, deadline, margin] = cells;
        rows.push([named.name.clone(), waiting, response, deadline, margin]);
    }
    let width = |column: usize| rows.iter().map(|row| row[column].chars().count()).max().unwrap_or(0);
    let widths: Vec<usize> = (0..5).map(width).collect();
    let mut text = String::new();
    for row in &rows {
        text.push_str(&format!("{:<w$}", row[0], w = widths[0]));
        for (cell, width) in row.iter().zip(&widths).skip(1) {
            text.push_str(&format!("  {cell:>width$}"));
        }
        text.push('\n');
    }
    text
}
