//! The text format of `sheet`.

use crate::lines::Cut;
use crate::response::{sheet, Errors, Stream, Verdict, Wrong};
use crate::words::{number, words};

/// The most numbers of an output, and the most records of a line.
pub const OUT_MOST: u64 = 256;
pub const RECORDS_MOST: usize = 80;
/// What stands in an output before anything is written.
pub const UNWRITTEN: u64 = 4_294_967_295;

/// The answer to a line that may have been cut; an empty line and one that begins with `#` have none.
pub fn answer_cut(line: Cut, wrong: Wrong) -> Option<String> {
    if line.bytes.is_empty() || line.bytes[0] == b'#' {
        return None;
    }
    Some(if line.cut { "?".to_string() } else { answer(line.bytes, wrong) })
}

/// The answer to a line.
pub fn answer(line: &[u8], wrong: Wrong) -> String {
    let Some((out, errors, streams)) = read(line) else {
        return "?".to_string();
    };
    let verdict = sheet(&streams, errors, out, wrong);
    let (reply, position, written) = match verdict {
        Verdict::Done(pairs) => (0, 0, pairs.iter().flat_map(|pair| [pair.0, pair.1]).collect()),
        Verdict::ShortOutput => (11, 0, Vec::new()),
        Verdict::BadStream => (13, 0, Vec::new()),
        Verdict::Late(at) => (14, at, Vec::new()),
    };
    let mut entries: Vec<u64> = written;
    entries.resize(out, UNWRITTEN);
    let entries: Vec<String> = entries.iter().map(u64::to_string).collect();
    let entries = if out == 0 { "-".to_string() } else { entries.join(" ") };
    format!("{reply} {position} {entries}")
}

fn read(line: &[u8]) -> Option<(usize, Errors, Vec<Stream>)> {
    let words = words(line);
    let (name, rest) = words.split_first()?;
    if *name != b"solve" || rest.len() < 4 || rest.len() % 4 != 0 {
        return None;
    }
    let out = number(rest[0], OUT_MOST)?;
    let numbers: Vec<u64> = rest[1..].iter().map(|word| number(word, u64::from(u32::MAX))).collect::<Option<_>>()?;
    let errors = Errors { n: numbers[0], period: numbers[1], inaccessibility: numbers[2] };
    let records = &numbers[3..];
    if records.len() > 4 * RECORDS_MOST {
        return None;
    }
    let stream = |record: &[u64]| Stream { priority: record[0], c: record[1], t: record[2], d: record[3] };
    Some((out as usize, errors, records.chunks(4).map(stream).collect()))
}

/// A line that asks for a sheet.
pub fn line(out: u64, errors: Errors, streams: &[Stream]) -> String {
    let mut line = format!("solve {out} {} {} {}", errors.n, errors.period, errors.inaccessibility);
    for s in streams {
        line.push_str(&format!(" {} {} {} {}", s.priority, s.c, s.t, s.d));
    }
    line
}
