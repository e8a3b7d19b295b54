//! Lines of any length read in bounded memory, and answered one by one.

use std::io::{self, BufRead, BufReader, BufWriter, Read, Write};

use crate::fields::LINE_MOST;

/// The most bytes of a line that are kept.
pub const LONGEST: usize = LINE_MOST;

/// A line without its end; `cut` if it was longer than what is kept.
pub struct Cut<'a> {
    pub bytes: &'a [u8],
    pub cut: bool,
}

/// Answers each line of the input with a line of its own, or with none where `answer` gives none.
pub fn answer_lines(
    input: impl Read,
    output: impl Write,
    mut answer: impl FnMut(Cut) -> Option<String>,
) -> io::Result<()> {
    let mut input = BufReader::with_capacity(1 << 16, input);
    let mut output = BufWriter::with_capacity(1 << 16, output);
    let mut line = Vec::new();
    while let Some(cut) = next_line(&mut input, &mut line)? {
        if let Some(text) = answer(Cut { bytes: &line, cut }) {
            output.write_all(text.as_bytes())?;
            output.write_all(b"\n")?;
        }
        if input.buffer().is_empty() {
            output.flush()?;
        }
    }
    output.flush()
}

/// Reads a line into `line` and says whether it was cut; `None` at the end. A last line without a newline counts.
pub fn next_line(input: &mut impl BufRead, line: &mut Vec<u8>) -> io::Result<Option<bool>> {
    line.clear();
    let mut begun = false;
    let mut cut = false;
    loop {
        let ready = input.fill_buf()?;
        if ready.is_empty() {
            return Ok(begun.then_some(cut));
        }
        begun = true;
        let end = ready.iter().position(|byte| *byte == b'\n');
        let part = &ready[..end.unwrap_or(ready.len())];
        let room = LONGEST - line.len();
        cut |= part.len() > room;
        line.extend_from_slice(&part[..part.len().min(room)]);
        let used = end.map_or(ready.len(), |at| at + 1);
        input.consume(used);
        if end.is_some() {
            return Ok(Some(cut));
        }
    }
}

#[cfg(test)]
mod tests {
    use super::*;

    fn lengths(input: &[u8]) -> Vec<(usize, bool)> {
        let mut seen = Vec::new();
        let answered = answer_lines(input, io::sink(), |line| {
            seen.push((line.bytes.len(), line.cut));
            None
        });
        assert!(answered.is_ok());
        seen
    }

    #[test]
    fn ends_of_lines() {
        assert_eq!(lengths(b""), []);
        assert_eq!(lengths(b"\n"), [(0, false)]);
        assert_eq!(lengths(b"a\n\nbc"), [(1, false), (0, false), (2, false)]);
        assert_eq!(lengths(b"a\n"), [(1, false)]);
    }

    #[test]
    fn long_lines_are_cut() {
        let mut input = vec![b'x'; LONGEST + 1];
        input.extend(b"\ny");
        assert_eq!(lengths(&input), [(LONGEST, true), (1, false)]);
        assert_eq!(lengths(&vec![b'x'; LONGEST]), [(LONGEST, false)]);
        assert_eq!(lengths(&vec![b'x'; 300_000]), [(LONGEST, true)]);
    }
}
