//! The records of a recording of any length, read in bounded memory.

use std::io::{self, Read};

use second::heard::{read, Record, Refusal, LOOKED_AT_MOST};

/// How many bytes are asked for at once.
const PIECE: usize = 1 << 16;

pub struct Window<R> {
    input: R,
    bytes: Vec<u8>,
    /// Where in the bytes the next record begins, and where in the recording.
    start: usize,
    offset: u64,
    ended: bool,
}

impl<R: Read> Window<R> {
    pub fn new(input: R) -> Window<R> {
        Window { input, bytes: Vec::new(), start: 0, offset: 0, ended: false }
    }

    /// The offset of the next record, and the record or why there is none; nothing at the end.
    pub fn next(&mut self) -> io::Result<Option<(u64, Result<Record, Refusal>)>> {
        self.fill()?;
        let rest = &self.bytes[self.start..];
        if rest.is_empty() {
            return Ok(None);
        }
        let offset = self.offset;
        Ok(Some(match read(rest) {
            Ok((record, length)) => {
                self.start += length;
                self.offset += length as u64;
                (offset, Ok(record))
            }
            Err(refusal) => (offset, Err(refusal)),
        }))
    }

    /// Reads on until the bytes at hand decide what the next record is.
    fn fill(&mut self) -> io::Result<()> {
        while !self.ended && self.bytes.len() - self.start < LOOKED_AT_MOST {
            self.bytes.drain(..self.start);
            self.start = 0;
            self.ended = self.input.by_ref().take(PIECE as u64).read_to_end(&mut self.bytes)? == 0;
        }
        Ok(())
    }
}
