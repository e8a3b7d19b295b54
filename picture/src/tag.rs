//! How a message is named in the picture: STREAM:PAYLOAD, as in the harness's answers.

use second::words::hex;

/// The most bytes that a frame carries; a longer payload is refused, and shown in part.
const PAYLOAD_SHOWN: usize = 8;
/// How many hex digits stand in a line of their own, and how long a line may be that has the stream before them.
const DIGITS: usize = 8;
const LINE_MOST: usize = 12;

#[derive(Clone, Debug, PartialEq, Eq)]
pub struct Tag {
    pub stream: u32,
    /// None for a frame that carries nothing: a confirmation or an abort.
    pub payload: Option<Vec<u8>>,
}

impl Tag {
    pub fn message(stream: u32, payload: &[u8]) -> Tag {
        Tag { stream, payload: Some(payload.to_vec()) }
    }

    pub fn text(&self) -> String {
        match &self.payload {
            Some(payload) => format!("{}:{}", self.stream, hex(payload)),
            None => self.stream.to_string(),
        }
    }

    /// The text broken into short lines.
    pub fn lines(&self) -> Vec<String> {
        let Some(payload) = &self.payload else {
            return vec![self.stream.to_string()];
        };
        let digits: Vec<char> = hex(&payload[..payload.len().min(PAYLOAD_SHOWN)]).chars().collect();
        let mut chunks: Vec<String> = digits.chunks(DIGITS).map(|chunk| chunk.iter().collect()).collect();
        if let (true, Some(last)) = (payload.len() > PAYLOAD_SHOWN, chunks.last_mut()) {
            last.push('…');
        }
        let mut lines = vec![format!("{}:", self.stream)];
        for chunk in chunks {
            match lines.last_mut() {
                Some(line) if line.ends_with(':') && line.len() + chunk.len() <= LINE_MOST => line.push_str(&chunk),
                _ => lines.push(chunk),
            }
        }
        lines
    }
}

#[cfg(test)]
mod tests {
    use super::*;

    #[test]
    fn short_and_long_lines() {
        assert_eq!(Tag::message(5, &[0, 7]).lines(), ["5:0007"]);
        assert_eq!(Tag::message(5, &[]).lines(), ["5:-"]);
        assert_eq!(Tag { stream: 5, payload: None }.lines(), ["5"]);
        assert_eq!(Tag::message(5, &[1; 8]).lines(), ["5:01010101", "01010101"]);
        assert_eq!(Tag::message(134_217_727, &[1; 8]).lines(), ["134217727:", "01010101", "01010101"]);
        assert_eq!(Tag::message(5, &[1; 9]).lines(), ["5:01010101", "01010101…"]);
    }
}
