//! The words of the text formats: decimal numbers, and payloads in lower-case hex.

/// The most bytes that a payload in a line may have.
pub const PAYLOAD_MOST: usize = 64;

/// The words of a line, separated by one space each.
pub fn words(line: &[u8]) -> Vec<&[u8]> {
    line.split(|byte| *byte == b' ').collect()
}

/// A decimal number up to `most`: digits and nothing else.
pub fn number(word: &[u8], most: u64) -> Option<u64> {
    if word.is_empty() {
        return None;
    }
    let mut value: u64 = 0;
    for byte in word {
        if !byte.is_ascii_digit() {
            return None;
        }
        value = value.checked_mul(10)?.checked_add(u64::from(byte - b'0'))?;
    }
    (value <= most).then_some(value)
}

pub fn number_u32(word: &[u8]) -> Option<u32> {
    number(word, u64::from(u32::MAX)).and_then(|value| u32::try_from(value).ok())
}

/// Bytes in lower-case hex, `-` for none.
pub fn bytes(word: &[u8]) -> Option<Vec<u8>> {
    if word == b"-" {
        return Some(Vec::new());
    }
    if word.is_empty() || !word.len().is_multiple_of(2) {
        return None;
    }
    word.chunks(2).map(|pair| Some(hex_digit(pair[0])? * 16 + hex_digit(pair[1])?)).collect()
}

/// A payload of a line, `-` for none.
pub fn payload(word: &[u8]) -> Option<Vec<u8>> {
    bytes(word).filter(|bytes| bytes.len() <= PAYLOAD_MOST)
}

fn hex_digit(byte: u8) -> Option<u8> {
    match byte {
        b'0'..=b'9' => Some(byte - b'0'),
        b'a'..=b'f' => Some(byte - b'a' + 10),
        _ => None,
    }
}

/// Writes bytes in lower-case hex, `-` for none.
pub fn put_hex(text: &mut String, bytes: &[u8]) {
    const DIGITS: &[u8; 16] = b"0123456789abcdef";
    if bytes.is_empty() {
        text.push('-');
    }
    for byte in bytes {
        text.push(char::from(DIGITS[usize::from(byte / 16)]));
        text.push(char::from(DIGITS[usize::from(byte % 16)]));
    }
}

pub fn hex(bytes: &[u8]) -> String {
    let mut text = String::with_capacity(2 * bytes.len());
    put_hex(&mut text, bytes);
    text
}

#[cfg(test)]
mod tests {
    use super::*;

    #[test]
    fn numbers() {
        assert_eq!(number(b"0", 9), Some(0));
        assert_eq!(number(b"65536", 65_536), Some(65_536));
        assert_eq!(number(b"65537", 65_536), None);
        for bad in [&b""[..], b"+1", b"-1", b"1.0", b"0x1", b"a", b"99999999999999999999999"] {
            assert_eq!(number(bad, u64::MAX), None);
        }
    }

    #[test]
    fn payloads_there_and_back() {
        for length in 0..=PAYLOAD_MOST {
            let bytes: Vec<u8> = (0..length).map(|at| (at * 37) as u8).collect();
            assert_eq!(payload(hex(&bytes).as_bytes()), Some(bytes));
        }
        assert_eq!(payload("00".repeat(65).as_bytes()), None);
        assert_eq!(bytes("00".repeat(65).as_bytes()), Some(vec![0; 65]));
        for bad in [&b""[..], b"0", b"0g", b"0A", b"--", b"abc"] {
            assert_eq!(payload(bad), None);
        }
    }
}
