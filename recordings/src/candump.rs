//! A line of a log, as `candump -L` writes it: `(1436509052.249713) can0 00000014#0A0B`.

use second::heard::Record;

/// The most of a bus identifier of 29 bits, and of 11.
const LONG_MOST: u32 = 0x1fff_ffff;
const SHORT_MOST: u32 = 0x7ff;
/// With this bit an identifier is that of an error frame.
const ERROR: u32 = 0x2000_0000;
const DATA_MOST: usize = 8;
/// What a DLC above eight, which stands for eight bytes, can be.
const LONG_DLCS: std::ops::RangeInclusive<u8> = 9..=15;

/// A line that was read.
#[derive(Clone, Debug, PartialEq, Eq)]
pub struct Logged<'a> {
    pub microseconds: u64,
    pub interface: &'a [u8],
    pub heard: Heard,
}

#[derive(Clone, Debug, PartialEq, Eq)]
pub enum Heard {
    Frame { id: u32, dlc: u8, payload: Vec<u8> },
    LeftOut(LeftOut),
}

/// What a node does not hear, and a recording does not hold.
#[derive(Clone, Copy, Debug, PartialEq, Eq)]
pub enum LeftOut {
    ShortIdentifier,
    Remote,
    Error,
}

/// Reads a line, or says why it can't be read.
pub fn read(line: &[u8]) -> Result<Logged<'_>, String> {
    if line.ends_with(b"\r") {
        return Err("it ends in a carriage return".to_string());
    }
    let words: Vec<&[u8]> = line.split(|byte| *byte == b' ').filter(|word| !word.is_empty()).collect();
    // A last word says whether the frame was received or sent.
    let (time, interface, frame) = match words.as_slice() {
        [time, interface, frame] | [time, interface, frame, b"R" | b"T"] => (time, interface, frame),
        _ => return Err("it is not `(SECONDS) INTERFACE IDENTIFIER#DATA`".to_string()),
    };
    Ok(Logged { microseconds: read_time(time)?, interface, heard: read_frame(frame)? })
}

fn digits(word: &[u8]) -> Option<u64> {
    let all = !word.is_empty() && word.iter().all(u8::is_ascii_digit);
    std::str::from_utf8(word).ok().filter(|_| all)?.parse().ok()
}

/// The microseconds of `(SECONDS.MICROSECONDS)`; of nanoseconds the last three digits are dropped.
fn read_time(word: &[u8]) -> Result<u64, String> {
    let read = || {
        let inner = word.strip_prefix(b"(")?.strip_suffix(b")")?;
        let point = inner.iter().position(|byte| *byte == b'.')?;
        let (seconds, rest) = (&inner[..point], &inner[point + 1..]);
        let rest = match rest.len() {
            6 => digits(rest)?,
            9 => digits(rest)? / 1_000,
            _ => return None,
        };
        digits(seconds)?.checked_mul(1_000_000)?.checked_add(rest)
    };
    read().ok_or("its time is not `(SECONDS.MICROSECONDS)`, with six or nine digits after the point".to_string())
}

fn read_frame(word: &[u8]) -> Result<Heard, String> {
    let mark = word.iter().position(|byte| *byte == b'#').ok_or("its frame has no `#`")?;
    let (id, rest) = (&word[..mark], &word[mark + 1..]);
    if rest.starts_with(b"#") {
        return Err("its frame is one of CAN FD, and a recording holds classical frames".to_string());
    }
    let digits = id.len();
    let id = hex_number(id).filter(|_| digits == 3 || digits == 8).ok_or("its identifier is not 8 hex digits, or 3")?;
    if let Some(length) = rest.strip_prefix(b"R") {
        return match (is_remote_length(length), is_short(id, digits)?) {
            (true, _) => Ok(Heard::LeftOut(LeftOut::Remote)),
            _ => Err("its remote frame has no such length".to_string()),
        };
    }
    let (dlc, payload) = read_data(rest)?;
    Ok(match is_short(id, digits)? {
        true => Heard::LeftOut(LeftOut::ShortIdentifier),
        false if id > LONG_MOST => Heard::LeftOut(LeftOut::Error),
        false => Heard::Frame { id, dlc, payload },
    })
}

/// Whether an identifier of so many digits is one of 11 bits. Those of error frames have the error bit beside the 29.
fn is_short(id: u32, digits: usize) -> Result<bool, String> {
    let most = if digits == 3 { SHORT_MOST } else { LONG_MOST | ERROR };
    if id > most {
        return Err(format!("its identifier is above {most:X}"));
    }
    Ok(digits == 3)
}

/// The length of a remote frame: none for 0, or a digit, and after 8 perhaps the DLC that stands for it.
fn is_remote_length(text: &[u8]) -> bool {
    match text {
        [] => true,
        [digit] => (b'0'..=b'8').contains(digit),
        [b'8', b'_', dlc] => hex_digit(*dlc).is_some_and(|dlc| LONG_DLCS.contains(&dlc)),
        _ => false,
    }
}

/// The DLC and the bytes of data: `_` and a DLC above eight may follow eight bytes.
fn read_data(text: &[u8]) -> Result<(u8, Vec<u8>), String> {
    let (text, dlc) = match text {
        [data @ .., b'_', dlc] => (data, Some(*dlc)),
        _ => (text, None),
    };
    let digits: Option<Vec<u8>> = text.iter().map(|byte| hex_digit(*byte)).collect();
    let digits = digits.ok_or("its data is not in hex digits")?;
    if !digits.len().is_multiple_of(2) {
        return Err("its data has an odd number of digits".to_string());
    }
    let payload: Vec<u8> = digits.chunks(2).map(|pair| pair[0] * 16 + pair[1]).collect();
    if payload.len() > DATA_MOST {
        return Err("its data has more than eight bytes".to_string());
    }
    let Some(dlc) = dlc else {
        return Ok((payload.len() as u8, payload));
    };
    match hex_digit(dlc) {
        Some(dlc) if LONG_DLCS.contains(&dlc) && payload.len() == DATA_MOST => Ok((dlc, payload)),
        _ => Err("after `_` stands a DLC from 9 to F, behind eight bytes".to_string()),
    }
}

fn hex_digit(byte: u8) -> Option<u8> {
    char::from(byte).to_digit(16).map(|digit| digit as u8)
}

fn hex_number(word: &[u8]) -> Option<u32> {
    word.iter().try_fold(0_u32, |number, byte| Some(number.checked_mul(16)? + u32::from(hex_digit(*byte)?)))
}

/// The interface that a recording's frames are said to come from.
const INTERFACE: &str = "can0";

/// A record as a line without its end, or why candump has no line for it.
pub fn write(microseconds: u128, record: &Record) -> Result<String, String> {
    let Record { id, dlc, payload, .. } = record;
    if *id > LONG_MOST {
        return Err(format!("the identifier {id} has more than 29 bits"));
    }
    let long = LONG_DLCS.contains(dlc);
    let length = if long { DATA_MOST } else { usize::from(*dlc) };
    if payload.len() != length {
        return Err(format!("no frame has DLC {dlc} and a payload of {} bytes", payload.len()));
    }
    let data: String = payload.iter().map(|byte| format!("{byte:02X}")).collect();
    let marked = if long { format!("_{dlc:X}") } else { String::new() };
    let (seconds, rest) = (microseconds / 1_000_000, microseconds % 1_000_000);
    Ok(format!("({seconds:010}.{rest:06}) {INTERFACE} {id:08X}#{data}{marked}"))
}

#[cfg(test)]
mod tests {
    use super::*;

    fn frame(text: &str) -> Result<Heard, String> {
        read(format!("(0.000000) can0 {text}").as_bytes()).map(|logged| logged.heard)
    }

    fn heard(id: u32, dlc: u8, payload: &[u8]) -> Result<Heard, String> {
        Ok(Heard::Frame { id, dlc, payload: payload.to_vec() })
    }

    #[test]
    fn frames() {
        assert_eq!(frame("00000014#0A0B"), heard(20, 2, &[0x0a, 0x0b]));
        assert_eq!(frame("1fffffff#"), heard(536_870_911, 0, &[]));
        assert_eq!(frame("0000000F#0102030405060708"), heard(15, 8, &[1, 2, 3, 4, 5, 6, 7, 8]));
        assert_eq!(frame("0000000F#0102030405060708_9"), heard(15, 9, &[1, 2, 3, 4, 5, 6, 7, 8]));
        assert_eq!(frame("0000000F#0102030405060708_F"), heard(15, 15, &[1, 2, 3, 4, 5, 6, 7, 8]));
    }

    #[test]
    fn frames_left_out() {
        for (text, left) in [
            ("123#0102", LeftOut::ShortIdentifier),
            ("7FF#", LeftOut::ShortIdentifier),
            ("123#R", LeftOut::Remote),
            ("00000014#R", LeftOut::Remote),
            ("00000014#R2", LeftOut::Remote),
            ("00000014#R8_C", LeftOut::Remote),
            ("20000004#0004000000000000", LeftOut::Error),
            ("3FFFFFFF#0000000000000000", LeftOut::Error),
        ] {
            assert_eq!(frame(text), Ok(Heard::LeftOut(left)), "{text}");
        }
    }

    #[test]
    fn frames_that_can_not_be_read() {
        for (text, says) in [
            ("00000014", "no `#`"),
            ("00000014##00A0B", "CAN FD"),
            ("123##1", "CAN FD"),
            ("0000014#", "8 hex digits, or 3"),
            ("#00", "8 hex digits, or 3"),
            ("0000001G#", "8 hex digits, or 3"),
            ("+00000014#", "8 hex digits, or 3"),
            ("800#", "above 7FF"),
            ("40000000#", "above 3FFFFFFF"),
            ("C0000000#R", "above 3FFFFFFF"),
            ("00000014#0", "odd number"),
            ("00000014#0G", "hex digits"),
            ("00000014#01.02", "hex digits"),
            ("00000014#010203040506070809", "more than eight"),
            ("00000014#0102030405060708_8", "from 9 to F"),
            ("00000014#01020304050607_9", "from 9 to F"),
            ("00000014#0102030405060708_", "hex digits"),
            ("00000014#R9", "no such length"),
            ("00000014#R8_8", "no such length"),
            ("00000014#00:00:00#00", "hex digits"),
        ] {
            assert!(frame(text).is_err_and(|why| why.contains(says)), "{text}: {:?}", frame(text));
        }
    }

    #[test]
    fn times_and_words() {
        let time = |text: &str| read(format!("{text} can0 00000014#").as_bytes()).map(|logged| logged.microseconds);
        assert_eq!(time("(1436509052.249713)"), Ok(1_436_509_052_249_713));
        assert_eq!(time("(000.000001)"), Ok(1));
        assert_eq!(time("(1436509052.249713999)"), Ok(1_436_509_052_249_713));
        assert_eq!(time("(18446744073709.551615)"), Ok(u64::MAX));
        for text in ["(18446744073709.551616)", "(1.5)", "(1)", "(-1.000000)", "1.000000", "(.000000)", "(1.0000000)"] {
            assert!(time(text).is_err_and(|why| why.contains("its time")), "{text}");
        }
        let interface = |text: &str| read(text.as_bytes()).map(|logged| logged.interface.to_vec());
        assert_eq!(interface("(0.000000)  vcan0   00000014#00 R"), Ok(b"vcan0".to_vec()));
        assert_eq!(interface("(0.000000) can0 00000014#00 T "), Ok(b"can0".to_vec()));
        for text in ["(0.000000) can0", "(0.000000) can0 00000014#00 X", "(2024-01-01 00:00:00.000000) can0 00000014#"]
        {
            assert!(interface(text).is_err_and(|why| why.starts_with("it is not")), "{text}");
        }
        assert!(interface("(0.000000) can0 00000014#00\r").is_err_and(|why| why.contains("carriage return")));
    }

    #[test]
    fn records_as_lines() {
        let record = |id, dlc, payload: &[u8]| Record { counter: 0, id, dlc, payload: payload.to_vec() };
        let line = |record: Record| write(17_000, &record);
        assert_eq!(line(record(20, 2, &[0x0a, 0x0b])).as_deref(), Ok("(0000000000.017000) can0 00000014#0A0B"));
        assert_eq!(
            line(record(20, 12, &[0; 8])).as_deref(),
            Ok("(0000000000.017000) can0 00000014#0000000000000000_C")
        );
        for none in [
            record(536_870_912, 0, &[]),
            record(20, 1, &[]),
            record(20, 0, &[1]),
            record(20, 9, &[1]),
            record(20, 16, &[0; 8]),
        ] {
            assert!(line(none).is_err());
        }
    }
}
