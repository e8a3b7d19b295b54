//! The words of a line beside what its form calls them, and why a line can't be read, in words for whoever wrote it.

use std::fmt;

use crate::words::{bytes, number, payload, words, PAYLOAD_MOST};

/// The most bytes that a line may have.
pub const LINE_MOST: usize = 65_535;

/// Why a line can't be read.
#[derive(Clone, Debug, PartialEq, Eq)]
pub struct Unread(String);

impl Unread {
    pub fn new(says: impl Into<String>) -> Unread {
        Unread(says.into())
    }
}

impl fmt::Display for Unread {
    fn fmt(&self, f: &mut fmt::Formatter) -> fmt::Result {
        f.write_str(&self.0)
    }
}

/// The words of a line. Its form, as `ticks N`, gives each a name; `..` at its end stands for any number more.
pub struct Fields<'a> {
    form: &'static str,
    words: Vec<&'a [u8]>,
}

impl<'a> Fields<'a> {
    /// The words of a line by the form, of these, that begins with its first word.
    pub fn of(line: &'a [u8], forms: &[&'static str]) -> Result<Fields<'a>, Unread> {
        laid_out(line)?;
        let words = words(line);
        let names = |form: &&&str| form.split(' ').next().is_some_and(|word| word.as_bytes() == words[0]);
        let Some(form) = forms.iter().find(names) else {
            return Err(unknown(words[0], forms));
        };
        let (least, more) = match form.strip_suffix(" ..") {
            Some(named) => (named.split(' ').count() - 1, true),
            None => (form.split(' ').count(), false),
        };
        if words.len() < least {
            return Err(Unread(format!("too few words for `{form}`")));
        }
        if words.len() > least && !more {
            return Err(Unread(format!("too many words for `{form}`")));
        }
        Ok(Fields { form, words })
    }

    /// The word that says what the line asks for.
    pub fn verb(&self) -> &'static str {
        self.form.split(' ').next().unwrap_or_default()
    }

    pub fn count(&self) -> usize {
        self.words.len()
    }

    fn name(&self, at: usize) -> &'static str {
        let mut names = self.form.strip_suffix(" ..").unwrap_or(self.form).split(' ');
        names.clone().nth(at).or(names.next_back()).unwrap_or_default()
    }

    /// The number at a place, up to `most`.
    pub fn number(&self, at: usize, most: u64) -> Result<u64, Unread> {
        let (name, word) = (self.name(at), self.words[at]);
        number(word, most).ok_or_else(|| match word.iter().all(u8::is_ascii_digit) {
            true => Unread(format!("{name} is above its limit, {}", grouped(most))),
            false => Unread(format!("{name} is `{}`, and a number is written in digits alone", shown(word))),
        })
    }

    pub fn u8(&self, at: usize) -> Result<u8, Unread> {
        Ok(self.number(at, u64::from(u8::MAX))? as u8)
    }

    pub fn u16(&self, at: usize) -> Result<u16, Unread> {
        Ok(self.number(at, u64::from(u16::MAX))? as u16)
    }

    pub fn u32(&self, at: usize) -> Result<u32, Unread> {
        Ok(self.number(at, u64::from(u32::MAX))? as u32)
    }

    /// The number of one of `count` things, of which `missing` says that it is not among them.
    pub fn below(&self, at: usize, count: usize, missing: impl Fn(&str) -> String) -> Result<usize, Unread> {
        // Any number of digits names a thing, if only one that is not there.
        let word = self.words[at];
        if !word.iter().all(u8::is_ascii_digit) {
            self.number(at, u64::MAX)?;
        }
        match number(word, u64::MAX).and_then(|value| usize::try_from(value).ok()) {
            Some(value) if value < count => Ok(value),
            _ => Err(Unread(missing(&shown(word)))),
        }
    }

    pub fn payload(&self, at: usize) -> Result<Vec<u8>, Unread> {
        self.hex(at, payload)
    }

    /// Bytes, as many as a line has room for.
    pub fn bytes(&self, at: usize) -> Result<Vec<u8>, Unread> {
        self.hex(at, bytes)
    }

    fn hex(&self, at: usize, read: impl Fn(&[u8]) -> Option<Vec<u8>>) -> Result<Vec<u8>, Unread> {
        let (name, word) = (self.name(at), self.words[at]);
        read(word).ok_or_else(|| Unread(format!("{name} {}", why_no_bytes(word))))
    }
}

/// Whether a line is words with one space between them.
fn laid_out(line: &[u8]) -> Result<(), Unread> {
    let has = |part: &[u8]| line.windows(part.len()).any(|window| window == part);
    let faults: [(bool, &str); 9] = [
        (line.is_empty(), "it is empty"),
        (line.len() > LINE_MOST, "it has more than 65,535 bytes"),
        (line.starts_with(b"\xef\xbb\xbf"), "it begins with a byte order mark"),
        (line.ends_with(b"\r"), "it ends in a carriage return"),
        (has(b"\r"), "it has a carriage return"),
        (has(b"\t"), "it has a tab"),
        (line.starts_with(b" "), "it begins with a space"),
        (line.ends_with(b" "), "it ends in a space"),
        (has(b"  "), "it has two spaces in a row"),
    ];
    match faults.iter().find(|(holds, _)| *holds) {
        Some((_, says)) => Err(Unread::new(*says)),
        None => Ok(()),
    }
}

fn unknown(word: &[u8], forms: &[&str]) -> Unread {
    let lower = word.to_ascii_lowercase();
    let known = forms.iter().filter_map(|form| form.split(' ').next()).find(|name| name.as_bytes() == lower);
    match known {
        Some(name) => Unread(format!("`{}` is written in lower case, `{name}`", shown(word))),
        None if word.starts_with(b"#") => Unread::new("there are no comments here"),
        None => Unread(format!("no line begins with `{}`", shown(word))),
    }
}

fn why_no_bytes(word: &[u8]) -> String {
    let stray = word.iter().find(|byte| !byte.is_ascii_hexdigit());
    match stray {
        Some(byte) => format!("has `{}`, which is no hex digit", byte.escape_ascii()),
        None if word.iter().any(u8::is_ascii_uppercase) => "has upper-case hex digits".to_string(),
        None if word.len() % 2 == 1 => "has an odd number of hex digits".to_string(),
        None => format!("has {} bytes, above its limit, {PAYLOAD_MOST}", word.len() / 2),
    }
}

/// So many bytes of a text are shown in an error.
const SHOWN_MOST: usize = 100;

/// A text as it is shown in an error.
pub fn shown(text: &[u8]) -> String {
    let whole = text.len() <= SHOWN_MOST;
    format!("{}{}", text[..text.len().min(SHOWN_MOST)].escape_ascii(), if whole { "" } else { "…" })
}

/// What is said of a line, with its text.
pub fn about(says: &str, text: &[u8]) -> String {
    match text {
        [] => says.to_string(),
        _ => format!("{says}: {}", shown(text)),
    }
}

/// A number with a comma before each three of its digits.
fn grouped(number: u64) -> String {
    let digits = number.to_string();
    let mut text = String::new();
    for (at, digit) in digits.chars().enumerate() {
        if at > 0 && (digits.len() - at).is_multiple_of(3) {
            text.push(',');
        }
        text.push(digit);
    }
    text
}

#[cfg(test)]
mod tests {
    use super::*;

    const FORMS: [&str; 3] = ["tick", "ticks N", "short F M .."];

    fn why(line: &[u8]) -> String {
        match Fields::of(line, &FORMS).and_then(|fields| match fields.verb() {
            "ticks" => fields.number(1, 65_536).map(|_| ()),
            "short" => (1..fields.count()).try_for_each(|at| fields.u8(at).map(|_| ())),
            _ => Ok(()),
        }) {
            Ok(()) => String::new(),
            Err(unread) => unread.to_string(),
        }
    }

    #[test]
    fn layouts() {
        for (line, says) in [
            (&b"tick"[..], ""),
            (b"short 7", ""),
            (b"short 7 1 2", ""),
            (b"", "it is empty"),
            (b"tick\r", "it ends in a carriage return"),
            (b"\r", "it ends in a carriage return"),
            (b"ti\rck", "it has a carriage return"),
            (b"ticks\t7", "it has a tab"),
            (b" tick", "it begins with a space"),
            (b"tick ", "it ends in a space"),
            (b"ticks  7", "it has two spaces in a row"),
            (b"\xef\xbb\xbftick", "it begins with a byte order mark"),
            (b"tock", "no line begins with `tock`"),
            (b"TICK", "`TICK` is written in lower case, `tick`"),
            (b"# tick", "there are no comments here"),
            (b"ticks", "too few words for `ticks N`"),
            (b"tick 7", "too many words for `tick`"),
            (b"short", "too few words for `short F M ..`"),
        ] {
            assert_eq!(why(line), says, "{}", shown(line));
        }
        let long = [b"short 1".to_vec(), b" 1".repeat(40_000)].concat();
        assert_eq!(why(&long), "it has more than 65,535 bytes");
    }

    #[test]
    fn numbers() {
        assert_eq!(why(b"ticks 65536"), "");
        assert_eq!(why(b"ticks 0065536"), "");
        assert_eq!(why(b"ticks 65537"), "N is above its limit, 65,536");
        assert_eq!(why(b"ticks 99999999999999999999999999"), "N is above its limit, 65,536");
        assert_eq!(why(b"ticks -1"), "N is `-1`, and a number is written in digits alone");
        assert_eq!(why(b"short 1 2 256"), "M is above its limit, 255");
        assert_eq!(grouped(4_294_967_295), "4,294,967,295");
        assert_eq!(grouped(64), "64");
    }

    #[test]
    fn payloads() {
        for (word, says) in [
            (&b"0A"[..], "has upper-case hex digits"),
            (b"0a0", "has an odd number of hex digits"),
            (b"0g", "has `g`, which is no hex digit"),
            (b"0x0a", "has `x`, which is no hex digit"),
        ] {
            assert_eq!(why_no_bytes(word), says);
        }
        assert_eq!(why_no_bytes("00".repeat(65).as_bytes()), "has 65 bytes, above its limit, 64");
    }
}
