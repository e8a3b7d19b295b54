//! The text that `tools/mir` writes, as a term: words, names in quotes, and lists in parentheses. Each part knows its place.

use crate::unknown::{unknown, Answer};

#[derive(Debug)]
pub struct Term {
    /// The byte of the text at which it begins.
    pub at: usize,
    pub form: Form,
}

#[derive(Debug)]
pub enum Form {
    Word(String),
    Name(String),
    List(Vec<Term>),
}

impl Term {
    /// How it is named in an error: a word or a name itself, a list by its first word.
    pub fn named(&self) -> String {
        match &self.form {
            Form::Word(word) => word.clone(),
            Form::Name(name) => format!("\"{name}\""),
            Form::List(parts) => match parts.first() {
                Some(Term { form: Form::Word(word), .. }) => format!("({word} ..) with {} parts", parts.len() - 1),
                _ => "(..)".to_string(),
            },
        }
    }

    /// The first word, and what follows it: a bare word has nothing that follows.
    pub fn headed(&self) -> Answer<(&str, &[Term])> {
        match &self.form {
            Form::Word(word) => Ok((word, &[])),
            Form::List(parts) => match parts.first() {
                Some(Term { form: Form::Word(word), .. }) => Ok((word, &parts[1..])),
                _ => unknown(self.at, "a list that does not begin with a word"),
            },
            Form::Name(name) => unknown(self.at, format!("the name \"{name}\" where a construct is due")),
        }
    }

    /// The parts of a list that begins with this word and has so many parts after it.
    pub fn parts<const N: usize>(&self, word: &str) -> Answer<&[Term; N]> {
        match self.headed()? {
            (head, rest) if head == word => match rest.try_into() {
                Ok(parts) => Ok(parts),
                Err(_) => unknown(self.at, format!("{} where {word} with {N} parts is due", self.named())),
            },
            _ => unknown(self.at, format!("{} where {word} is due", self.named())),
        }
    }

    pub fn word(&self) -> Answer<&str> {
        match &self.form {
            Form::Word(word) => Ok(word),
            _ => unknown(self.at, format!("{} where a word is due", self.named())),
        }
    }

    pub fn name(&self) -> Answer<&str> {
        match &self.form {
            Form::Name(name) => Ok(name),
            _ => unknown(self.at, format!("{} where a name is due", self.named())),
        }
    }

    pub fn number(&self) -> Answer<u64> {
        let word = self.word()?;
        match word.parse() {
            Ok(number) if word.bytes().all(|byte| byte.is_ascii_digit()) => Ok(number),
            _ => unknown(self.at, format!("{word} where a number below 2^64 is due")),
        }
    }

    pub fn count(&self) -> Answer<usize> {
        self.number().map(|number| number as usize)
    }

    /// The items of a list written as `(cons item rest)`, ended by `nil`.
    pub fn items(&self, cons: &str, nil: &str) -> Answer<Vec<&Term>> {
        let mut items = Vec::new();
        let mut rest = self;
        loop {
            match rest.headed()? {
                (head, []) if head == nil => return Ok(items),
                (head, [item, next]) if head == cons => {
                    items.push(item);
                    rest = next;
                }
                _ => return unknown(rest.at, format!("{} where {cons} or {nil} is due", rest.named())),
            }
        }
    }

    pub fn list(&self) -> Answer<Vec<&Term>> {
        self.items("lcons", "lnil")
    }
}

/// The terms of a text, one after the other.
pub fn read(text: &str) -> Answer<Vec<Term>> {
    let bytes = text.as_bytes();
    let mut open: Vec<(usize, Vec<Term>)> = Vec::new();
    let mut done = Vec::new();
    let mut at = 0;
    while at < bytes.len() {
        let from = at;
        at += 1;
        let form = match bytes[from] {
            byte if byte.is_ascii_whitespace() => continue,
            b'(' => {
                open.push((from, std::mem::take(&mut done)));
                continue;
            }
            b')' => {
                let Some((began, before)) = open.pop() else {
                    return unknown(from, "a ) without its (");
                };
                let parts = std::mem::replace(&mut done, before);
                done.push(Term { at: began, form: Form::List(parts) });
                continue;
            }
            b'"' => {
                let Some(length) = text[at..].find('"') else {
                    return unknown(from, "a \" without its end");
                };
                at += length + 1;
                Form::Name(text[from + 1..at - 1].to_string())
            }
            _ => {
                let ends = |byte: &u8| byte.is_ascii_whitespace() || b"()\"".contains(byte);
                at = bytes[from..].iter().position(ends).map_or(bytes.len(), |length| from + length);
                Form::Word(text[from..at].to_string())
            }
        };
        done.push(Term { at: from, form });
    }
    match open.last() {
        None => Ok(done),
        Some((began, _)) => unknown(*began, "a ( without its )"),
    }
}
