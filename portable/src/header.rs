//! What the C header says: the functions with their parameters' names, and the fields of its structs. It is written by
//! hand, and the C compiler holds the translation to it.

use std::collections::BTreeMap;

use crate::unknown::{unknown, Answer};

#[derive(Debug, PartialEq, Eq)]
pub struct Field {
    pub name: String,
    /// Its C type, of an array that of an element.
    pub ty: String,
}

#[derive(Debug, Default)]
pub struct Header {
    /// Of each function, the names of its parameters.
    pub functions: BTreeMap<String, Vec<String>>,
    /// Of each struct, its fields.
    pub structs: BTreeMap<String, Vec<Field>>,
}

/// The same text with a blank for each byte of a comment, of a line for the preprocessor, and of what is for C++ alone.
fn bare(text: &str) -> Vec<u8> {
    let mut bytes = text.as_bytes().to_vec();
    let mut at = 0;
    while let Some(length) = text[at..].find("/*") {
        let from = at + length;
        at = text[from..].find("*/").map_or(text.len(), |length| from + length + 2);
        bytes[from..at].iter_mut().filter(|byte| **byte != b'\n').for_each(|byte| *byte = b' ');
    }
    let mut cpp = false;
    for line in bytes.split_mut(|byte| *byte == b'\n') {
        let directive = line.first() == Some(&b'#');
        cpp = cpp && !line.starts_with(b"#endif") || line.starts_with(b"#ifdef __cplusplus");
        if directive || cpp {
            line.fill(b' ');
        }
    }
    bytes
}

/// The words and signs, each with its place.
fn tokens(text: &str) -> Vec<(usize, String)> {
    let bytes = bare(text);
    let part = |byte: u8| byte.is_ascii_alphanumeric() || byte == b'_';
    let mut found = Vec::new();
    let mut at = 0;
    while at < bytes.len() {
        let from = at;
        at += 1;
        while part(bytes[from]) && at < bytes.len() && part(bytes[at]) {
            at += 1;
        }
        if !bytes[from].is_ascii_whitespace() {
            found.push((from, String::from_utf8_lossy(&bytes[from..at]).into_owned()));
        }
    }
    found
}

fn is_name(word: &str) -> bool {
    word.starts_with(|first: char| first.is_ascii_alphabetic() || first == '_')
}

/// A name that the translation gives to a local: `v` or `t`, and a number.
fn is_taken(name: &str) -> bool {
    name.strip_prefix(['v', 't']).is_some_and(|rest| rest.bytes().all(|byte| byte.is_ascii_digit()))
}

pub fn read(text: &str) -> Answer<Header> {
    let mut header = Header::default();
    let tokens = tokens(text);
    let mut rest = &tokens[..];
    while let Some((at, _)) = rest.first() {
        let words: Vec<&str> = rest.iter().map(|(_, word)| word.as_str()).collect();
        if let ["struct", name, "{", ..] = words[..] {
            let Some(end) = words.iter().position(|word| *word == "}") else {
                return unknown(*at, format!("struct {name} without an end"));
            };
            if words.get(end + 1) != Some(&";") {
                return unknown(rest[end].0, format!("struct {name} that does not end with a semicolon"));
            }
            let fields = words[3..end].split_inclusive(|word| *word == ";").map(|line| field(line, *at));
            header.structs.insert(name.to_string(), fields.collect::<Answer<_>>()?);
            rest = &rest[end + 2..];
            continue;
        }
        let Some(end) = words.iter().position(|word| *word == ";") else {
            return unknown(*at, "a declaration without an end");
        };
        let Some(open) = words[..end].iter().position(|word| *word == "(") else {
            return unknown(*at, format!("the declaration {}", words[..end].join(" ")));
        };
        let (name, params) = (words[open.saturating_sub(1)], &words[open + 1..end]);
        let ([params @ .., ")"], true) = (params, is_name(name)) else {
            return unknown(*at, format!("the declaration {}", words[..end].join(" ")));
        };
        let params = if params == ["void"] { &[] } else { params };
        let names = params.split(|word| *word == ",").filter(|words| !words.is_empty()).map(|words| match words {
            [.., name] if words.len() > 1 && is_name(name) && !is_taken(name) => Ok(name.to_string()),
            _ => unknown(*at, format!("the parameter {} of {name}", words.join(" "))),
        });
        header.functions.insert(name.to_string(), names.collect::<Answer<_>>()?);
        rest = &rest[end + 1..];
    }
    Ok(header)
}

fn field(words: &[&str], at: usize) -> Answer<Field> {
    match words {
        [ty @ .., name, ";"] | [ty @ .., name, "[", _, "]", ";"] if !ty.is_empty() && is_name(name) => {
            Ok(Field { name: name.to_string(), ty: ty.join(" ") })
        }
        _ => unknown(at, format!("the field {}", words.join(" "))),
    }
}

/// The header without the declarations of functions that are not among these, each with the comment above it.
pub fn narrowed(text: &str, kept: &[&str]) -> Answer<String> {
    let mut out: Vec<&str> = Vec::new();
    for paragraph in text.split("\n\n") {
        let declares = tokens(paragraph);
        let mut left_out = false;
        for pair in declares.windows(2) {
            if pair[1].1 == "(" && is_name(&pair[0].1) {
                left_out |= !kept.contains(&pair[0].1.as_str());
            }
        }
        if !left_out {
            out.push(paragraph);
        }
    }
    let text = out.join("\n\n");
    let left = read(&text)?;
    match kept.iter().find(|name| !left.functions.contains_key(**name)) {
        Some(name) => unknown(0, format!("no declaration of {name} that stands by itself")),
        None => Ok(text),
    }
}
