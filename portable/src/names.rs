//! C's names for the program's. A path is written with `_` for `::`. Of a function or a type at arguments the name is
//! short: `kd_Option_ok_or_u64_Reply`.

use std::collections::BTreeMap;

use crate::mir::Program;

/// Before every name that the C file does not offer.
pub const PREFIX: &str = "kd_";

/// As many signs of a name tell it from others in C99.
const LONGEST: usize = 63;

/// A number of a name, the same in every run (FNV-1a), in eight hexadecimal digits.
fn number(name: &str) -> String {
    let step = |sum: u32, byte: u8| (sum ^ u32::from(byte)).wrapping_mul(16_777_619);
    format!("{:08x}", name.bytes().fold(2_166_136_261, step))
}

/// Letters, digits and single `_` for what stands between them.
fn words(text: &str) -> String {
    let parts = text.split(|sign: char| !sign.is_ascii_alphanumeric() && sign != '_').filter(|part| !part.is_empty());
    parts.collect::<Vec<_>>().join("_")
}

fn last(path: &str, count: usize) -> String {
    let parts: Vec<&str> = path.split("::").collect();
    words(&parts[parts.len().saturating_sub(count)..].join("_"))
}

/// A name's words, each path cut to its last part, and the first to its last two where it is a function's.
fn short(name: &str, function: bool) -> String {
    let mut out: Vec<String> = Vec::new();
    let mut rest = name;
    while let Some(sign) = rest.chars().next() {
        let path = rest.find(|sign: char| !sign.is_ascii_alphanumeric() && !"_:+".contains(sign)).unwrap_or(rest.len());
        let (word, length) = match sign {
            '&' if rest.starts_with("&mut ") => ("mut".to_string(), 5),
            '&' => ("ref".to_string(), 1),
            '(' if rest.starts_with("()") => ("unit".to_string(), 2),
            '(' => ("tuple".to_string(), 1),
            '[' if is_slice(rest) => ("slice".to_string(), 1),
            _ if path == 0 => (String::new(), sign.len_utf8()),
            _ => (last(&rest[..path], if function && out.is_empty() { 2 } else { 1 }), path),
        };
        out.push(word);
        rest = &rest[length..];
    }
    out.retain(|word| !word.is_empty());
    out.join("_")
}

/// Whether the bracket that begins this text holds no length.
fn is_slice(text: &str) -> bool {
    let mut depth = 0;
    for sign in text.chars() {
        match sign {
            '[' => depth += 1,
            ']' if depth == 1 => return true,
            ']' => depth -= 1,
            ';' if depth == 1 => return false,
            _ => {}
        }
    }
    true
}

fn cut(words: String, name: &str) -> String {
    match PREFIX.len() + words.len() <= LONGEST {
        true => words,
        false => format!("{}_{}", &words[..LONGEST - PREFIX.len() - 9], number(name)),
    }
}

/// The C name of each function and each type, without the prefix.
pub fn names(program: &Program) -> BTreeMap<String, String> {
    let functions = program.functions.keys().map(|name| (name, true));
    let all: Vec<_> = functions.chain(program.declared.keys().map(|name| (name, false))).collect();
    let plain = |name: &str| if name.contains(['<', '(']) { None } else { Some(words(&name.replace("::", "_"))) };
    let first = |name: &str, function| cut(plain(name).unwrap_or_else(|| short(name, function)), name);
    let mut times: BTreeMap<String, usize> = BTreeMap::new();
    for (name, function) in &all {
        *times.entry(first(name, *function)).or_default() += 1;
    }
    let named = all.into_iter().map(|(name, function)| {
        let word = first(name, function);
        let shared = times[&word] > 1 && plain(name).is_none();
        (name.to_string(), if shared { cut(format!("{word}_{}", number(name)), name) } else { word })
    });
    named.collect()
}
