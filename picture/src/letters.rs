//! How wide texts are, and how they are broken into lines. No font is asked, so these are widths that are enough.

/// The size of letters where nothing else is said.
pub const LETTER: i32 = 14;

/// The hundredths of its size that a letter takes: in letters of equal width, in words and names, in bold, and on the
/// average of a longer text.
const MONO: i32 = 61;
const WORD: i32 = 58;
const BOLD: i32 = 68;
const PROSE: i32 = 52;

fn width(text: &str, size: i32, hundredths: i32) -> i32 {
    (text.chars().count() as i32 * size * hundredths + 99) / 100
}

pub fn width_of_mono(text: &str, size: i32) -> i32 {
    width(text, size, MONO)
}

pub fn width_of(text: &str, size: i32) -> i32 {
    width(text, size, WORD)
}

pub fn width_of_bold(text: &str, size: i32) -> i32 {
    width(text, size, BOLD)
}

pub fn width_of_prose(text: &str, size: i32) -> i32 {
    width(text, size, PROSE)
}

/// A text in lines that fit into a width.
pub fn wrapped(text: &str, width: i32, size: i32) -> Vec<String> {
    let mut lines: Vec<String> = Vec::new();
    for word in text.split_whitespace() {
        match lines.last_mut() {
            Some(line) if width_of_prose(line, size) + width_of_prose(word, size) + size <= width => {
                line.push(' ');
                line.push_str(word);
            }
            _ => lines.push(word.to_string()),
        }
    }
    lines
}

/// A name that is no longer than so many letters.
pub fn cut(name: &str, most: usize) -> String {
    if name.chars().count() <= most {
        return name.to_string();
    }
    name.chars().take(most - 1).chain(['…']).collect()
}
