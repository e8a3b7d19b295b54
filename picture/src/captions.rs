//! What a history says of itself in comments: a title, names for its modules, and notes.

use second::words::number;

#[derive(Clone, Debug, PartialEq, Eq)]
pub enum Caption {
    /// `# title: TEXT`
    Title(String),
    /// `# module M: NAME`
    Name { module: usize, name: String },
    /// `# note: TEXT`, said of what comes next
    Note(String),
}

/// The caption in a line that the harness skips; none if it is any other comment.
pub fn read(line: &[u8]) -> Option<Caption> {
    let line = String::from_utf8_lossy(line);
    let (head, text) = line.strip_prefix("# ")?.split_once(": ")?;
    let text = text.trim().to_string();
    match head.split(' ').collect::<Vec<&str>>().as_slice() {
        _ if text.is_empty() => None,
        ["title"] => Some(Caption::Title(text)),
        ["note"] => Some(Caption::Note(text)),
        ["module", module] => {
            Some(Caption::Name { module: usize::try_from(number(module.as_bytes(), 7)?).ok()?, name: text })
        }
        _ => None,
    }
}

#[cfg(test)]
mod tests {
    use super::*;

    #[test]
    fn captions_and_other_comments() {
        assert_eq!(read(b"# title: A day"), Some(Caption::Title("A day".to_string())));
        assert_eq!(read(b"# module 3: store B"), Some(Caption::Name { module: 3, name: "store B".to_string() }));
        assert_eq!(read(b"# note: one: two"), Some(Caption::Note("one: two".to_string())));
        for other in [&b""[..], b"#", b"# title:", b"# title: ", b"# module 8: x", b"# module: x", b"# the note: x"] {
            assert_eq!(read(other), None);
        }
    }
}
