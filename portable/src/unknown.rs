//! What is not known, and where: nothing is skipped or guessed, so each such thing ends the translation.

#[derive(Debug, PartialEq, Eq)]
pub struct Unknown {
    /// The function that it stands in.
    pub function: Option<String>,
    /// The byte of the text.
    pub at: usize,
    pub what: String,
}

pub type Answer<T> = Result<T, Unknown>;

pub fn unknown<T>(at: usize, what: impl Into<String>) -> Answer<T> {
    Err(Unknown { function: None, at, what: what.into() })
}

impl Unknown {
    /// Within this function, if none is named yet.
    pub fn within(mut self, function: &str) -> Unknown {
        self.function.get_or_insert_with(|| function.to_string());
        self
    }

    /// In one line, with the line and the column of the text.
    pub fn said(&self, file: &str, text: &str) -> String {
        let before = &text.as_bytes()[..self.at.min(text.len())];
        let line = before.iter().filter(|&&byte| byte == b'\n').count() + 1;
        let column = before.iter().rev().take_while(|&&byte| byte != b'\n').count() + 1;
        let function = self.function.as_ref().map_or(String::new(), |name| format!("function {name}: "));
        format!("{file}:{line}:{column}: {function}not known: {}", self.what)
    }
}
