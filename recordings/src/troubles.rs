//! What is wrong with a log or a recording, and how much of it is named.

use std::fmt::Display;

use second::pairs::NAMED_MOST;

/// The first of what was found, in words, and how often there was something.
#[derive(Clone, Debug, Default, PartialEq, Eq)]
pub struct Troubles {
    named: Vec<String>,
    count: usize,
}

impl Troubles {
    pub fn push(&mut self, says: impl Display) {
        if self.named.len() < NAMED_MOST {
            self.named.push(says.to_string());
        }
        self.count += 1;
    }

    pub fn is_empty(&self) -> bool {
        self.count == 0
    }

    /// A line for each, with the name of what they are found in.
    pub fn lines(&self, name: &str) -> Vec<String> {
        let mut lines: Vec<String> = self.named.iter().map(|says| format!("{name}: {says}")).collect();
        if self.count > self.named.len() {
            lines.push(format!("{name}: and {} more", self.count - self.named.len()));
        }
        lines
    }
}
