//! A history with its captions, and the harness's answers to its lines, in the order of the file.

use second::harness::skipped;
use second::pairs::{self, Pair};

use crate::captions::{self, Caption};

/// A caption, or a line and what it was answered.
#[derive(Clone, Debug, PartialEq, Eq)]
pub enum What {
    Caption(Caption),
    Answered(pairs::What),
}

#[derive(Clone, Debug, PartialEq, Eq)]
pub struct Told {
    /// The number of the line in the file, from 1.
    pub line: usize,
    pub what: What,
}

/// The lines of a history that are answered, and of those that are skipped the captions.
pub fn with_captions(history: &[u8], answered: Vec<Pair>) -> Vec<Told> {
    let captions = history.split(|byte| *byte == b'\n').enumerate().filter(|(_, text)| skipped(text));
    let captions = captions.filter_map(|(at, text)| Some((at + 1, captions::read(text)?)));
    let mut told: Vec<Told> = captions.map(|(line, caption)| Told { line, what: What::Caption(caption) }).collect();
    told.extend(answered.into_iter().map(|pair| Told { line: pair.line, what: What::Answered(pair.what) }));
    told.sort_by_key(|told| told.line);
    told
}
