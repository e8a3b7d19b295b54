//! The window of an accepted 2M request: from the request to one tick beyond Rd + dd, and how it ends.

use second::judge::Judgement;
use second::messages::{End, Message};
use second::settings::Class;

use crate::tag::Tag;

#[derive(Clone, Debug, PartialEq, Eq)]
pub struct Window {
    pub line: usize,
    pub tag: Tag,
    pub sender: usize,
    pub receivers: Vec<usize>,
    pub from: u64,
    /// The tick just after which it is judged.
    pub until: u64,
    pub end: End,
    /// Where receivers differ: the rule that the history breaks, if it breaks one.
    pub excuse: Option<String>,
}

impl Window {
    /// How it ended, and what is to be known where receivers differ.
    pub fn word(&self) -> String {
        match (self.end, &self.excuse) {
            (End::Differs, Some(rule)) => format!("differs: {rule} broken"),
            (End::Differs, None) => "differs, though no rule is broken".to_string(),
            (end, _) => end.word().to_string(),
        }
    }
}

/// The windows in the order of their requests.
pub fn windows(judgement: &Judgement) -> Vec<Window> {
    let two_message = |(_, (_, message)): &(usize, &(usize, Message))| message.settings.class == Class::TwoMessage;
    let numbered = judgement.messages.iter().enumerate().filter(two_message);
    numbered.map(|(number, (line, message))| window(judgement, number, *line, message)).collect()
}

fn window(judgement: &Judgement, number: usize, line: usize, message: &Message) -> Window {
    Window {
        line,
        tag: Tag::message(message.settings.stream.0, &message.payload),
        sender: message.sender,
        receivers: message.receivers.iter().map(|receiver| receiver.module).collect(),
        from: message.requested,
        until: message.moment(),
        end: message.end(),
        excuse: judgement.excuse(number).map(|finding| finding.rule()),
    }
}
