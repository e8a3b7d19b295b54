//! A history judged: whether it keeps the bench rules, where it breaks them, and what became of each message.

use std::fmt::Write;
use std::time::Duration;

use crate::compare_harness::check_demand;
use crate::demand::{Failure, Looked, Told};
use crate::fault::Fault;
use crate::findings::{findings, Finding};
use crate::harness::{skipped, Harness};
use crate::messages::{Account, End, Message, Received};
use crate::pairs::{pair, told, Pair, Trouble, What};
use crate::program::Program;
use crate::rules::Verdict;
use crate::settings::Class;
use crate::words::hex;

/// How long a program may take for a history.
const LIMIT: Duration = Duration::from_secs(600);

/// What a history keeps and breaks, by the second implementation, and its messages, by the answers.
pub struct Judgement {
    pub findings: Vec<Finding>,
    /// The messages with the lines of their requests.
    pub messages: Vec<(usize, Message)>,
    /// Where demand 3 does not hold though no rule excuses it.
    pub failures: Vec<Failure>,
}

impl Judgement {
    pub fn of(pairs: &[Pair]) -> Judgement {
        let findings = findings(pairs);
        let told: Told = told(pairs);
        let verdict = Verdict { broken: findings.iter().map(|finding| finding.broken).collect() };
        let failures = check_demand(&told, &verdict, &mut Looked::default());
        let events = pairs.iter().filter(|pair| matches!(pair.what, What::Event(..)));
        let lines: Vec<usize> = events.map(|pair| pair.line).collect();
        let messages = Account::of(&told).messages.into_iter().map(|message| (lines[message.event], message)).collect();
        Judgement { findings, messages, failures }
    }

    /// The first finding for which nothing is promised of a message.
    pub fn excuse(&self, message: usize) -> Option<&Finding> {
        self.findings.iter().find(|finding| finding.broken.bars(message))
    }

    /// Whether the rules are kept, demand 3 holds, and no message differs.
    pub fn is_good(&self) -> bool {
        let differs = |(_, message): &(usize, Message)| message.end() == End::Differs;
        self.findings.is_empty() && self.failures.is_empty() && !self.messages.iter().any(differs)
    }
}

/// What is said of a history.
#[derive(Debug)]
pub struct Said {
    pub text: String,
    pub is_good: bool,
}

/// Judges a history by the answers of a program, or of this implementation if none is named.
pub fn judge(text: &[u8], program: Option<&Program>) -> Result<Said, Vec<Trouble>> {
    let whole = |says: String| vec![Trouble::new(0, says)];
    let own = own_answers(text);
    let (answers, by) = match program {
        None => (own.clone(), "the second implementation".to_string()),
        Some(program) => {
            let answers = program.answers(text.to_vec(), LIMIT).map_err(whole)?;
            if let Some(trouble) = answers.trouble {
                return Err(whole(format!("{} failed: {trouble}", program.path.display())));
            }
            let name = program.path.file_name().unwrap_or(program.path.as_os_str());
            (answers.lines, name.to_string_lossy().to_string())
        }
    };
    let pairs = pair(text, &answers)?;
    let judgement = Judgement::of(&pairs);
    let differing = pairs.iter().zip(answers.iter().zip(&own)).find(|(_, (answer, own))| answer != own);
    let mut said = format!("rules: judged by the second implementation; deliveries: answered by {by}\n");
    if let Some((pair, (answer, own))) = &differing {
        let _ = writeln!(said, "line {}: {by} answers {answer}, and the second implementation {own}", pair.line);
    }
    write(&judgement, &mut said);
    Ok(Said { text: said, is_good: judgement.is_good() && differing.is_none() })
}

fn own_answers(text: &[u8]) -> Vec<String> {
    let mut harness = Harness::new(Fault::None);
    let lines = text.split(|byte| *byte == b'\n').filter(|line| !skipped(line));
    lines.filter_map(|line| harness.answer(line)).collect()
}

fn write(judgement: &Judgement, said: &mut String) {
    if judgement.findings.is_empty() {
        let _ = writeln!(said, "keeps the rules");
    }
    for finding in &judgement.findings {
        let _ = writeln!(said, "{finding}");
    }
    for (number, (line, message)) in judgement.messages.iter().enumerate() {
        let _ = writeln!(said, "{}", message_text(judgement, number, *line, message));
    }
    for failure in &judgement.failures {
        let _ = writeln!(said, "demand 3 fails: {failure}");
    }
}

/// `STREAM:PAYLOAD all|none|differs|open`, who delivered it and when, and what is promised of it.
fn message_text(judgement: &Judgement, number: usize, line: usize, message: &Message) -> String {
    let end = message.end();
    let receivers: Vec<String> = message.receivers.iter().map(|receiver| receiver_text(message, receiver)).collect();
    let receivers = if receivers.is_empty() { "no receiver".to_string() } else { receivers.join(", ") };
    let promise = match (message.settings.class, end, judgement.excuse(number)) {
        (Class::Plain, ..) => "; plain, nothing is promised".to_string(),
        (Class::Imd, ..) => "; IMD, all or none is not promised".to_string(),
        (Class::TwoMessage, End::Differs, Some(finding)) => {
            format!("; nothing is promised, since line {} breaks {}", finding.line, finding.rule())
        }
        _ => String::new(),
    };
    format!(
        "{}:{} {}: {receivers} (line {line}, tick {}{}{promise})",
        message.settings.stream.0,
        hex(&message.payload),
        end.word(),
        message.requested,
        moment_text(message),
    )
}

fn moment_text(message: &Message) -> String {
    match (message.settings.class, message.is_over()) {
        (Class::Plain, false) => ", not sent".to_string(),
        (Class::Plain, true) => String::new(),
        (_, false) => format!(", to be judged at {}", message.moment()),
        (_, true) => format!(", judged at {}", message.moment()),
    }
}

fn receiver_text(message: &Message, receiver: &Received) -> String {
    let other = |bytes: &[u8]| if bytes == message.payload { String::new() } else { format!(" as {}", hex(bytes)) };
    let deliveries: Vec<String> =
        receiver.delivered.iter().map(|(tick, bytes)| format!("at {tick}{}", other(bytes))).collect();
    let did = match (deliveries.is_empty(), receiver.dead, message.is_over()) {
        (false, false, _) => deliveries.join(" and "),
        (false, true, _) => format!("{} (then dead)", deliveries.join(" and ")),
        (true, true, _) => "dead".to_string(),
        (true, false, true) => "not".to_string(),
        (true, false, false) => "not yet".to_string(),
    };
    format!("{} {did}", receiver.module)
}
