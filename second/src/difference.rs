//! Where the answers of a program and of this implementation differ, and how that is printed.

use std::time::Duration;

use crate::program::{Answers, Program};
use crate::shrink::{leave_out, shrink};

const SHRINK_LIMIT: Duration = Duration::from_secs(60);
/// How long the program may take for a script while it is being shrunk.
const TRY_LIMIT: Duration = Duration::from_secs(10);

/// The lines of a script, each with its end.
pub fn text(script: &[Vec<u8>]) -> Vec<u8> {
    let mut text = Vec::new();
    for line in script {
        text.extend(line);
        text.push(b'\n');
    }
    text
}

/// Both answers to each line, and what else went wrong.
pub struct Difference {
    pairs: Vec<(Vec<u8>, String, String)>,
    surplus: usize,
    trouble: Option<String>,
}

impl Difference {
    /// The difference between the answers due to these lines and those given, if there is one.
    pub fn between(lines: Vec<Vec<u8>>, due: Vec<String>, given: Answers) -> Option<Difference> {
        if due == given.lines && given.trouble.is_none() {
            return None;
        }
        let surplus = given.lines.len().saturating_sub(due.len());
        let given_lines = given.lines.into_iter().map(Some).chain(std::iter::repeat(None));
        let pairs = lines
            .into_iter()
            .zip(due)
            .zip(given_lines)
            .map(|((line, due), given)| (line, due, given.unwrap_or_else(|| "(no answer)".to_string())))
            .collect();
        Some(Difference { pairs, surplus, trouble: given.trouble })
    }

    pub fn print(&self) {
        println!("a short script that shows it:");
        for (line, due, given) in &self.pairs {
            let line = String::from_utf8_lossy(line);
            if due == given {
                println!("    {line}    -> {due}");
            } else {
                println!("    {line}\n        second:  {due}\n        program: {given}");
            }
        }
        if self.surplus > 0 {
            println!("    and {} more answers than lines", self.surplus);
        }
        if let Some(trouble) = &self.trouble {
            println!("    and {trouble}");
        }
    }
}

/// The number of the first script whose answers are not those due; the last one if there are answers left over.
pub fn first_difference<'a>(due: impl Iterator<Item = &'a Vec<String>>, given: &[String]) -> Option<usize> {
    let mut given = given.iter();
    let mut scripts = 0;
    for due in due {
        if due.iter().any(|answer| given.next() != Some(answer)) {
            return Some(scripts);
        }
        scripts += 1;
    }
    given.next().and(scripts.checked_sub(1))
}

/// Prints the shortest script found that shows the difference in the last of these scripts. `due` gives the answers due
/// to the lines of a script, none to a line that is skipped, and `simpler` gives simpler forms of a line.
pub fn report(
    who: &str,
    program: &Program,
    scripts: &[Vec<Vec<u8>>],
    due: impl Fn(&[Vec<u8>]) -> Vec<Option<String>>,
    simpler: impl Fn(&Vec<u8>) -> Vec<Vec<u8>>,
) {
    println!("{who}: a difference in script {} of its batch", scripts.len() - 1);
    let difference = |script: &[Vec<u8>]| {
        let given = program.answers(text(script), TRY_LIMIT).ok()?;
        let answered = script.iter().cloned().zip(due(script)).filter_map(|(line, due)| Some((line, due?)));
        let (lines, due) = answered.unzip();
        Difference::between(lines, due, given)
    };
    let fails = |script: &[Vec<u8>]| difference(script).is_some();
    // Mostly the last script shows it alone; else something of the ones before it matters.
    let last = scripts[scripts.len() - 1].clone();
    let found = if fails(&last) { last } else { scripts.concat() };
    let short = shrink(found, SHRINK_LIMIT, leave_out, simpler, fails);
    match difference(&short) {
        None => println!("{who}: it can't be shown again"),
        Some(difference) => difference.print(),
    }
}
