//! Random lines of `sheet` against a program, and every wrong sheet against the faultless one.

use std::time::{Duration, Instant};

use crate::difference::{first_difference, text, Difference};
use crate::program::Program;
use crate::random::Random;
use crate::random_sheets::random_line;
use crate::response::{Wrong, WRONGS};
use crate::sheet::answer;

/// How many lines are put to the program at once.
const BATCH: u64 = 5_000;
const PROGRAM_LIMIT: Duration = Duration::from_secs(120);

pub struct Options {
    pub program: Program,
    pub seed: u64,
    pub sheets: u64,
}

fn lines(seed: u64, first: u64, count: u64) -> Vec<Vec<u8>> {
    (first..first + count).map(|number| random_line(&mut Random::of(seed ^ 0x5ee7, number))).collect()
}

/// What the answers were, so that none is missing.
#[derive(Default)]
struct Seen {
    answers: u64,
    unread: u64,
    replies: [u64; 15],
    late: [u64; 3],
    full_lists: u64,
}

impl Seen {
    fn take(&mut self, line: &[u8], answer: &str) {
        self.answers += 1;
        let words: Vec<&str> = answer.split(' ').collect();
        let (Ok(reply), Some(position)) = (words[0].parse::<usize>(), words.get(1)) else {
            self.unread += 1;
            return;
        };
        self.replies[reply] += 1;
        let records = (line.split(|byte| *byte == b' ').count() - 5) / 4;
        if reply == 14 {
            let place = match position.parse::<usize>() {
                Ok(0) => 0,
                Ok(at) if at + 1 == records => 2,
                _ => 1,
            };
            self.late[place] += 1;
        }
        self.full_lists += u64::from(reply == 0 && records == 64);
    }

    fn missing(&self) -> bool {
        let counts =
            [self.unread, self.replies[0], self.replies[11], self.replies[13], self.replies[14], self.full_lists];
        counts.iter().chain(&self.late).any(|count| *count == 0)
    }

    fn print(&self) {
        println!(
            "compare sheet: done {} (of 64 streams {}), short {}, bad {}, late {} (first {}, in between {}, last {}), unread {}",
            self.replies[0],
            self.full_lists,
            self.replies[11],
            self.replies[13],
            self.replies[14],
            self.late[0],
            self.late[1],
            self.late[2],
            self.unread
        );
    }
}

/// Compares, prints what occurred, and says whether there was no difference.
pub fn compare(options: &Options) -> Result<bool, String> {
    let start = Instant::now();
    println!("compare sheet: seed {}, {} sheets", options.seed, options.sheets);
    let mut seen = Seen::default();
    while seen.answers < options.sheets {
        let batch = lines(options.seed, seen.answers, BATCH.min(options.sheets - seen.answers));
        let running = options.program.start(text(&batch))?;
        let due: Vec<Vec<String>> = batch.iter().map(|line| vec![answer(line, Wrong::Nothing)]).collect();
        let given = running.finish(PROGRAM_LIMIT);
        if let Some(at) = first_difference(due.iter(), &given.lines) {
            let line = batch[at].clone();
            let again = options.program.answers(text(std::slice::from_ref(&line)), PROGRAM_LIMIT)?;
            match Difference::between(vec![line], due[at].clone(), again) {
                Some(difference) => difference.print(),
                None => println!("compare sheet: it can't be shown by its line alone"),
            }
            return Ok(false);
        }
        if let Some(trouble) = given.trouble {
            println!("compare sheet: every answer was right, but {trouble}");
            return Ok(false);
        }
        for (line, due) in batch.iter().zip(&due) {
            seen.take(line, &due[0]);
        }
    }
    seen.print();
    if seen.missing() {
        println!("compare sheet: an answer of some kind is missing");
    }
    println!("compare sheet: {} lines, no difference, {:.1} s", seen.answers, start.elapsed().as_secs_f64());
    Ok(!seen.missing())
}

/// Puts every wrong sheet to so many lines, prints after how many it was caught, and says whether each was.
pub fn mutants(seed: u64, sheets: u64) -> bool {
    let batch = lines(seed, 0, sheets);
    let due: Vec<String> = batch.iter().map(|line| answer(line, Wrong::Nothing)).collect();
    let mut all = true;
    for (wrong, name, says) in WRONGS {
        let caught = batch.iter().zip(&due).position(|(line, due)| answer(line, *wrong) != *due);
        let after = caught.map_or("-".to_string(), |at| (at + 1).to_string());
        println!("{name:<24} {after:>6}  {says}");
        all &= caught.is_some();
    }
    println!("sheet mutants: {}", if all { "all caught" } else { "not all caught" });
    all
}
