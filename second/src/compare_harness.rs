//! Random bench histories against a program that speaks the text format of `harness`, with demand 3 checked on what
//! that program answers.

use std::time::{Duration, Instant};

use crate::demand::{alone, check_alone, check_messages, check_order, Failure, Looked, Told};
use crate::difference::Difference;
use crate::fault::Fault;
use crate::harness::{write_line, write_script};
use crate::history::{Event, Hearers, Line};
use crate::history_counts::HistoryCounts;
use crate::ident::Stream;
use crate::program::Program;
use crate::random::Random;
use crate::random_histories::{history, two_message_streams, Made, Making};
use crate::rules::Verdict;
use crate::shrink::shrink;
use crate::told::{answers, is_answered, judged, leave_out, told};

/// How many lines are put to the program at once.
const BATCH: usize = 40_000;
const PROGRAM_LIMIT: Duration = Duration::from_secs(240);
const SHRINK_LIMIT: Duration = Duration::from_secs(60);
/// How long the program may take for a script while it is being shrunk.
const TRY_LIMIT: Duration = Duration::from_secs(10);
/// In so many streams of a history is other traffic taken out.
const ALONE_MOST: usize = 2;

pub struct Options {
    pub program: Program,
    pub seed: u64,
    pub histories: u64,
    pub edges: bool,
}

/// A history with the histories that are left when other traffic is taken out.
struct Item {
    made: Made,
    alone: Vec<(Stream, Vec<Line>)>,
}

impl Item {
    fn scripts(&self) -> impl Iterator<Item = &Vec<Line>> {
        std::iter::once(&self.made.lines).chain(self.alone.iter().map(|(_, lines)| lines))
    }
}

fn make_batch(options: &Options, number: &mut u64) -> Vec<Item> {
    let mut items = Vec::new();
    let mut lines = 0;
    while lines < BATCH && *number < options.histories {
        let mut random = Random::of(options.seed, *number);
        *number += 1;
        let making = Making { fault: Fault::None, sinful: true, noise: true, edges: options.edges };
        let made = history(&mut random, making);
        let mut streams = if made.verdict.keeps() { two_message_streams(&made.told) } else { Vec::new() };
        random.shuffle(&mut streams);
        streams.truncate(ALONE_MOST);
        let alone = streams.into_iter().map(|stream| (stream, alone(&made.lines, &made.told, stream))).collect();
        let item = Item { made, alone };
        lines += item.scripts().map(Vec::len).sum::<usize>();
        items.push(item);
    }
    items
}

/// What was found wrong in a batch.
#[derive(Default)]
struct Wrong {
    /// The scripts up to the one with a wrong answer.
    answer: Option<Vec<Vec<Line>>>,
    /// A history in which demand 3 fails, and how.
    demand: Option<(Vec<Line>, Failure)>,
}

/// Compares, prints what occurred, and says whether there was no difference and demand 3 held.
pub fn compare(options: &Options) -> Result<bool, String> {
    let start = Instant::now();
    println!("compare harness: seed {}, {} histories", options.seed, options.histories);
    let mut counts = HistoryCounts::default();
    let mut number = 0;
    let mut batch = make_batch(options, &mut number);
    while !batch.is_empty() {
        let text: Vec<u8> = batch.iter().flat_map(Item::scripts).flat_map(|lines| write_script(lines)).collect();
        let running = options.program.start(text)?;
        // While the program works, the answers due, and the next batch.
        let due: Vec<Vec<String>> =
            batch.iter().flat_map(Item::scripts).map(|lines| answers(lines, Fault::None)).collect();
        let next = make_batch(options, &mut number);
        let given = running.finish(PROGRAM_LIMIT);
        if let Some(wrong) = check_batch(&batch, &due, &given.lines, &mut counts) {
            report(options, wrong);
            return Ok(false);
        }
        if let Some(trouble) = given.trouble {
            println!("compare harness: every answer was right, but {trouble}");
            return Ok(false);
        }
        batch = next;
    }
    println!(
        "compare harness: {} histories in {} lines, no difference, demand 3 held, {:.1} s",
        counts.histories,
        counts.lines,
        start.elapsed().as_secs_f64()
    );
    print!("{counts}");
    let missing = counts.missing();
    for what in &missing {
        println!("compare harness: not covered: {what}");
    }
    Ok(missing.is_empty())
}

fn check_batch(batch: &[Item], due: &[Vec<String>], given: &[String], counts: &mut HistoryCounts) -> Option<Wrong> {
    let mut due = due.iter();
    let mut rest = given;
    let mut passed: Vec<Vec<Line>> = Vec::new();
    for item in batch {
        let mut wrong = Wrong::default();
        let mut tellings: Vec<Option<Told>> = Vec::new();
        for lines in item.scripts() {
            passed.push(lines.clone());
            let due = due.next()?;
            let (now, later) = rest.split_at(due.len().min(rest.len()));
            rest = later;
            tellings.push(told(lines, now, Fault::None));
            if now != due.as_slice() && wrong.answer.is_none() {
                wrong.answer = Some(passed.clone());
            }
        }
        counts.count(&item.made);
        if let Some(whole) = &tellings[0] {
            let failure = check_whole(&item.made, whole, counts).or_else(|| {
                item.alone.iter().zip(&tellings[1..]).find_map(|((stream, _), alone)| {
                    counts.alone += 1;
                    check_alone(whole, alone.as_ref()?, *stream)
                })
            });
            wrong.demand = failure.map(|failure| (item.made.lines.clone(), failure));
        }
        if wrong.answer.is_some() || wrong.demand.is_some() {
            return Some(wrong);
        }
    }
    (!rest.is_empty()).then_some(Wrong { answer: Some(passed), demand: None })
}

fn check_whole(made: &Made, whole: &Told, counts: &mut HistoryCounts) -> Option<Failure> {
    check_demand(whole, &made.verdict, &mut counts.looked).into_iter().next()
}

/// All or none, all if full, and same order, as far as the verdict lets them be judged.
pub fn check_demand(told: &Told, verdict: &Verdict, looked: &mut Looked) -> Vec<Failure> {
    let mut failures = check_messages(told, |message| verdict.spares(message), looked);
    if verdict.keeps() {
        failures.extend(check_order(told, looked));
    }
    failures
}

fn difference(program: &Program, lines: &[Line]) -> Option<Difference> {
    let given = program.answers(write_script(lines), TRY_LIMIT).ok()?;
    let answered = lines.iter().filter(|line| is_answered(line)).map(write_line).collect();
    Difference::between(answered, answers(lines, Fault::None), given)
}

fn report(options: &Options, wrong: Wrong) {
    if let Some(scripts) = wrong.answer {
        report_difference(&options.program, &scripts);
    }
    if let Some((lines, failure)) = wrong.demand {
        report_demand(&options.program, lines, &failure);
    }
}

fn report_difference(program: &Program, scripts: &[Vec<Line>]) {
    println!("compare harness: a difference in script {} of its batch", scripts.len() - 1);
    let fails = |lines: &[Line]| difference(program, lines).is_some();
    let without = |lines: &[Line], kept: &[bool]| leave_out(lines, kept, Fault::None);
    let last = scripts[scripts.len() - 1].clone();
    // Mostly the last script shows it alone; else something of the ones before it matters.
    let short = if fails(&last) {
        shrink(last, SHRINK_LIMIT, without, simpler, fails)
    } else {
        shrink(scripts.concat(), SHRINK_LIMIT, crate::shrink::leave_out, simpler, fails)
    };
    match difference(program, &short) {
        None => println!("compare harness: it can't be shown again"),
        Some(difference) => difference.print(),
    }
}

fn report_demand(program: &Program, lines: Vec<Line>, failure: &Failure) {
    println!("compare harness: demand 3 fails: {failure}");
    let without = |lines: &[Line], kept: &[bool]| leave_out(lines, kept, Fault::None);
    let fails = |lines: &[Line]| demand_fails(program, lines).is_some();
    let short = shrink(lines, SHRINK_LIMIT, without, simpler, fails);
    let Some((given, failure)) = demand_fails(program, &short) else {
        return println!("compare harness: it can't be shown again");
    };
    println!("a short history that keeps the rules and shows it:");
    print_told(&short, &given);
    println!("    {failure}");
}

/// The program's answers to a script that keeps the rules, and how they break demand 3.
fn demand_fails(program: &Program, lines: &[Line]) -> Option<(Vec<String>, Failure)> {
    let given = |lines: &[Line]| Some(program.answers(write_script(lines), TRY_LIMIT).ok()?.lines);
    let verdict = judged(lines, Fault::None);
    if !verdict.keeps() {
        return None;
    }
    let given_whole = given(lines)?;
    let whole = told(lines, &given_whole, Fault::None)?;
    let failure = check_demand(&whole, &verdict, &mut Looked::default()).into_iter().next();
    let failure = failure.or_else(|| {
        two_message_streams(&whole).into_iter().find_map(|stream| {
            let rest = alone(lines, &whole, stream);
            check_alone(&whole, &told(&rest, &given(&rest)?, Fault::None)?, stream)
        })
    });
    failure.map(|failure| (given_whole, failure))
}

pub fn print_told(lines: &[Line], answers: &[String]) {
    let answered = lines.iter().filter(|line| is_answered(line));
    for (line, answer) in answered.zip(answers) {
        println!("    {}    -> {answer}", String::from_utf8_lossy(&write_line(line)));
    }
}

/// Simpler forms of a line: fewer ticks, fewer names, no payload.
pub fn simpler(line: &Line) -> Vec<Line> {
    let forms = match line {
        Line::Event(Event::Ticks(1)) => vec![Event::Tick],
        Line::Event(Event::Ticks(number)) if *number > 0 => vec![Event::Ticks(number / 2), Event::Ticks(number - 1)],
        Line::Event(Event::Send { frame, hearers: Hearers::Short(names) }) => (0..names.len())
            .map(|at| {
                let mut fewer = names.clone();
                fewer.remove(at);
                Event::Send { frame: *frame, hearers: Hearers::Short(fewer) }
            })
            .collect(),
        Line::Event(Event::Request { module, stream, payload }) if !payload.is_empty() => {
            vec![Event::Request { module: *module, stream: *stream, payload: Vec::new() }]
        }
        _ => Vec::new(),
    };
    forms.into_iter().map(Line::Event).collect()
}
