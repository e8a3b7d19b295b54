//! Every mutant of this implementation against the faultless one, by the same comparisons: calls, histories, demand 3.

use std::sync::atomic::{AtomicUsize, Ordering};
use std::sync::Mutex;
use std::thread;
use std::time::Instant;

use crate::calls::Calls;
use crate::compare_calls::is_call;
use crate::compare_harness::check_demand;
use crate::demand::{alone, check_alone, Looked, Part};
use crate::fault::Fault;
use crate::harness::{write_line, Harness};
use crate::limits::{Limit, Off};
use crate::random::Random;
use crate::random_calls;
use crate::random_histories::{history, two_message_streams, Making};
use crate::told::{answers, told};

/// How far each mutant is put to the comparisons.
pub struct Options {
    pub seed: u64,
    pub calls: u64,
    pub histories: u64,
}

/// How many times as far a mutant is put that was not caught so far.
const FURTHER: u64 = 5;

/// The mutant that can't be told from the faultless one: dc is from Rd to 8,000, so that Rd above 8,000 is refused
/// by dc's limit too.
pub const EQUAL: Fault = Fault::Limit(Limit::TwoRdMost, Off::Higher);

/// The mutants that demand 3 itself has to catch, each by one of its parts: first of all dd one lower than allowed.
const WITNESSES: [(Fault, Part); 4] = [
    (Fault::Limit(Limit::TwoDdOver, Off::Lower), Part::AllOrNone),
    (Fault::ConfirmNotStrict, Part::AllIfFull),
    (Fault::TickDeliversOne, Part::OtherTraffic),
    (Fault::SlotOrder, Part::SameOrder),
];

/// The part of demand 3 that has to catch a mutant.
fn witness_of(fault: Fault) -> Option<Part> {
    WITNESSES.iter().find(|(witness, _)| *witness == fault).map(|(_, part)| *part)
}

/// Lines with the answers due.
type Script = Vec<(Vec<u8>, Option<String>)>;

/// The scripts that every mutant is put to.
struct Stock {
    calls: Vec<Script>,
    histories: Vec<Script>,
}

impl Stock {
    /// The scripts of one stretch: each stretch is as long as the first and made of other scripts.
    fn make(options: &Options, stretch: u64) -> Stock {
        let mut second = Calls::new(Fault::None);
        let mut calls = Vec::new();
        let (mut number, mut count) = (stretch << 32, 0);
        while count < options.calls {
            let making = random_calls::Making::default();
            let lines = random_calls::script(&mut Random::of(options.seed, number), making);
            let mut script = Script::new();
            for line in lines {
                let answer = second.answer(&line);
                count += u64::from(is_call(&line, &answer));
                script.push((line, Some(answer)));
            }
            calls.push(script);
            number += 1;
        }
        let first = stretch * options.histories;
        let histories = (first..first + options.histories).map(|number| {
            let making = Making { fault: Fault::None, sinful: true, noise: true, edges: false };
            let made = history(&mut Random::of(options.seed, number), making);
            let mut harness = Harness::new(Fault::None);
            made.lines
                .iter()
                .map(|line| {
                    let text = write_line(line);
                    let answer = harness.answer(&text);
                    (text, answer)
                })
                .collect()
        });
        Stock { calls, histories: histories.collect() }
    }
}

/// After how much each comparison caught a mutant.
#[derive(Clone, Copy, Debug)]
struct Row {
    fault: Fault,
    calls: Option<u64>,
    histories: Option<u64>,
    demand: Option<(u64, Part)>,
}

impl Row {
    fn caught(&self) -> bool {
        self.calls.is_some() || self.histories.is_some() || self.demand.is_some()
    }
}

fn caught_by_calls(fault: Fault, stock: &Stock) -> Option<u64> {
    let mut mutant = Calls::new(fault);
    let mut calls = 0;
    for (line, due) in stock.calls.iter().flatten() {
        let answer = mutant.answer(line);
        calls += u64::from(is_call(line, &answer));
        if due.as_ref() != Some(&answer) {
            return Some(calls);
        }
    }
    None
}

fn caught_by_histories(fault: Fault, stock: &Stock) -> Option<u64> {
    let wrong = |script: &Script| {
        let mut mutant = Harness::new(fault);
        script.iter().any(|(line, due)| mutant.answer(line) != *due)
    };
    stock.histories.iter().position(wrong).map(|at| at as u64 + 1)
}

/// Demand 3 on histories that keep the rules as the mutant's own bench runs them. A witness is caught by its part only.
fn caught_by_demand(fault: Fault, options: &Options, stretch: u64) -> Option<(u64, Part)> {
    let first = stretch * options.histories;
    for number in first..first + options.histories {
        let mut random = Random::of(options.seed ^ 0xd3, number);
        let making = Making { fault, sinful: false, noise: false, edges: false };
        let made = history(&mut random, making);
        let mut failures = check_demand(&made.told, &made.verdict, &mut Looked::default());
        if made.verdict.keeps() {
            for stream in two_message_streams(&made.told) {
                let lines = alone(&made.lines, &made.told, stream);
                let telling = told(&lines, &answers(&lines, fault), fault);
                failures.extend(telling.and_then(|telling| check_alone(&made.told, &telling, stream)));
            }
        }
        let wanted = |part: Part| witness_of(fault).is_none_or(|wanted| wanted == part);
        if let Some(failure) = failures.iter().find(|failure| wanted(failure.part)) {
            return Some((number + 1, failure.part));
        }
    }
    None
}

/// Puts a mutant to all comparisons, and to more of the same if none of them catches it.
fn put(fault: Fault, options: &Options, stock: &Stock) -> Row {
    let mut row = Row {
        fault,
        calls: caught_by_calls(fault, stock),
        histories: caught_by_histories(fault, stock),
        demand: caught_by_demand(fault, options, 0),
    };
    for stretch in 1..FURTHER {
        if !row.caught() && fault != EQUAL {
            let stock = Stock::make(options, stretch);
            row.calls = caught_by_calls(fault, &stock).map(|calls| calls + stretch * options.calls);
            row.histories = caught_by_histories(fault, &stock).map(|number| number + stretch * options.histories);
        }
        if row.demand.is_none() && witness_of(fault).is_some() {
            row.demand = caught_by_demand(fault, options, stretch);
        }
    }
    row
}

/// Runs every mutant, prints the table, and says whether each was caught.
pub fn run(options: &Options) -> bool {
    let start = Instant::now();
    println!(
        "mutants: seed {}, each put to {} calls and {} histories ({FURTHER} times as many if not caught by then)",
        options.seed, options.calls, options.histories
    );
    let stock = Stock::make(options, 0);
    let faults = Fault::all();
    let next = AtomicUsize::new(0);
    let rows: Mutex<Vec<Row>> = Mutex::new(Vec::new());
    let threads = thread::available_parallelism().map_or(1, usize::from).min(4);
    thread::scope(|scope| {
        for _ in 0..threads {
            scope.spawn(|| {
                while let Some(&fault) = faults.get(next.fetch_add(1, Ordering::Relaxed)) {
                    let row = put(fault, options, &stock);
                    if let Ok(mut rows) = rows.lock() {
                        rows.push(row);
                    }
                }
            });
        }
    });
    let mut rows = rows.into_inner().unwrap_or_default();
    rows.sort_by_key(|row| faults.iter().position(|fault| *fault == row.fault));
    let passed = print_table(&rows) && rows.len() == faults.len();
    println!("mutants: {:.1} s", start.elapsed().as_secs_f64());
    passed
}

fn print_table(rows: &[Row]) -> bool {
    let after = |count: Option<u64>| count.map_or("-".to_string(), |count| count.to_string());
    println!("{:<26} {:>9} {:>9}  {:<22} what is wrong", "mutant", "calls", "histories", "demand 3");
    for row in rows {
        let demand = row.demand.map_or("-".to_string(), |(count, part)| format!("{count} {}", part.name()));
        let name = row.fault.name();
        println!("{name:<26} {:>9} {:>9}  {demand:<22} {}", after(row.calls), after(row.histories), row.fault.says());
    }
    let mut passed = true;
    let mut fail = |says: String| {
        println!("mutants: {says}");
        passed = false;
    };
    for row in rows {
        if row.fault == EQUAL && row.caught() {
            fail(format!("{} was thought to be equal to the faultless one", row.fault.name()));
        }
        if row.fault != EQUAL && !row.caught() {
            fail(format!("{} was not caught", row.fault.name()));
        }
        if let (Some(part), None) = (witness_of(row.fault), row.demand) {
            fail(format!("{} was not caught by demand 3: {}", row.fault.name(), part.name()));
        }
    }
    let caught = rows.iter().filter(|row| row.caught()).count();
    println!(
        "mutants: {} of {} caught; {} can't be told from the faultless one, since dc is from Rd to 8,000",
        caught,
        rows.len(),
        EQUAL.name()
    );
    passed
}
