//! Random scripts of `recording` and random recordings of `replay` against those programs, and every mutant against the
//! faultless implementation.

use std::time::{Duration, Instant};

use crate::difference::{first_difference, report, text};
use crate::fault::Fault;
use crate::heard::read;
use crate::limits::{Limit, Off};
use crate::program::Program;
use crate::random::Random;
use crate::random_recordings::{recording, replay_line, script};
use crate::recording::{printed, Recording, MOMENTS_STREAM};
use crate::recording_faults::{Wrong, WRONGS};
use crate::replay::Making;
use crate::words::{bytes, hex};

/// How many replays are put to the program at once.
const BATCH: u64 = 2_000;
const PROGRAM_LIMIT: Duration = Duration::from_secs(240);

type Script = Vec<Vec<u8>>;

pub struct Options {
    pub program: Program,
    pub seed: u64,
    pub replays: u64,
}

fn is_replay(line: &[u8]) -> bool {
    line.starts_with(b"replay ")
}

/// Scripts from a number on, with so many replays in all.
fn scripts(seed: u64, number: &mut u64, replays: u64) -> Vec<Script> {
    let mut made = Vec::new();
    let mut count = 0;
    while count < replays {
        let script = script(&mut Random::of(seed ^ 0x4ec0, *number));
        count += script.iter().filter(|line| is_replay(line)).count() as u64;
        *number += 1;
        made.push(script);
    }
    made
}

fn answers(script: &[Vec<u8>], second: &mut Recording) -> Vec<String> {
    script.iter().filter_map(|line| second.answer(line)).collect()
}

/// Compares `recording`, prints what occurred, and says whether there was no difference.
pub fn compare(options: &Options) -> Result<bool, String> {
    let start = Instant::now();
    println!("compare recording: seed {}, at least {} replays", options.seed, options.replays);
    let mut second = Recording::new(Making::FAULTLESS);
    let (mut number, mut replays, mut lines) = (0, 0, 0);
    while replays < options.replays {
        let batch = scripts(options.seed, &mut number, BATCH);
        let running = options.program.start(batch.iter().flat_map(|script| text(script)).collect())?;
        let due: Vec<Vec<String>> = batch.iter().map(|script| answers(script, &mut second)).collect();
        let given = running.finish(PROGRAM_LIMIT);
        if let Some(at) = first_difference(due.iter(), &given.lines) {
            let due = |script: &[Vec<u8>]| {
                let mut second = Recording::new(Making::FAULTLESS);
                script.iter().map(|line| second.answer(line)).collect()
            };
            report("compare recording", &options.program, &batch[..=at], due, |line| simpler(line));
            return Ok(false);
        }
        if let Some(trouble) = given.trouble {
            println!("compare recording: every answer was right, but {trouble}");
            return Ok(false);
        }
        lines += batch.iter().map(Vec::len).sum::<usize>();
        replays += batch.iter().flatten().filter(|line| is_replay(line)).count() as u64;
    }
    let seconds = start.elapsed().as_secs_f64();
    println!("compare recording: {replays} replays in {lines} lines, no difference, {seconds:.1} s");
    print!("{}", second.seen);
    let missing = second.seen.missing();
    for what in &missing {
        println!("compare recording: not covered: {what}");
    }
    Ok(missing.is_empty())
}

/// A replay of fewer bytes: without one of its records, or cut.
fn simpler(line: &[u8]) -> Script {
    let Some(recording) = line.strip_prefix(b"replay ").and_then(bytes) else {
        return Vec::new();
    };
    let mut forms = Vec::new();
    let mut offset = 0;
    while let Some(Ok((_, length))) = (offset < recording.len()).then(|| read(&recording[offset..])) {
        forms.push([&recording[..offset], &recording[offset + length..]].concat());
        offset += length;
    }
    if offset < recording.len() {
        forms.push(recording[..offset].to_vec());
        forms.push(recording[..recording.len() - 1].to_vec());
    }
    forms.iter().map(|recording| replay_line(recording)).collect()
}

/// A recording for the program `replay`, now and then a long one.
fn of_the_moments(seed: u64, number: u64) -> Vec<u8> {
    let mut random = Random::of(seed ^ 0x4e91, number);
    let frames = match random.below(40) {
        0 => random.from(3_000, 20_000),
        1..=3 => random.from(200, 1_000),
        4..=6 => 0,
        _ => random.from(1, 60),
    };
    recording(&mut random, &[MOMENTS_STREAM], frames)
}

/// Compares `replay`, one recording after the other, and says whether there was no difference.
pub fn compare_replay(options: &Options) -> Result<bool, String> {
    let start = Instant::now();
    println!("compare replay: seed {}, {} recordings", options.seed, options.replays);
    let (mut size, mut longest, mut deliveries, mut faults) = (0, 0, 0, [0; 3]);
    for number in 0..options.replays {
        let recording = of_the_moments(options.seed, number);
        let due = printed(&recording, Making::FAULTLESS);
        let given = options.program.answers(recording.clone(), PROGRAM_LIMIT)?;
        let due: Vec<&str> = due.lines().collect();
        if due != given.lines || given.trouble.is_some() {
            let at = due.iter().zip(&given.lines).position(|(due, given)| due != given);
            let at = at.unwrap_or(due.len().min(given.lines.len()));
            println!("compare replay: recording {number}, of {} bytes, differs in line {}", recording.len(), at + 1);
            println!("    second:  {}", due.get(at).unwrap_or(&"(no line)"));
            println!("    program: {}", given.lines.get(at).map_or("(no line)", String::as_str));
            println!("    {}", given.trouble.unwrap_or_default());
            println!("    {}", if recording.len() <= 1_000 { hex(&recording) } else { String::new() });
            return Ok(false);
        }
        let words = due.last().map_or(0, |line| line.split(' ').count());
        if let (2, Some(line)) = (words, due.last()) {
            faults[["15", "16", "17"].iter().position(|reply| line.starts_with(reply)).unwrap_or(0)] += 1;
        }
        size += recording.len();
        longest = longest.max(recording.len());
        deliveries += due.len();
    }
    println!(
        "compare replay: {size} bytes, the longest recording {longest}; {deliveries} lines, at fault 15: {}, 16: {}, 17: {}",
        faults[0], faults[1], faults[2]
    );
    println!("compare replay: {} recordings, no difference, {:.1} s", options.replays, start.elapsed().as_secs_f64());
    let covered = longest > 65_536 && faults.iter().all(|count| *count > 0);
    if !covered {
        println!("compare replay: no long recording, or a fault that never was");
    }
    Ok(covered)
}

/// Faults of the node that a replay has to show too.
const OF_THE_NODE: &[Fault] = &[
    Fault::AgeAlone,
    Fault::ConfirmNotStrict,
    Fault::DeliverNotStrict,
    Fault::DeliveredStays,
    Fault::DuplicateUnconfirms,
    Fault::DuplicateKeepsStamp,
    Fault::ConfirmationStamps,
    Fault::AbortSparesConfirmed,
    Fault::CountersBySize,
    Fault::SlotOrder,
    Fault::TickDeliversOne,
    Fault::RefusesFrames,
    Fault::NeverDelivers,
    Fault::DoesNothing,
    Fault::FirstFrameOnly,
    Fault::ClashByLength,
    Fault::ClashByBytes,
    Fault::ClashReplaces,
    Fault::HeldLengthIsDlc,
    Fault::DlcAboveEight,
    Fault::TakenFirst,
    Fault::FullFirst,
    Fault::Limit(Limit::Slots, Off::Lower),
    Fault::Limit(Limit::Slots, Off::Higher),
    Fault::Limit(Limit::StreamMost, Off::Lower),
    Fault::Limit(Limit::StreamMost, Off::Higher),
    Fault::Limit(Limit::ClassMost, Off::Higher),
    Fault::Limit(Limit::RoleMost, Off::Higher),
    Fault::Limit(Limit::DlcMost, Off::Lower),
    Fault::Limit(Limit::DlcMost, Off::Higher),
    Fault::Limit(Limit::DlcBytes, Off::Lower),
];

/// Scripts and the answers due to them.
struct Stock {
    scripts: Vec<Script>,
    due: Vec<Vec<String>>,
}

impl Stock {
    /// The scripts of one stretch: each has as many replays as the first, and other scripts.
    fn make(seed: u64, replays: u64, stretch: u64) -> Stock {
        let scripts = scripts(seed, &mut (stretch << 32), replays);
        let mut second = Recording::new(Making::FAULTLESS);
        let due = scripts.iter().map(|script| answers(script, &mut second)).collect();
        Stock { scripts, due }
    }

    /// After how many replays a mutant is caught.
    fn catches(&self, making: Making) -> Option<u64> {
        let mut mutant = Recording::new(making);
        let wrong = |(script, due): (&Script, &Vec<String>)| answers(script, &mut mutant) != *due;
        let at = self.scripts.iter().zip(&self.due).position(wrong)?;
        Some(self.scripts[..=at].iter().flatten().filter(|line| is_replay(line)).count() as u64)
    }
}

/// How many times as far a mutant is put that was not caught so far.
const FURTHER: u64 = 5;

/// Puts every mutant to scripts with so many replays, prints after how many it was caught, and says whether each was.
pub fn mutants(seed: u64, replays: u64) -> bool {
    let start = Instant::now();
    let stock = Stock::make(seed, replays, 0);
    let further = |stretch: u64, making: Making| {
        let caught = Stock::make(seed, replays, stretch).catches(making)?;
        Some(caught + stretch * replays)
    };
    let mut all = true;
    let mut put = |making: Making, name: &str, says: &str| {
        let after = stock.catches(making).or_else(|| (1..FURTHER).find_map(|stretch| further(stretch, making)));
        println!("{name:<24} {:>6}  {says}", after.map_or("-".to_string(), |replays| replays.to_string()));
        all &= after.is_some();
    };
    for (wrong, name, says) in WRONGS {
        put(Making { wrong: *wrong, fault: Fault::None }, name, says);
    }
    for fault in OF_THE_NODE {
        put(Making { wrong: Wrong::Nothing, fault: *fault }, &fault.name(), &fault.says());
    }
    let count = WRONGS.len() + OF_THE_NODE.len();
    let verdict = if all { "all caught" } else { "not all caught" };
    println!("recording mutants: {count}, {verdict}, {:.1} s", start.elapsed().as_secs_f64());
    all
}
