//! `portable_mutants MIR HEADER WORK UNSEEN COUNT COUNT SEED CALLS`: tries so many one-place changes of the program, and so
//! many of the C file that is made from it (a number, or `all`), chosen by SEED. WORK has what a comparison is linked of:
//! `link` and `names` have the words for the C compiler. A change that CALLS random calls, the sanitizers and more calls
//! do not find must stand in the file UNSEEN under its reason, and what stands there must still be there to be
//! changed. A run of all changes writes the list anew, to WORK/unseen.txt.

use std::collections::{BTreeMap, BTreeSet};
use std::fs;
use std::path::{Path, PathBuf};
use std::process::{Command, ExitCode, Stdio};
use std::sync::atomic::{AtomicUsize, Ordering};
use std::sync::{Mutex, OnceLock};
use std::thread::{self, sleep};
use std::time::{Duration, Instant};

use portable::exports::KOSMYDORE;
use portable::mutants::{gathered, of_c, of_mir, refused, Change};
use portable::{c_file, header, mir};

/// A mutant that does not end is found after so long, for each thousand of calls; they take some hundredths of this.
const PATIENCE: Duration = Duration::from_millis(800);

/// A change that is not found at first is tried with so many times the calls.
const AGAIN: u64 = 10;

struct Trial {
    work: PathBuf,
    header: String,
    /// Words for the C compiler.
    names: Vec<String>,
    link: Vec<String>,
    seed: u64,
    calls: u64,
    /// Whether the compiler can fill locals that are not written.
    fills: bool,
    /// Whether all changes are tried.
    all: bool,
}

impl Trial {
    fn translated(&self, program: &str) -> Result<String, String> {
        let header = header::read(&self.header).map_err(|error| error.what)?;
        let program = mir::read(program).map_err(|error| error.said("program", program))?;
        c_file::file(&program, &header, KOSMYDORE, "", "kosmydore.h").map_err(|error| error.what)
    }

    fn path(&self, name: &str) -> String {
        self.work.join(name).display().to_string()
    }

    /// A comparison over this C file, in files of this name, and one under the sanitizers; none where it can't be compiled.
    fn compiled(&self, c: &str, name: &str) -> Option<Mutant> {
        fs::write(self.path(&format!("{name}.c")), c).ok()?;
        let program = self.program(name, name, "gcc", "zero", &[])?;
        Some(Mutant { name: name.to_string(), program, sanitized: OnceLock::new() })
    }

    /// A local that is not written holds what is chosen here, so that it is not right by chance.
    fn program(&self, of: &str, name: &str, compiler: &str, unwritten: &str, words: &[&str]) -> Option<String> {
        let (source, program) = (self.path(&format!("{of}.c")), self.path(name));
        let mut compiler = Command::new(compiler);
        // Without optimization: a compiler may take a store that is left out for one of any value, the right one too.
        compiler.args(["-std=c99", "-w", "-O0", "-o", &program, &source]).args(words);
        if self.fills {
            compiler.arg(format!("-ftrivial-auto-var-init={unwritten}"));
        }
        compiler.args(&self.names).args(&self.link);
        compiler.stderr(Stdio::null()).status().ok()?.success().then_some(program)
    }

    /// By clang where it is there: gcc fills a bool with zeros always.
    fn sanitized(&self, of: &str) -> Option<String> {
        let words = ["-fsanitize=address,undefined", "-fno-sanitize-recover=all"];
        let by = |compiler| self.program(of, &format!("{of}-sanitized"), compiler, "pattern", &words);
        by("clang").or_else(|| by("gcc"))
    }

    /// Whether the comparison differs, or the sanitizers stop it. Of one that is listed only the first calls are made, but in
    /// a run of all.
    fn found(&self, mutant: &Mutant, number: usize, listed: bool) -> Option<bool> {
        if self.differs(&mutant.program, number, self.calls)? {
            return Some(true);
        }
        if listed && !self.all {
            return Some(false);
        }
        let sanitized = mutant.sanitized.get_or_init(|| self.sanitized(&mutant.name));
        Some(
            self.differs(sanitized.as_ref()?, number, self.calls)?
                || self.differs(&mutant.program, number, self.calls * AGAIN)?,
        )
    }

    fn differs(&self, program: &str, number: usize, calls: u64) -> Option<bool> {
        let words = [calls.to_string(), self.seed.to_string()];
        let mut command = Command::new(program);
        command.args(words).env("MUTANT", number.to_string()).stdout(Stdio::null()).stderr(Stdio::null());
        let mut child = command.spawn().ok()?;
        let began = Instant::now();
        while began.elapsed() < PATIENCE * (calls / 1000 + 1) as u32 {
            if let Some(status) = child.try_wait().ok()? {
                return Some(!status.success());
            }
            sleep(Duration::from_millis(2));
        }
        child.kill().ok()?;
        child.wait().ok()?;
        Some(true)
    }
}

/// A program that compares a changed C file with the library. In one that has several changes the number chooses.
struct Mutant {
    name: String,
    program: String,
    /// The same under the sanitizers, made when it is asked for.
    sanitized: OnceLock<Option<String>>,
}

/// What a function answers for each of these, in their order, as many at a time as there are processors; the worker's number is told.
fn each<T: Sync, A: Send>(items: &[T], answer: impl Fn(&T, usize) -> A + Sync) -> Vec<A> {
    let (next, done) = (AtomicUsize::new(0), Mutex::new(Vec::new()));
    let workers = thread::available_parallelism().map_or(1, |count| count.get());
    thread::scope(|scope| {
        for worker in 0..workers {
            let (next, done, answer) = (&next, &done, &answer);
            scope.spawn(move || {
                while let Some((at, item)) =
                    Some(next.fetch_add(1, Ordering::Relaxed)).and_then(|at| Some((at, items.get(at)?)))
                {
                    let one = answer(item, worker);
                    done.lock().expect("no worker panics").push((at, one));
                }
            });
        }
    });
    let mut done = done.into_inner().expect("no worker panics");
    done.sort_by_key(|(at, _)| *at);
    done.into_iter().map(|(_, one)| one).collect()
}

/// The changes that no call can show, each with its reason; what came of those that were tried.
struct Unseen {
    /// The lines of the list: a reason, and the changes that it holds for.
    reasons: Vec<(String, Vec<String>)>,
    /// Of each listed change that was tried: whether it was not found.
    tried: BTreeMap<String, bool>,
    /// Not found, and not listed.
    others: BTreeSet<String>,
}

/// What begins so stands in the place of a reason, and is none.
const NO_REASON: &str = "No reason yet.";

/// The change alone, without the function's name.
fn unplaced(name: &str) -> &str {
    name.split_once(" | ").map_or(name, |(_, change)| change)
}

fn function_of(name: &str) -> &str {
    name.split_once(" | ").map_or(name, |(function, _)| function)
}

impl Unseen {
    fn read(text: &str) -> Unseen {
        let mut reasons: Vec<(String, Vec<String>)> = Vec::new();
        for line in text.lines().filter(|line| !line.trim().is_empty()) {
            match (line.split_once(" | "), reasons.last_mut()) {
                (Some(_), Some((_, changes))) => changes.push(line.trim().to_string()),
                _ => reasons.push((line.to_string(), Vec::new())),
            }
        }
        Unseen { reasons, tried: BTreeMap::new(), others: BTreeSet::new() }
    }

    fn lists(&self, name: &str) -> bool {
        self.listed().any(|change| change == name)
    }

    /// Each listed change with its reason.
    fn with_reasons(&self) -> impl Iterator<Item = (&String, &String)> {
        let real = self.reasons.iter().filter(|(reason, _)| !reason.starts_with(NO_REASON));
        real.flat_map(|(reason, changes)| changes.iter().map(move |change| (reason, change)))
    }

    fn listed(&self) -> impl Iterator<Item = &String> {
        self.with_reasons().map(|(_, change)| change)
    }

    /// The one reason that changes have for which this holds.
    fn one_reason(&self, holds: impl Fn(&String) -> bool) -> Option<&String> {
        let reasons: BTreeSet<&String> =
            self.with_reasons().filter(|(_, change)| holds(change)).map(|(reason, _)| reason).collect();
        match Vec::from_iter(reasons)[..] {
            [reason] => Some(reason),
            _ => None,
        }
    }

    /// The reason of a change that is not listed, where the same change of another function was listed under one reason and is no
    /// longer there: it has moved.
    fn moved(&self, name: &str, there: &BTreeSet<String>) -> Option<&String> {
        self.one_reason(|change| unplaced(change) == unplaced(name) && !there.contains(change))
    }

    /// The listed changes that the program or the C file no longer has, and, where all were tried, those that are found.
    fn stale(&self, there: &BTreeSet<String>, all: bool) -> Vec<(&'static str, &String)> {
        let gone =
            self.listed().filter(|name| !there.contains(*name)).map(|name| ("no longer there to be changed", name));
        let found = self.listed().filter(|name| all && self.tried.get(*name) == Some(&false));
        gone.chain(found.map(|name| ("found, and needs no reason", name))).collect()
    }

    /// The list as it would be now.
    fn renewed(&self, there: &BTreeSet<String>) -> String {
        let stale: BTreeSet<&String> = self.stale(there, true).into_iter().map(|(_, name)| name).collect();
        let (mut moved, mut new) = (Vec::new(), BTreeMap::<String, Vec<&String>>::new());
        for name in &self.others {
            match self.moved(name, there) {
                Some(reason) => moved.push((reason, name)),
                None => {
                    let near = self.one_reason(|change| function_of(change) == function_of(name));
                    let near = near.map_or(String::new(), |reason| format!(" Others of this function: {reason}"));
                    new.entry(format!("{NO_REASON}{near}")).or_default().push(name);
                }
            }
        }
        let mut out = String::new();
        for (reason, changes) in self.reasons.iter().filter(|(reason, _)| !reason.starts_with(NO_REASON)) {
            let mut kept: Vec<&String> = changes.iter().filter(|name| !stale.contains(name)).collect();
            kept.extend(moved.iter().filter(|(to, _)| *to == reason).map(|(_, name)| name));
            kept.sort();
            kept.dedup();
            if !kept.is_empty() || changes.is_empty() {
                out += &section(reason, kept);
            }
        }
        for (title, changes) in new {
            out += &section(&title, changes);
        }
        out.trim_end().to_string() + "\n"
    }
}

fn section(reason: &str, changes: Vec<&String>) -> String {
    let lines: String = changes.into_iter().map(|name| format!("    {name}\n")).collect();
    format!("{reason}\n{lines}\n")
}

/// How many changes were tried, and what came of them.
#[derive(Default)]
struct Score {
    found: usize,
    refused: usize,
    excused: usize,
}

impl Score {
    fn count(&mut self, found: Option<bool>, name: &str, unseen: &mut Unseen) {
        let listed = unseen.lists(name);
        if let (true, Some(found)) = (listed, found) {
            *unseen.tried.entry(name.to_string()).or_insert(false) |= !found;
        }
        match found {
            None => self.refused += 1,
            Some(true) => self.found += 1,
            Some(false) if listed => self.excused += 1,
            Some(false) => {
                if unseen.others.insert(name.to_string()) {
                    println!("not found: {name}");
                }
            }
        }
    }

    fn say(&self, kind: &str, tried: usize, all: usize) {
        let Score { found, refused, excused } = self;
        println!("{kind}: {tried} of {all} changes tried: {found} found, {refused} refused, {excused} can't be seen (listed)");
    }
}

/// So many of them, chosen by the seed.
fn chosen(mut changes: Vec<Change>, count: usize, seed: u64) -> Vec<Change> {
    let mut state = seed;
    let mut picked = Vec::new();
    while picked.len() < count && !changes.is_empty() {
        state = state.wrapping_mul(6364136223846793005).wrapping_add(1442695040888963407);
        picked.push(changes.swap_remove((state >> 33) as usize % changes.len()));
    }
    picked
}

/// A text without the numbers that follow a word, so that a name for it outlives a local more or less.
fn unnumbered(text: &str, word: &str) -> String {
    let mut parts = text.split(word);
    let mut out = parts.next().unwrap_or("").to_string();
    for part in parts {
        let named = out.ends_with(|last: char| last.is_ascii_alphanumeric() || last == '_');
        out += word;
        out += if named { part } else { part.trim_start_matches(|first: char| first.is_ascii_digit()) };
    }
    out
}

/// How a change of the C file is named: its function, the line before the change and after it.
fn in_c(text: &str, change: &Change) -> String {
    let from = text[..change.from].rfind('\n').map_or(0, |at| at + 1);
    let to = text[change.to..].find('\n').map_or(text.len(), |at| change.to + at);
    let title = text[..from].rfind("\n/* ").map_or("", |at| text[at + 4..].split(" */").next().unwrap_or(""));
    let new = format!("{}{}{}", &text[from..change.from], change.new, &text[change.to..to]);
    format!("{title} | {} | {}", unnumbered(text[from..to].trim(), "v"), unnumbered(new.trim(), "v"))
}

/// How a change of the program is named: its function, the statement before the change and after it.
fn in_mir(text: &str, change: &Change) -> String {
    let title = text[..change.from].rfind("(fn-def \"").map_or("", |at| text[at + 9..].split('"').next().unwrap_or(""));
    let begins = ["(assign ", "(exit ", "(if ", "(call ", "(switch "];
    let from = begins.iter().filter_map(|word| text[..change.to].rfind(word)).max().unwrap_or(0);
    let mut depth = 0;
    let ends = text[from..].bytes().position(|byte| {
        depth += i32::from(byte == b'(') - i32::from(byte == b')');
        depth == 0
    });
    let to = ends.map_or(text.len(), |length| from + length + 1);
    let new = format!("{}{}{}", &text[from..change.from], change.new, &text[change.to..to]);
    format!("{title} | {} | {}", unnumbered(&text[from..to], "place "), unnumbered(&new, "place "))
}

/// A change that is tried: its name, and the C file that it leads to.
struct Tried {
    name: String,
    leads_to: LeadsTo,
}

enum LeadsTo {
    /// It is refused.
    Nothing,
    /// The C file with this change, which can stand beside others in one program.
    Change(Change),
    /// A whole C file.
    File(String),
}

/// The change that makes one text of another, where they differ in one line.
fn difference(old: &str, new: &str) -> Option<Change> {
    let same = |(a, b): &(char, char)| a == b;
    let before: usize = old.chars().zip(new.chars()).take_while(same).map(|(a, _)| a.len_utf8()).sum();
    let rest = (old.len() - before).min(new.len() - before);
    let pairs = old.chars().rev().zip(new.chars().rev());
    let mut after = 0;
    for (a, _) in pairs.take_while(same) {
        if after + a.len_utf8() > rest {
            break;
        }
        after += a.len_utf8();
    }
    let change = Change { from: before, to: old.len() - after, new: new[before..new.len() - after].to_string() };
    let within = !old[change.from..change.to].contains('\n') && !change.new.contains('\n');
    (within && old != new).then_some(change)
}

/// Tries the changes: as many as can be in one program, in which a number chooses one when it runs.
fn try_all(trial: &Trial, c: &str, tried: Vec<Tried>, unseen: &mut Unseen) -> Result<Score, String> {
    let mut score = Score::default();
    let (mut together, mut alone) = (Vec::new(), Vec::new());
    for Tried { name, leads_to } in tried {
        match leads_to {
            LeadsTo::Nothing => score.count(None, &name, unseen),
            LeadsTo::Change(change) => together.push((name, change)),
            LeadsTo::File(text) => alone.push((name, text)),
        }
    }
    let (names, changes): (Vec<_>, Vec<_>) = together.into_iter().unzip();
    let (text, others) = gathered(c, &changes);
    let Some(mutant) = trial.compiled(&text, "mutant") else {
        return Err("the C file with all changes in it can't be compiled".to_string());
    };
    let numbers: Vec<usize> = (0..names.len()).filter(|number| !others.contains(number)).collect();
    let found = each(&numbers, |number, _| trial.found(&mutant, number + 1, unseen.lists(&names[*number])));
    numbers.iter().zip(found).for_each(|(number, found)| score.count(found, &names[*number], unseen));
    alone.extend(others.iter().map(|number| (names[*number].clone(), changes[*number].applied(c))));
    let found = each(&alone, |(name, text), worker| {
        let mutant = trial.compiled(text, &format!("mutant-{worker}"))?;
        trial.found(&mutant, 0, unseen.lists(name))
    });
    alone.iter().zip(found).for_each(|((name, _), found)| score.count(found, name, unseen));
    Ok(score)
}

/// Whether every edit that the translator must refuse is refused.
fn all_refused(trial: &Trial, text: &str) -> bool {
    let mut all = true;
    let edits = refused(text);
    for (title, change) in &edits {
        match change {
            None => {
                all = false;
                println!("not there to be changed: {title}");
            }
            Some(change) if trial.translated(&change.applied(text)).is_ok() => {
                all = false;
                println!("not refused: {title}");
            }
            Some(_) => {}
        }
    }
    println!("{} edits that the translator must refuse", edits.len());
    all
}

fn run(words: &[String]) -> Result<bool, String> {
    let [program, header, work, unseen, of_mir_count, of_c_count, seed, calls] = words else {
        return Err("usage: portable_mutants MIR HEADER WORK UNSEEN COUNT COUNT SEED CALLS".to_string());
    };
    let read = |name: &str| fs::read_to_string(name).map_err(|error| format!("{name} can't be read: {error}"));
    let number = |word: &String| word.parse::<u64>().map_err(|_| format!("{word} is not a number"));
    let list = |name: &str| read(&Path::new(work).join(name).display().to_string());
    let words_of = |name: &str| list(name).map(|text| text.split_whitespace().map(str::to_string).collect::<Vec<_>>());
    let (names, link) = (words_of("names")?, words_of("link")?);
    let header = read(header)?;
    let count = |word: &String| if word == "all" { Ok(usize::MAX) } else { number(word).map(|count| count as usize) };
    let (of_mir_count, of_c_count) = (count(of_mir_count)?, count(of_c_count)?);
    let (seed, calls) = (number(seed)?, number(calls)?);
    let mut trial = Trial { work: work.into(), header, names, link, seed, calls, fills: true, all: false };
    let text = read(program)?;
    let mut unseen = Unseen::read(&read(unseen)?);
    let all_refused = all_refused(&trial, &text);

    let c = trial.translated(&text)?;
    if trial.compiled(&c, "mutant").is_none() {
        println!("gcc is too old to fill locals that are not written: a store that is left out may be right by chance");
        trial.fills = false;
    }
    let unchanged = trial.compiled(&c, "mutant").and_then(|mutant| trial.found(&mutant, 0, false));
    if unchanged != Some(false) {
        return Err("the unchanged program differs from the library, or can't be compiled".to_string());
    }

    let (of_program, of_file) = (of_mir(&text), of_c(&c));
    let there =
        of_program.iter().map(|change| in_mir(&text, change)).chain(of_file.iter().map(|change| in_c(&c, change)));
    let there: BTreeSet<String> = there.collect();
    let all = of_mir_count >= of_program.len() && of_c_count >= of_file.len();
    trial.all = all;
    let (program_count, file_count) = (of_program.len(), of_file.len());

    let in_program = chosen(of_program, of_mir_count, seed).into_iter().map(|change| {
        let leads_to = match trial.translated(&change.applied(&text)) {
            Err(_) => LeadsTo::Nothing,
            // another field may not compile
            Ok(changed) => match difference(&c, &changed).filter(|_| !change.new.contains("field")) {
                Some(change) => LeadsTo::Change(change),
                None => LeadsTo::File(changed),
            },
        };
        Tried { name: in_mir(&text, &change), leads_to }
    });
    let in_program: Vec<Tried> = in_program.collect();
    let tried = in_program.len();
    try_all(&trial, &c, in_program, &mut unseen)?.say("the program", tried, program_count);

    let in_file = chosen(of_file, of_c_count, seed).into_iter();
    let in_file: Vec<Tried> =
        in_file.map(|change| Tried { name: in_c(&c, &change), leads_to: LeadsTo::Change(change) }).collect();
    let tried = in_file.len();
    try_all(&trial, &c, in_file, &mut unseen)?.say("the C file", tried, file_count);

    let stale = unseen.stale(&there, all);
    for (what, name) in &stale {
        println!("listed, and {what}: {name}");
    }
    let right = unseen.others.is_empty() && stale.is_empty();
    if all {
        let renewed = Path::new(work).join("unseen.txt");
        fs::write(&renewed, unseen.renewed(&there)).map_err(|error| format!("the list can't be written: {error}"))?;
        if !right {
            println!("{} has the list as it would be now", renewed.display());
        }
    }
    Ok(all_refused && right)
}

fn main() -> ExitCode {
    let words: Vec<String> = std::env::args().skip(1).collect();
    match run(&words) {
        Ok(true) => ExitCode::SUCCESS,
        Ok(false) => ExitCode::from(1),
        Err(what) => {
            eprintln!("portable_mutants: {what}");
            ExitCode::from(2)
        }
    }
}

#[cfg(test)]
mod tests {
    use super::*;

    fn names(names: &[&str]) -> BTreeSet<String> {
        names.iter().map(|name| name.to_string()).collect()
    }

    #[test]
    fn a_change_that_moved_keeps_its_reason() {
        let list = "One.\n    a::f | x | y\n    a::g | x | z\n\nTwo.\n    b::g | p | q\n\nThree.\n    d::f | x | y\n";
        let mut unseen = Unseen::read(list);
        unseen.others = names(&["c::f | x | y", "b::g | r | s", "e::h | x | z"]);
        unseen.tried = BTreeMap::from([("b::g | p | q".to_string(), true), ("d::f | x | y".to_string(), true)]);
        let there =
            names(&["c::f | x | y", "b::g | r | s", "b::g | p | q", "d::f | x | y", "a::g | x | z", "e::h | x | z"]);
        let renewed = "One.\n    a::g | x | z\n    c::f | x | y\n\nTwo.\n    b::g | p | q\n\nThree.\n    d::f | x | y\n\n\
                       No reason yet.\n    e::h | x | z\n\nNo reason yet. Others of this function: Two.\n    b::g | r | s\n";
        assert_eq!(unseen.renewed(&there), renewed);
        assert!(!Unseen::read(renewed).lists("e::h | x | z") && !Unseen::read(renewed).lists("b::g | r | s"));
    }
}
