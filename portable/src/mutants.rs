//! One-place changes of a text: of the program that is translated, or of the C file. Each stands for a fault of the
//! translator or of a compiler, and must be refused or found.

/// A change at one place of a text.
pub struct Change {
    pub from: usize,
    pub to: usize,
    pub new: String,
}

impl Change {
    pub fn applied(&self, text: &str) -> String {
        format!("{}{}{}", &text[..self.from], self.new, &text[self.to..])
    }
}

/// Every place of a text, from a place on, where one word stands for another.
fn swaps(text: &str, from: usize, pairs: &[(&str, &str)]) -> Vec<Change> {
    let mut found = Vec::new();
    for (old, new) in pairs {
        for (at, _) in text[from..].match_indices(old) {
            found.push(Change { from: from + at, to: from + at + old.len(), new: new.to_string() });
        }
    }
    found
}

/// Every number that stands between these words, one greater.
fn greater(text: &str, from: usize, before: &str, after: &str) -> Vec<Change> {
    let mut found = Vec::new();
    for (at, _) in text[from..].match_indices(before) {
        let digits = from + at + before.len();
        let length = text[digits..].bytes().take_while(u8::is_ascii_digit).count();
        if length > 0 && text[digits + length..].starts_with(after) {
            let number: u64 = text[digits..digits + length].parse().expect("digits");
            let new = number.wrapping_add(1).to_string();
            found.push(Change { from: digits, to: digits + length, new });
        }
    }
    found
}

/// Whether a change leaves all as it is: 0 taken away and not added, or a label beside the default's.
fn is_idle(text: &str, change: &Change) -> bool {
    let rest = &text[change.to..];
    let zero = ["UINT64_C(0);", "UINT32_C(0);", "(size_t)UINT64_C(0);"].iter().any(|zero| rest.starts_with(zero));
    let by_zero = zero && [" + ", " - "].contains(&change.new.as_str());
    let line = text[..change.from].rfind('\n').map_or(0, |at| at + 1);
    let beside =
        change.new == "case 101:" && text[..line].trim_end().ends_with("default: /* no other number is reached */");
    by_zero || beside
}

/// The same of a program.
fn is_idle_in_mir(text: &str, change: &Change) -> bool {
    if !["(add ", "(sub ", "wrapAdd ", "wrapSub "].iter().any(|word| change.new.contains(word)) {
        return false;
    }
    let mut depth = 0;
    let ends = text[change.from..].bytes().position(|byte| {
        depth += i32::from(byte == b'(') - i32::from(byte == b')');
        depth == 0
    });
    let whole = ends.map_or("", |length| &text[change.from..=change.from + length]);
    ["8", "16", "32", "64"].iter().any(|bits| whole.ends_with(&format!(" (int {bits} 0))")))
}

/// The changes of a C file, after its declarations.
pub fn of_c(text: &str) -> Vec<Change> {
    let from = ["\nKD_STATIC ", "\nKD_SMALL "].iter().filter_map(|word| text.find(word)).min().unwrap_or(0);
    let mut found = swaps(
        text,
        from,
        &[
            (" < ", " <= "),
            (" <= ", " < "),
            (" == ", " != "),
            (" != ", " == "),
            (" + ", " - "),
            (" - ", " + "),
            (" * UINT", " + UINT"),
            (" / ", " % "),
            (" % ", " / "),
            (" & ", " | "),
            (" | ", " & "),
            ("if (!", "if ("),
            ("if (v", "if (!v"),
            ("= !", "= "),
            ("= true;", "= false;"),
            ("= false;", "= true;"),
            ("break;", ";"),
            ("case 1:", "case 101:"),
            ("(uint8_t)v", "(uint8_t)~v"),
            (".f1", ".f0"),
            ("->at", "->at + 1"),
            ("memcpy(", "(void)sizeof("),
        ],
    );
    for bits in ["8", "16", "32", "64"] {
        found.extend(greater(text, from, &format!("UINT{bits}_C("), ")"));
    }
    found.extend(greater(text, from, "= ", "u;"));
    found.extend(greater(text, from, "== ", "u;"));
    // a store left out: a line that begins with a place, and not with a type
    let mut at = from;
    for line in text[from..].split_inclusive('\n') {
        let indent = line.len() - line.trim_start().len();
        let words = line.trim();
        let store = words.starts_with('*') || words.starts_with('v') && words.contains(" = ");
        if indent >= 4 && store && words.ends_with(';') {
            found.push(Change { from: at + indent, to: at + indent + words.len(), new: ";".to_string() });
        }
        at += line.len();
    }
    found.retain(|change| !is_idle(text, change));
    found
}

/// A line of a C file with several changes in it, of which the number in `kd_mutant` chooses one: a declaration with its
/// value, a condition, or a whole statement. None where it is another kind of line, or a change is not within these.
fn chosen_line(line: &str, from: usize, changes: &[(usize, &Change)]) -> Option<String> {
    let words = line.trim_start();
    let indent = line.len() - words.len();
    let (head, tail) = if let Some(condition) = words.strip_prefix("if (") {
        (indent + 4, condition.strip_suffix(") {").map(|_| line.len() - 3)?)
    } else {
        let end = words.strip_suffix(';').map(|_| line.len() - 1)?;
        let declares = ["uint", "bool", "struct"].iter().any(|word| words.starts_with(word));
        if words.starts_with("return") || words.starts_with("static ") || words == ";" {
            return None;
        }
        match (declares, line.find(" = ")) {
            (true, Some(at)) if !line[at + 3..].starts_with('{') => (at + 3, end),
            (true, _) => return None,
            (false, _) => {
                let mut out = line[..indent].to_string();
                for (number, change) in changes {
                    let changed = Change { from: change.from - from, to: change.to - from, new: change.new.clone() };
                    out += &format!("if (kd_mutant == {number}) {{ {} }} else ", changed.applied(line).trim());
                }
                return Some(out + words);
            }
        }
    };
    let mut out = line[..head].to_string();
    for (number, change) in changes {
        if change.from - from < head || change.to - from > tail {
            return None;
        }
        let changed = Change { from: change.from - from, to: change.to - from, new: change.new.clone() }.applied(line);
        let value = &changed[head..changed.len() - (line.len() - tail)];
        out += &format!("kd_mutant == {number} ? ({value}) : ");
    }
    Some(format!("{out}({}){}", &line[head..tail], &line[tail..]))
}

/// The C file with as many of the changes in it as can be: `MUTANT` in the environment is the number of one of them, from 1
/// on. The others are answered by their places in the list.
pub fn gathered(text: &str, changes: &[Change]) -> (String, Vec<usize>) {
    let (mut out, mut others) = (String::new(), Vec::new());
    let mut from = 0;
    for line in text.split_inclusive('\n') {
        let bare = line.trim_end_matches('\n');
        let within = |change: &Change| from <= change.from && change.to <= from + bare.len();
        let (alone, here): (Vec<_>, Vec<_>) = changes
            .iter()
            .enumerate()
            .filter(|(_, change)| within(change))
            .map(|(at, one)| (at + 1, one))
            .partition(|(_, change)| change.new.starts_with('.')); // another field may not compile
        others.extend(alone.iter().map(|(number, _)| number - 1));
        match chosen_line(bare, from, &here) {
            Some(chosen) if !here.is_empty() => out += &chosen,
            _ => {
                others.extend(here.iter().map(|(number, _)| number - 1));
                out += bare;
            }
        }
        out += "\n";
        from += line.len();
    }
    let chooser = "#include <stdlib.h>\nstatic int kd_chosen = -1;\n\
                   static int kd_choose(void) { return kd_chosen = getenv(\"MUTANT\") ? atoi(getenv(\"MUTANT\")) : 0; }\n\
                   #define kd_mutant (kd_chosen < 0 ? kd_choose() : kd_chosen)\n";
    (format!("{chooser}{out}"), others)
}

/// The changes of a program that is still one.
pub fn of_mir(text: &str) -> Vec<Change> {
    let mut found = swaps(
        text,
        0,
        &[
            ("(op2 (lt unsigned)", "(op2 (le unsigned)"),
            ("(op2 (le unsigned)", "(op2 (lt unsigned)"),
            ("(op2 eq ", "(op2 ne "),
            ("(op2 ne ", "(op2 eq "),
            ("(op2 and ", "(op2 or "),
            ("(op2 or ", "(op2 and "),
            ("(op2 (add unsigned)", "(op2 (sub unsigned)"),
            ("(op2 (sub unsigned)", "(op2 (add unsigned)"),
            ("(op2 wrapAdd ", "(op2 wrapSub "),
            ("(op2 wrapSub ", "(op2 wrapAdd "),
            ("(rvOpd true)", "(rvOpd false)"),
            ("(rvOpd false)", "(rvOpd true)"),
            ("(field 2)", "(field 3)"),
            ("(exit 1)", "(exit 0)"),
        ],
    );
    for bits in ["8", "16", "32", "64"] {
        found.extend(greater(text, 0, &format!("(int {bits} "), ")"));
    }
    found.retain(|change| !is_idle_in_mir(text, change));
    found
}

/// What the translator does not know: the title, a text of the program, and what stands there instead. In these # is a number, and * a
/// name, in the new text the same as in the old.
const REFUSED: &[(&str, &str, &str)] = &[
    ("signed addition", "(add unsigned)", "(add signed)"),
    ("signed comparison", "(lt unsigned)", "(lt signed)"),
    ("a cast to signed", "(cast unsigned unsigned 64)", "(cast unsigned signed 64)"),
    ("a number of 128 bits", "(tyInt 16)", "(tyInt 128)"),
    ("a float", "(tyInt 16)", "(tyFloat 32)"),
    ("a bare address in an enum", "(variants (ttcons tnil", "(variants (ttcons (tcons tyPtr tnil)"),
    ("an unknown statement", "(loop ", "(forever "),
    ("an unknown operation", "(op2 eq ", "(op2 ptrEq "),
    ("an unknown operation on one", "(op1 not ", "(op1 countOnes "),
    ("an unknown value", "(aggregate ", "(bundle "),
    ("an unknown operand", "(rvOpd false)", "(rvOpd (float 32 0))"),
    ("an unknown step", "(field 1)", "(index 1)"),
    ("an unknown arm", "noDefault", "stuck"),
    ("an unknown home", "memorySlot", "heapSlot"),
    ("an unknown lifetime", "(tyRef erased", "(tyRef static"),
    ("an unknown callee", "(direct (fnRef", "(indirect (fnRef"),
    ("a number too wide", "(int 8 #)", "(int 8 256)"),
    ("mixed widths", "(int 8 #)", "(int 16 #)"),
    ("a field that is not there", "(field #)", "(field 99)"),
    ("a variant that is not there", "(variant 0)", "(variant 99)"),
    ("a tag that is not there", "(aggregate (lcons (int 8 #) lnil))", "(aggregate (lcons (int 8 255) lnil))"),
    ("an exit too far", "(exit 1)", "(exit 7)"),
    ("a function that is not there", "(call (direct (fnRef \"*\"))", "(call (direct (fnRef \"none::*\"))"),
    ("a local that is not there", "(place 3 lnil)", "(place 9999 lnil)"),
    ("one key twice", "(arm (lcons # lnil)", "(arm (lcons # (lcons # lnil))"),
    ("an address used at another type", "(deref (tyInt 8))", "(deref (tyInt 16))"),
    ("a list without its end", " lnil)", " lnot)"),
    ("a parenthesis less", "))) return", ")) return"),
    ("a quotation mark less", "\"wire::", "wire::"),
    ("a type that is not declared", "(tyNamed (pair \"*\"", "(tyNamed (pair \"none::*\""),
    ("lifetimes of a struct", "(tyNamed (pair \"*\" lnil)", "(tyNamed (pair \"*\" (lcons erased lnil))"),
    ("a second program", "program ", "program program "),
];

/// What a text begins with, by a pattern: its length, and what # or * stood for.
fn matched<'a>(text: &'a str, pattern: &str) -> Option<(usize, &'a str)> {
    let mut at = 0;
    let mut stood = "";
    for sign in pattern.chars() {
        let length = match sign {
            '#' => text[at..].bytes().take_while(u8::is_ascii_digit).count(),
            '*' => text[at..].find('"').unwrap_or(0),
            _ if text[at..].starts_with(sign) => sign.len_utf8(),
            _ => 0,
        };
        if length == 0 {
            return None;
        }
        if "#*".contains(sign) {
            stood = &text[at..at + length];
        }
        at += length;
    }
    Some((at, stood))
}

/// The first call of a function, in its place one of the function that it stands in.
fn calls_itself(text: &str) -> Option<Change> {
    let (word, title) = ("(call (direct (fnRef \"", "(fn-def \"");
    let at = text.find(word)?;
    let own = &text[text[..at].rfind(title)? + title.len()..];
    let from = at + word.len();
    Some(Change { from, to: from + text[from..].find('"')?, new: own[..own.find('"')?].to_string() })
}

/// The edits of a program that must be refused, each with its title; none where the program has no place for it.
pub fn refused(text: &str) -> Vec<(&'static str, Option<Change>)> {
    let edits = REFUSED.iter().map(|(title, old, new)| {
        let begins = &old[..old.find(['#', '*']).unwrap_or(old.len())];
        let found = text.match_indices(begins).find_map(|(at, _)| matched(&text[at..], old).map(|found| (at, found)));
        let change = found.map(|(from, (length, stood))| {
            let new = new.replace(['#', '*'], stood);
            Change { from, to: from + length, new }
        });
        (*title, change)
    });
    edits.chain([("a function that calls itself", calls_itself(text))]).collect()
}
