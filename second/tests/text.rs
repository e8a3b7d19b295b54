//! The text formats: stored examples, and lines and answers there and back.

use second::calls::{why_unread, Calls};
use second::fault::Fault;
use second::harness::{read_answer, read_script, write_answer, write_script, Harness};
use second::history::{Event, Hearers, Line};
use second::lines::answer_lines;
use second::pairs::pair;
use second::random::Random;
use second::random_histories::{history, Making};
use second::told::{answers, told};

fn calls(input: &str) -> String {
    let mut calls = Calls::new(Fault::None);
    let mut output = Vec::new();
    answer_lines(input.as_bytes(), &mut output, |line| Some(calls.answer_cut(line))).expect("written");
    String::from_utf8(output).expect("text")
}

fn harness(input: &str) -> String {
    let mut harness = Harness::new(Fault::None);
    let mut output = Vec::new();
    answer_lines(input.as_bytes(), &mut output, |line| harness.answer_cut(line)).expect("written");
    String::from_utf8(output).expect("text")
}

/// Lines beside the answers due, as `line => answer`.
fn sides(text: &str) -> (String, String) {
    let mut both = (String::new(), String::new());
    for line in text.lines() {
        let (line, answer) = line.split_once(" => ").expect("two sides");
        both.0 += &format!("{line}\n");
        both.1 += &format!("{answer}\n");
    }
    both
}

#[test]
fn an_example_of_calls() {
    let (lines, due) = sides(
        "node => node\n\
         setup 5 0 2 2 3 2 6 => 0\n\
         setup 5 0 2 2 3 2 6 => 3\n\
         setup 6 0 2 2 3 2 5 => 1\n\
         setup 7 0 0 0 0 0 0 => 0\n\
         setup 8 1 1 1 0 0 1 => 0\n\
         ticks 10 => 10\n\
         hear 20 2 0a0b 16 => 0 0 eeeeeeeeeeeeeeeeeeeeeeeeeeeeeeee new\n\
         hear 20 2 0a0c 16 => 7 0 eeeeeeeeeeeeeeeeeeeeeeeeeeeeeeee -\n\
         hear 23 0 - 16 => 6 0 eeeeeeeeeeeeeeeeeeeeeeeeeeeeeeee -\n\
         hear 536870912 16 00 16 => 18 0 eeeeeeeeeeeeeeeeeeeeeeeeeeeeeeee -\n\
         hear 21 16 - 16 => 19 0 eeeeeeeeeeeeeeeeeeeeeeeeeeeeeeee -\n\
         hear 21 9 00 16 => 20 0 eeeeeeeeeeeeeeeeeeeeeeeeeeeeeeee -\n\
         hear 21 1 00 16 => 21 0 eeeeeeeeeeeeeeeeeeeeeeeeeeeeeeee -\n\
         hear 21 0 - 15 => 11 0 eeeeeeeeeeeeeeeeeeeeeeeeeeeeee -\n\
         hear 21 0 - 0 => 11 0 - -\n\
         hear 31 2 0a0b 17 => 0 10 08000100070000000a0beeeeeeeeeeeeee delivered\n\
         hear 31 0 - 16 => 0 8 0600010007000000eeeeeeeeeeeeeeee delivered\n\
         hear 32 0 - 16 => 5 0 eeeeeeeeeeeeeeeeeeeeeeeeeeeeeeee -\n\
         ticks 3 => 13\n\
         hear 20 2 0a0b 16 => 0 0 eeeeeeeeeeeeeeeeeeeeeeeeeeeeeeee duplicate\n\
         hear 21 0 - 16 => 0 0 eeeeeeeeeeeeeeeeeeeeeeeeeeeeeeee confirmed\n\
         hear 21 0 - 16 => 0 0 eeeeeeeeeeeeeeeeeeeeeeeeeeeeeeee confirmed-again\n\
         tick 511 => 11 0 - clean 0 0\n\
         ticks 6 => 19\n\
         tick 512 => 0 10 08000100050000000a0b clean 0 1\n\
         request 8 00 => 0\n\
         request 8 - => 8\n\
         request 5 - => 9\n\
         request 5 000102030405060708 => 10\n\
         next 7 => 11 0 0 eeeeeeeeeeeeee\n\
         next 9 => 0 32 1 00eeeeeeeeeeeeeeee\n\
         next 8 => 12 0 0 eeeeeeeeeeeeeeee\n\
         hear 22 0 - 16 => 0 0 eeeeeeeeeeeeeeeeeeeeeeeeeeeeeeee nothing-to-drop\n\
         hear 21 0 - 16 => 0 0 eeeeeeeeeeeeeeeeeeeeeeeeeeeeeeee abort-pending\n\
         hear 21 0 - 16 => 0 0 eeeeeeeeeeeeeeeeeeeeeeeeeeeeeeee abort-pending\n\
         next 8 => 0 22 0 eeeeeeeeeeeeeeee\n\
         hear 20 0 - 16 => 0 0 eeeeeeeeeeeeeeeeeeeeeeeeeeeeeeee new\n\
         hear 22 0 - 16 => 0 0 eeeeeeeeeeeeeeeeeeeeeeeeeeeeeeee dropped\n\
         hear 20 0 - 16 => 0 0 eeeeeeeeeeeeeeeeeeeeeeeeeeeeeeee new\n\
         ticks 3 => 23\n\
         tick 512 => 0 0 - clean 1 0\n\
         tally => 42 1 0 1 0 1 1 1 1 1 1 4 1 1 1 1 1\n\
         ticks 0 => 24\n\
         node => node\n\
         tally => 0 0 0 0 0 0 0 0 0 0 0 0 0 0 0 0 0",
    );
    assert_eq!(calls(&lines), due);
    assert_eq!(calls(lines.trim_end()), due, "a last line without a newline counts");
}

#[test]
fn lines_that_calls_cannot_read() {
    let bad = "\n \ntick\ntick 512 \ntick  512\n tick 512\ntick +512\ntick 1025\nticks 65537\nnext\nhear 20 256 - 16\n\
               hear 4294967296 0 - 16\nrequest 5 0\nrequest 5 0g\nrequest 5 0A\nsetup 5 0 2 2 3 2\n\
               setup 5 0 2 2 3 2 65536\nsetup 5 256 2 2 3 2 6\nnode 1\nNODE\n#\ntick 512\r";
    let bad = format!("{bad}\nrequest 5 {}", "00".repeat(65));
    assert_eq!(calls(&bad), "?\n".repeat(bad.split('\n').count()));
    assert!(bad.split('\n').all(|line| why_unread(line.as_bytes()).is_some()));
    assert_eq!(calls(""), "");
    assert_eq!(calls(&format!("hear 1 0 {} 16\nnode", "0".repeat(100_000))), "?\nnode\n");
    assert_eq!(calls("tick 1024\nhear 4294967295 255 - 1024").lines().count(), 2);
}

#[test]
fn an_example_of_harness() {
    let text = "tick\n# moment 10\n\nmodules 3\nsetup 0 5 1 2 2 3 2 6\nsetup 1 5 0 2 2 3 2 6\nsetup 2 5 0 2 2 3 2 6\n\
                setup 0 7 1 0 0 0 0 0\nsetup 2 7 0 0 0 0 0 0\nsetup 2 7 0 0 0 0 0 1\nticks 10\nrequest 0 5 0a0b\n\
                request 0 5 -\nrequest 1 5 -\nrequest 0 7 -\ngive 0\nfull 0\nticks 2\ngive 0\nshort 1 1 1 0\ngive 0\ngive 0\n\
                full 2\nshort 2\ndeath 0\ndeath 0\nfull 2\ngive 0\nrequest 0 5 -\nfull 3\ngive 3\nticks 2\ntick\ntick\n\
                give 2\nfull 3\nticks 3\nmodules 9\nmodules 2\nfull 0\ntick";
    let due = "?\nmodules 3\n0\n0\n0\n0\n0\n1\n10\n0\n8\n9\n0\n0 0 20 0a0b\n1:0:new 2:0:new\n12\n\
               0 1 21 -\n1:0:confirmed\n0 2 31 -\n12\n1:5 2:0:delivered:7:-\n-\ndead\ndead\ndead\ndead\ndead\n?\n?\n\
               14 14:2:dropped:1\n15\n16\n0 3 22 -\n1:0:dropped\n19\n?\nmodules 2\n?\n1\n";
    assert_eq!(harness(text), due);
}

#[test]
fn deliveries_in_harness() {
    let text = "modules 3\nsetup 0 5 1 2 2 3 2 6\nsetup 1 5 0 2 2 3 2 6\nsetup 2 5 0 2 2 3 2 6\nrequest 0 5 0a\n\
                give 0\ngive 0\nfull 0\nfull 1\nticks 6\ntick\nrequest 0 5 -\nticks 2\nrequest 0 5 -\ngive 0\ngive 0\n\
                full 2\nfull 3\nticks 7";
    let due = "modules 3\n0\n0\n0\n0\n0 0 20 0a\n0 1 21 -\n1:0:new 2:0:new\n1:0:confirmed 2:0:confirmed\n6\n\
               7 1:5:0a 2:5:0a\n8\n9\n0\n0 2 20 -\n0 3 21 -\n1:0:new 2:0:new\n1:0:confirmed 2:0:confirmed\n\
               16 16:1:5:- 16:2:5:-\n";
    assert_eq!(harness(text), due);
}

/// What a module dropped at a tick stands before what it delivered, and after what others did before it.
#[test]
fn drops_in_harness() {
    let mut text = "modules 3\n".to_string();
    for (module, role) in [(0, 1), (1, 0), (2, 0)] {
        for numbers in ["4 R 2 2 3 2 6", "5 R 2 2 3 2 6", "6 R 1 1 0 0 3"] {
            text += &format!("setup {module} {}\n", numbers.replace('R', &role.to_string()));
        }
    }
    let asked = "request 0 4 -\nrequest 0 5 -\nrequest 0 6 0a\n";
    text += &format!("{asked}{}full 0\nshort 2 1\nfull 4\nticks 3\ntick\nticks 5\n", "give 0\n".repeat(5));
    text += &format!("{asked}{}full 5\nshort 7 2\nfull 9\nfull 6\nfull 6\nticks 4\n", "give 0\n".repeat(5));
    let answers = harness(&text);
    let lines: Vec<&str> = answers.lines().skip(18).collect();
    let due = ["1:0:new 2:0:new", "1:0:new", "1:0:new 2:0:new", "3", "4 1:dropped:2 1:6:0a 2:dropped:1 2:6:0a", "9"];
    assert_eq!(lines[..due.len()], due);
    let due = [
        "1:0:new 2:0:new",
        "2:0:new",
        "1:0:new 2:0:new",
        "1:0:confirmed 2:0:confirmed",
        "1:0:confirmed-again 2:0:confirmed-again",
        "13 13:1:6:0a 13:2:dropped:1 13:2:6:0a",
    ];
    assert_eq!(lines[lines.len() - due.len()..], due);
}

/// Answers that are none: words of the old format, or that do not belong together.
#[test]
fn answers_that_harness_does_not_give() {
    let send = Event::Send { frame: 0, hearers: Hearers::Full };
    for (event, good, bad) in [
        (
            &send,
            "1:0:new 2:5 3:0:delivered:5:0a",
            &["1:0", "1:5:new", "1:0:newer", "1:0:delivered", "1:0:new:5:0a", "1:0:5:0a", "1:0:delivered:5"][..],
        ),
        (&Event::Tick, "7 1:dropped:2 1:5:0a", &["7 1:dropped:0", "7 1:dropped", "7 7:1:dropped:2", "7 1:dropped:x"]),
        (&Event::Ticks(3), "7 6:1:dropped:2 7:1:5:0a", &["7 1:dropped:2", "7 6:1:dropped:2:2"]),
    ] {
        let outcome = read_answer(event, good).expect("an answer");
        assert_eq!(write_answer(event, &outcome), good);
        for answer in bad {
            assert_eq!(read_answer(event, answer), None, "{answer}");
        }
    }
}

#[test]
fn at_least_1024_frames() {
    let mut text = "modules 2\nsetup 0 1 1 0 0 0 0 0\n".to_string();
    text += &"request 0 1 -\ngive 0\n".repeat(1_025);
    text += "full 1023\nfull 1024\nmodules 2\n";
    let answers = harness(&text);
    let lines: Vec<&str> = answers.lines().collect();
    assert_eq!(lines[2 + 2 * 1_023 + 1], "0 1023 7 -");
    assert_eq!(&lines[2 + 2 * 1_024..], ["0", "?", "1:5", "?", "modules 2"]);
}

#[test]
fn histories_there_and_back() {
    for number in 0..300 {
        let making = Making { fault: Fault::None, sinful: true, noise: true, edges: false };
        let made = history(&mut Random::of(3, number), making);
        let text = write_script(&made.lines);
        let mut read = read_script(&text);
        read.pop();
        assert_eq!(read, made.lines);
        let answers = answers(&made.lines, Fault::None);
        let telling = told(&made.lines, &answers, Fault::None).expect("the answers are read back");
        assert_eq!(telling.events, made.told.events);
        assert_eq!(telling.set_ups, made.told.set_ups);
        for (event, outcome) in &telling.events {
            let answer = write_answer(event, outcome);
            assert_eq!(read_answer(event, &answer).as_ref(), Some(outcome));
        }
        assert!(made.lines.iter().any(|line| matches!(line, Line::Event(_))));
    }
}

/// Every line of a random history that is answered by `?` has a reason that can be named.
#[test]
fn reasons_for_lines_that_harness_cannot_read() {
    let mut reasons = std::collections::BTreeSet::new();
    for number in 0..300 {
        let making = Making { fault: Fault::None, sinful: true, noise: true, edges: true };
        let made = history(&mut Random::of(5, number), making);
        let text = write_script(&made.lines);
        let answers = answers(&made.lines, Fault::None);
        let unread = answers.iter().filter(|answer| *answer == "?").count();
        let says: Vec<String> = match pair(&text, &answers) {
            Ok(_) => Vec::new(),
            Err(troubles) => troubles.iter().map(|trouble| trouble.says.clone()).collect(),
        };
        assert_eq!(says.len(), unread);
        reasons.extend(says.iter().filter_map(|says| Some(says.split_once(": ")?.0.to_string())));
    }
    assert!(reasons.len() > 10 && !reasons.contains("it can't be read"), "{reasons:?}");
}
