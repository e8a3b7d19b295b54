//! Histories judged from their text: where they break a rule, what became of their messages, and what is refused.

use std::path::PathBuf;

use second::judge::judge;
use second::program::Program;

/// Stream 5, 2M, from module 0 to modules 1 and 2, in lines 1 to 4.
const SET_UP: &str = "modules 3\nsetup 0 5 1 2 2 3 2 6\nsetup 1 5 0 2 2 3 2 6\nsetup 2 5 0 2 2 3 2 6\n";
const BY: &str = "rules: judged by the second implementation; deliveries: answered by the second implementation";

/// What is said of a history after its first line, and whether it is good.
fn said(history: &str) -> (Vec<String>, bool) {
    let said = judge(history.as_bytes(), None).unwrap_or_else(|troubles| panic!("{troubles:?}"));
    let mut lines: Vec<String> = said.text.lines().map(str::to_string).collect();
    assert_eq!(lines.remove(0), BY);
    (lines, said.is_good)
}

fn refused(history: &str) -> Vec<String> {
    let troubles = judge(history.as_bytes(), None).expect_err("a history that is refused");
    troubles.iter().map(ToString::to_string).collect()
}

#[test]
fn what_became_of_messages() {
    let all = format!("{SET_UP}# a comment\nrequest 0 5 07\ngive 0\nfull 0\ngive 0\nfull 1\nticks 9\nrequest 0 5 08\n");
    let due = [
        "keeps the rules",
        "5:07 all: 1 at 7, 2 at 7 (line 6, tick 0, judged at 9)",
        "5:08 open: 1 not yet, 2 not yet (line 12, tick 9, to be judged at 18)",
    ];
    assert_eq!(said(&all), (due.map(str::to_string).to_vec(), true));
    let none =
        format!("{SET_UP}request 0 5 07\ngive 0\nshort 0 1\ndeath 0\nticks 4\ngive 1\nfull 1\ndeath 2\nticks 5\n");
    let due = ["keeps the rules", "5:07 none: 1 not, 2 dead (line 5, tick 0, judged at 9)"];
    assert_eq!(said(&none), (due.map(str::to_string).to_vec(), true));
}

#[test]
fn plain_and_imd() {
    let history = "modules 3\nsetup 0 7 1 0 0 0 0 0\nsetup 1 7 0 0 0 0 0 0\nsetup 2 7 0 0 0 0 0 0\n\
                   setup 0 9 1 1 2 0 0 3\nsetup 1 9 0 1 2 0 0 3\nrequest 0 7 01\ngive 0\nshort 0 1\n\
                   request 0 7 02\nrequest 0 9 2a\ngive 0\ngive 0\nfull 2\nticks 6\n";
    let due = [
        "keeps the rules",
        "7:01 differs: 1 at 0, 2 not (line 7, tick 0; plain, nothing is promised)",
        "7:02 open: 1 not yet, 2 not yet (line 10, tick 0, not sent; plain, nothing is promised)",
        "9:2a all: 1 at 4 (line 11, tick 0, judged at 6; IMD, all or none is not promised)",
    ];
    assert_eq!(said(history), (due.map(str::to_string).to_vec(), false));
}

/// One history for each way to break a rule, with the line at which it shows.
#[test]
fn where_rules_are_broken() {
    for (events, line, says) in [
        ("tick; setup 2 6 1 0 0 0 0 0", 6, "settings rule, LateSettings: settings are made before anything else"),
        (
            "setup 1 6 1 0 0 0 0 0; setup 2 6 0 1 1 0 0 1",
            6,
            "settings rule, UnequalSettings: stream 6 has another class or other numbers where it was set up before",
        ),
        ("setup 1 6 1 0 0 0 0 0; setup 2 6 1 0 0 0 0 0", 6, "settings rule, NotOneSender: stream 6 has 2 senders"),
        ("setup 1 6 0 0 0 0 0 0; tick", 5, "settings rule, NotOneSender: stream 6 has no sender"),
        (
            "request 0 5 -; give 0; death 0; full 0",
            8,
            "rule 1, OwnerDead: the data, frame 0, of 5:- (requested in line 5) is sent, and its module is dead",
        ),
        (
            "request 0 5 -; give 0; full 0; short 0 1",
            8,
            "rule 1, AfterFull: the data, frame 0, of 5:- (requested in line 5) is sent again after a full sending",
        ),
        (
            "request 0 5 -; give 0; give 0; short 0 1; short 1 1; tick",
            9,
            "rule 2, TwoOmissions: frames 0 and 1 of 5:- (requested in line 5) each have a short sending as their last",
        ),
        (
            "request 0 5 -; ticks 2; tick",
            7,
            "rule 2, Unsent: the data of 5:- (requested in line 5) was not sent by tick 2, the end of its reach",
        ),
        (
            "request 0 5 -; give 0; full 0; death 0; death 1; ticks 7",
            10,
            "rule 2, Unsent: the abort by module 2 of 5:- (requested in line 5) was not sent by tick 6, the end of its reach",
        ),
        (
            "request 0 5 -; give 0; short 0 1; give 0; ticks 3; full 0",
            10,
            "rule 3, DataLate: the data, frame 0, of 5:- (requested in line 5) is sent after tick 2, the end of its reach",
        ),
        (
            "request 0 5 -; give 0; give 0; full 1",
            8,
            "rule 3, ConfirmationFirst: the confirmation, frame 1, of 5:- (requested in line 5) is sent before its data",
        ),
        (
            "request 0 5 -; give 0; give 0; short 0 1; full 1; full 0",
            10,
            "rule 3, DataAfterConfirmation: the data, frame 0, of 5:- (requested in line 5) is sent after its confirmation",
        ),
        (
            "request 0 5 -; give 0; give 0; full 0; short 1; ticks 4; short 1 1 2",
            11,
            "rule 3, ConfirmationLate: the confirmation, frame 1, of 5:- (requested in line 5) is sent after tick 3, the end of \
             its reach",
        ),
        (
            "request 0 5 -; give 0; full 0; death 0; death 1; ticks 4; give 2; short 1; ticks 3; full 1",
            14,
            "rule 3, AbortLate: the abort by module 2, frame 1, of 5:- (requested in line 5) is sent after tick 6, the end of \
             its reach",
        ),
        ("death 1; request 1 5 -", 6, "rule 4, DeadActs: module 1 is dead, and a request is made of it"),
        ("death 1; give 1", 6, "rule 4, DeadActs: module 1 is dead, and is to give out a frame"),
        ("death 1; death 1", 6, "rule 4, DeadActs: module 1 is dead already"),
    ] {
        let (lines, is_good) = said(&format!("{SET_UP}{}\n", events.replace("; ", "\n")));
        assert!(!is_good);
        assert_eq!(lines[0], format!("line {line}: breaks {says}"), "{events}");
        assert!(!lines[1..].iter().any(|line| line.contains("breaks") && !line.contains("nothing is promised")), "{events}");
    }
}

#[test]
fn a_broken_bus_excuses_what_differs() {
    let history = format!("{SET_UP}request 0 5 07\ngive 0\nshort 0 1\ngive 0\nshort 1 1\nticks 9\n");
    let due =
        "5:07 differs: 1 at 7, 2 not (line 5, tick 0, judged at 9; nothing is promised, since line 9 breaks rule 2)";
    let (lines, is_good) = said(&history);
    assert!(!is_good && lines.iter().any(|line| line == due), "{lines:?}");
    assert!(!lines.iter().any(|line| line.contains("demand 3")), "{lines:?}");
}

#[test]
fn what_is_refused() {
    let unread = SET_UP.replace("setup 2 5 0 2 2 3 2 6", "setup 2 5 0 2 2 3 2 66666");
    assert_eq!(refused(&unread), ["line 4: DD is above its limit, 65,535: setup 2 5 0 2 2 3 2 66666"]);
    assert_eq!(refused(""), ["there is no line `modules N`"]);
    assert_eq!(refused("# nothing\n"), ["there is no line `modules N`"]);
    assert_eq!(refused("tick\n"), ["line 1: no line `modules N` stands before it: tick"]);
    let twice = format!("{SET_UP}modules 2\n");
    assert_eq!(refused(&twice), ["line 5: a history is of one bench, and this begins another: modules 2"]);
    let many = format!("modules 2\nsetup 0 1 1 0 0 0 0 0\n{}", "request 0 1 -\ngive 0\n".repeat(1_025));
    assert_eq!(refused(&many), ["line 2052: no more frames can be given out: give 0"]);
}

/// A program that answers otherwise than the second implementation is named, and nothing is good then.
#[test]
fn a_program_that_answers_otherwise() {
    let second = PathBuf::from(env!("CARGO_BIN_EXE_second"));
    let arguments = |fault: &str| ["harness", "--fault", fault].map(str::to_string).to_vec();
    let history = format!("{SET_UP}request 0 5 07\ngive 0\nfull 0\ngive 0\nfull 1\nticks 9\n");
    let told = |arguments| judge(history.as_bytes(), Some(&Program { path: second.clone(), arguments })).expect("said");
    let faultless = told(vec!["harness".to_string()]);
    assert!(faultless.is_good && faultless.text.contains("deliveries: answered by second\n"));
    let faulty = told(arguments("never-delivers"));
    assert!(!faulty.is_good);
    let lines: Vec<&str> = faulty.text.lines().collect();
    assert_eq!(lines[1], "line 10: second answers 9, and the second implementation 9 7:1:5:07 7:2:5:07");
    assert_eq!(lines[2], "keeps the rules");
    assert!(lines[4].starts_with("demand 3 fails: all if full"), "{lines:?}");
}
