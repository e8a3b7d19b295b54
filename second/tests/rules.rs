//! The bench rules: histories that keep them, and one that breaks each.

use second::demand::{check_messages, Looked, Part, Told};
use second::fault::Fault;
use second::harness::read_script;
use second::history::{Event, Hearers, Line};
use second::rules::Break;
use second::told::{answers, judged, told};

/// The moments' stream 5 at a sender 0 and receivers 1 (A) and 2 (B).
const SET_UPS: &str = "modules 3\nsetup 0 5 1 2 2 3 2 6\nsetup 1 5 0 2 2 3 2 6\nsetup 2 5 0 2 2 3 2 6\n";

fn script(events: &str) -> Vec<Line> {
    let text = format!("{SET_UPS}{}", events.replace("; ", "\n"));
    let lines = read_script(text.trim_end().as_bytes());
    assert!(lines.iter().all(|line| !matches!(line, Line::Other(_))), "a line that can't be read in {events}");
    lines
}

fn breaks_of(lines: &[Line]) -> Vec<Break> {
    judged(lines, Fault::None).broken.iter().map(|broken| broken.what).collect()
}

fn breaks(events: &str) -> Vec<Break> {
    breaks_of(&script(events))
}

fn telling(lines: &[Line]) -> Told {
    told(lines, &answers(lines, Fault::None), Fault::None).expect("the answers are read back")
}

fn last_answers(lines: &[Line], number: usize) -> Vec<String> {
    let all = answers(lines, Fault::None);
    all[all.len() - number..].to_vec()
}

#[test]
fn moment_10() {
    let events = "ticks 10; request 0 5 0a0b; give 0; full 0; ticks 2; give 0; short 1 1; death 0; \
                  ticks 2; ticks 2; give 2; full 2; ticks 3";
    let lines = script(events);
    assert_eq!(breaks_of(&lines), []);
    assert_eq!(last_answers(&lines, 5), ["14 14:2:dropped:1", "16", "0 2 22 -", "1:0:dropped", "19"]);
    let mut looked = Looked::default();
    assert_eq!(check_messages(&telling(&lines), |_| true, &mut looked), []);
    assert_eq!((looked.all, looked.none, looked.full), (0, 1, 0));
}

#[test]
fn moment_10_with_a_full_confirmation() {
    let events = "ticks 10; request 0 5 0a0b; give 0; full 0; ticks 2; give 0; full 1; death 0; ticks 7";
    let lines = script(events);
    assert_eq!(breaks_of(&lines), []);
    assert_eq!(last_answers(&lines, 1), ["19 17:1:5:0a0b 17:2:5:0a0b"]);
    let mut looked = Looked::default();
    assert_eq!(check_messages(&telling(&lines), |_| true, &mut looked), []);
    assert_eq!((looked.all, looked.none, looked.full), (1, 0, 1));
}

#[test]
fn histories_that_keep_the_rules() {
    for events in [
        "",
        // The history ends within the reach.
        "request 0 5 -; ticks 2",
        // A repeat after a short sending.
        "request 0 5 -; give 0; give 0; short 0 1; full 0; full 1; ticks 9",
        // The sender dies between a failed sending and the repeat.
        "request 0 5 -; give 0; short 0 1; death 0; ticks 4; give 1; full 1; ticks 5",
        // The sender dies at the end of the data's reach, the data unsent.
        "request 0 5 -; ticks 2; death 0; ticks 7",
        // The sender lives with an omitted confirmation.
        "request 0 5 -; give 0; give 0; full 0; short 1 2; ticks 4; give 1; full 2; ticks 5",
        // A receiver dies with its abort given out and unsent.
        "request 0 5 -; give 0; give 0; full 0; short 1 2; ticks 4; give 1; death 1; ticks 5",
        // An omission that was repaired is none.
        "request 0 5 -; give 0; give 0; short 0 1; short 1 2; full 1; give 2; full 2; ticks 9",
        // Two messages in a row.
        "request 0 5 -; give 0; give 0; full 0; full 1; ticks 9; request 0 5 -; give 0; give 0; full 2; full 3; ticks 9",
        // Refused requests and a giving out with nothing pending.
        "give 0; request 1 5 -; request 0 9 -; request 0 5 000102030405060708",
        // A sending may name modules that do not hear.
        "request 0 5 -; death 2; give 0; short 0 0 2",
    ] {
        assert_eq!(breaks(events), [], "{events}");
    }
}

#[test]
fn what_is_said_of_settings() {
    assert_eq!(breaks("tick; setup 2 6 1 0 0 0 0 0"), [Break::LateSettings]);
    assert_eq!(breaks("setup 1 6 1 0 0 0 0 0; setup 2 6 0 1 1 0 0 1"), [Break::UnequalSettings]);
    assert_eq!(breaks("setup 1 6 1 0 0 0 0 0; setup 2 6 1 0 0 0 0 0"), [Break::NotOneSender]);
    assert_eq!(breaks("setup 1 6 0 0 0 0 0 0"), [Break::NotOneSender]);
    // Refused set ups are no part of a history.
    assert_eq!(breaks("setup 0 5 1 2 2 3 2 6; tick; setup 0 7 0 2 2 3 2 5"), []);
}

#[test]
fn rule_1() {
    let mut lines = script("request 0 5 -");
    lines.push(Line::Event(Event::Send { frame: 0, hearers: Hearers::Full }));
    assert_eq!(breaks_of(&lines), [Break::NotGivenOut]);
    assert_eq!(breaks("request 0 5 -; give 0; death 0; full 0"), [Break::OwnerDead]);
    assert_eq!(breaks("request 0 5 -; give 0; full 0; short 0 1"), [Break::AfterFull]);
}

#[test]
fn rule_2() {
    assert_eq!(breaks("request 0 5 -; give 0; give 0; short 0 1; short 1 1"), [Break::TwoOmissions]);
    assert_eq!(breaks("request 0 5 -; ticks 3"), [Break::Unsent]);
    // Given out is not sent.
    assert_eq!(breaks("request 0 5 -; give 0; ticks 3"), [Break::Unsent]);
    // The confirmation's reach is counted from the data's first sending.
    assert_eq!(breaks("request 0 5 -; give 0; short 0 1; ticks 2; full 0; tick"), []);
    assert_eq!(breaks("request 0 5 -; give 0; short 0 1; ticks 2; full 0; ticks 2"), [Break::Unsent]);
    // Aborts become pending at 4, and their reach ends at 6.
    let aborted = "request 0 5 -; give 0; full 0; death 0; death 1; ticks 6";
    assert_eq!(breaks(aborted), []);
    assert_eq!(breaks(&format!("{aborted}; tick")), [Break::Unsent]);
}

#[test]
fn rule_3() {
    assert_eq!(breaks("request 0 5 -; give 0; short 0 1; give 0; ticks 3; full 0"), [Break::DataLate]);
    assert_eq!(breaks("request 0 5 -; give 0; give 0; full 1"), [Break::ConfirmationFirst]);
    assert_eq!(breaks("request 0 5 -; give 0; give 0; short 0 1; full 1; full 0"), [Break::DataAfterConfirmation]);
    assert_eq!(breaks("request 0 5 -; give 0; give 0; full 0; short 1; ticks 4; short 1"), [Break::ConfirmationLate]);
    let aborted = "request 0 5 -; give 0; full 0; death 0; death 1; ticks 4; give 2; short 1; ticks 2";
    assert_eq!(breaks(aborted), []);
    assert_eq!(breaks(&format!("{aborted}; short 1")), []);
    assert_eq!(breaks(&format!("{aborted}; tick; short 1")), [Break::AbortLate]);
}

#[test]
fn rule_4() {
    assert_eq!(breaks("death 1; request 1 5 -"), [Break::DeadActs]);
    assert_eq!(breaks("death 1; give 1"), [Break::DeadActs]);
    assert_eq!(breaks("death 1; death 1"), [Break::DeadActs]);
}

/// An abort that is caused again while it is pending is the same frame; given out, it is another.
#[test]
fn an_abort_caused_again() {
    let start = "request 0 5 -; give 0; give 0; death 1; short 0; short 1 2; tick; short 1 2";
    // One abort, pending since 0 though caused again at 1: its reach ends at 2.
    assert_eq!(breaks(&format!("{start}; tick; give 2; full 2")), [Break::TwoOmissions]);
    assert_eq!(breaks(&format!("{start}; full 1; tick; give 2; full 2")), []);
    assert_eq!(breaks(&format!("{start}; full 1; ticks 2")), [Break::Unsent]);
    // Given out and full before the second cause: the second is pending since 1, and its reach ends at 3.
    let start = "request 0 5 -; give 0; give 0; death 1; short 0; short 1 2; give 2; full 2; tick; full 1";
    assert_eq!(breaks(&format!("{start}; ticks 2; give 2; full 3")), []);
    assert_eq!(breaks(&format!("{start}; ticks 3")), [Break::Unsent]);
}

/// Two omissions are asked after in the judged message alone. A frame that was not sent in time is asked after in
/// every message: an abort left pending takes away the next message's abort, and with it all or none.
#[test]
fn why_unsent_frames_of_other_messages_matter() {
    let first = "request 0 5 01; give 0; give 0; full 0; short 1 1; ticks 4; ticks 5";
    let second = "request 0 5 02; give 0; give 0; full 2; short 3 1; ticks 9";
    let lines = script(&format!("{first}; {second}"));
    let verdict = judged(&lines, Fault::None);
    assert_eq!(
        verdict.broken.iter().map(|broken| (broken.what, broken.message)).collect::<Vec<_>>(),
        [(Break::Unsent, Some(0))]
    );
    assert!(!verdict.spares(1));
    let failures = check_messages(&telling(&lines), |message| message == 1, &mut Looked::default());
    assert_eq!(failures.iter().map(|failure| failure.part).collect::<Vec<_>>(), [Part::AllOrNone]);
    // With the first message's abort sent, two omissions in that message leave the second to be judged.
    let first = "request 0 5 01; give 0; give 0; short 0 1; short 1 1; ticks 9";
    let second = "request 0 5 02; give 0; give 0; full 2; full 3; ticks 9";
    let verdict = judged(&script(&format!("{first}; {second}")), Fault::None);
    assert!(!verdict.keeps() && !verdict.spares(0) && verdict.spares(1));
}
