//! Histories answered by the second implementation, and what the picture makes of them.

use picture::columns::{columns, Column};
use picture::marks::dropped_text;
use picture::picture;
use picture::rows::{rows, Cell, Row};
use picture::scene::{Scene, Seen};
use second::fault::Fault;
use second::harness::Harness;
use second::messages::End;
use second::pairs::Trouble;

/// Two receivers of a 2M stream: Rd 2, dc 3, Ra 2, dd 6.
const SET_UP: &str = "modules 3\nsetup 0 5 1 2 2 3 2 6\nsetup 1 5 0 2 2 3 2 6\nsetup 2 5 0 2 2 3 2 6\n";

fn answers(history: &str) -> Vec<String> {
    let mut harness = Harness::new(Fault::None);
    history.split('\n').filter_map(|line| harness.answer(line.as_bytes())).collect()
}

fn scene(events: &str) -> Scene {
    let history = format!("{SET_UP}{events}");
    picture::scene(history.as_bytes(), &answers(&history)).expect("a history that can be read")
}

fn ends(events: &str) -> Vec<End> {
    scene(events).windows.iter().map(|window| window.end).collect()
}

/// What was dropped, in the words of its marks, with the ticks.
fn drops(scene: &Scene) -> Vec<(u64, String)> {
    let dropped = |seen: &Seen| match seen {
        Seen::Drops(dropped) | Seen::Sending { dropped, .. } => dropped.clone(),
        _ => Vec::new(),
    };
    let all = scene.moments.iter().flat_map(|moment| dropped(&moment.seen).into_iter().map(|each| (moment.tick, each)));
    all.map(|(tick, dropped)| (tick, dropped_text(scene, &dropped))).collect()
}

fn drawn(events: &str) -> String {
    let history = format!("{SET_UP}{events}");
    picture("history", history.as_bytes(), &answers(&history)).expect("a picture")
}

fn troubles(history: &str, answers: &[String]) -> Vec<Trouble> {
    picture("history", history.as_bytes(), answers).expect_err("a history with errors")
}

#[test]
fn how_windows_end() {
    let full = "request 0 5 07\ngive 0\nfull 0\ngive 0\nfull 1\n";
    assert_eq!(ends(&format!("{full}ticks 9\n")), [End::All]);
    assert_eq!(ends(&format!("{full}ticks 8\n")), [End::Open]);
    let unconfirmed = "request 0 5 07\ngive 0\nfull 0\nticks 9\n";
    assert_eq!(ends(unconfirmed), [End::None]);
    let short = "request 0 5 07\ngive 0\nshort 0 1\ngive 0\nshort 1 1\nticks 9\n";
    assert_eq!(ends(short), [End::Differs]);
    let half_confirmed = "request 0 5 07\ngive 0\nfull 0\ngive 0\nshort 1 1\nticks 9\n";
    assert_eq!(ends(half_confirmed), [End::Differs]);
}

#[test]
fn drops_stand_where_they_happen() {
    let due = |due: &[(u64, &str)]| -> Vec<(u64, String)> {
        due.iter().map(|(tick, says)| (*tick, says.to_string())).collect()
    };
    let of_one = |module: usize, tag: &str| format!("module {module} drops 1 message: {tag}");
    let (one, two) = (of_one(1, "5:07"), of_one(2, "5:07"));
    let unconfirmed = "tick\nrequest 0 5 07\ngive 0\nfull 0\n";
    // By one line or by many, and not before.
    assert_eq!(drops(&scene(&format!("{unconfirmed}ticks 3\n"))), []);
    assert_eq!(drops(&scene(&format!("{unconfirmed}ticks 9\n"))), due(&[(5, &one), (5, &two)]));
    assert_eq!(drops(&scene(&format!("{unconfirmed}{}", "tick\n".repeat(9)))), due(&[(5, &one), (5, &two)]));
    // By an abort; what is confirmed is not dropped by a tick.
    let half_confirmed = "request 0 5 07\ngive 0\nfull 0\ngive 0\nshort 1 1\nticks 5\ngive 2\nfull 2\nticks 9\n";
    assert_eq!(drops(&scene(half_confirmed)), due(&[(4, &two), (5, &one)]));
    // The next message of the stream has its own name.
    let again = "ticks 9\nrequest 0 5 08\ngive 0\ngive 0\ngive 0\nfull 1\nticks 4\n";
    let (three, four) = (of_one(1, "5:08"), of_one(2, "5:08"));
    let both = format!("request 0 5 07\ngive 0\ngive 0\nfull 0\nticks 4\n{}", again.replace("full 1", "full 2"));
    assert_eq!(drops(&scene(&both)), due(&[(4, &one), (4, &two), (17, &three), (17, &four)]));
}

/// Where a module drops some of what it holds, and the answers do not tell which, the mark does not name it.
#[test]
fn drops_of_several() {
    let of = |delays: &str| {
        let stream = |module: usize, role: u8| format!("setup {module} 6 {role} 2 {delays}\n");
        let asked = "request 0 5 07\nrequest 0 6 08\ngive 0\ngive 0\ngive 0\nshort 0 1\nshort 2 1\nticks 9\n";
        format!("{}{}{asked}", stream(0, 1), stream(1, 0))
    };
    let says = |events: &str| -> Vec<String> { drops(&scene(events)).into_iter().map(|(_, says)| says).collect() };
    let together = of("2 3 2 6");
    assert_eq!(says(&together), ["module 1 drops 2 messages: 5:07, 6:08"]);
    let svg = drawn(&together);
    assert_eq!((svg.matches("<g class=\"mark drop\">").count(), svg.matches(">2 dropped<").count()), (1, 1));
    let apart = of("2 5 2 8");
    assert_eq!(says(&apart), ["module 1 drops 1 message of 5:07, 6:08"; 2]);
    assert_eq!(drawn(&apart).matches(">?<").count(), 2);
}

/// A mark says what its frame did, and so does its title.
#[test]
fn what_frames_did() {
    let events =
        "request 0 5 07\ngive 0\nshort 0 1\nfull 0\ngive 0\nshort 1 1\nfull 1\nticks 7\nfull 1\ngive 1\nfull 2\n";
    let svg = drawn(events);
    for (says, word, times) in [
        ("module 1 hears frame 0, data 5:07: 0 Done, duplicate", "duplicate", 1),
        ("module 2 hears frame 0, data 5:07: 0 Done, new", "new", 2),
        ("module 2 hears frame 1, confirmation 5: 0 Done, confirmed", "confirmed", 3),
        ("module 1 hears frame 1, confirmation 5: 0 Done, confirmed again", "again", 1),
        ("module 1 hears frame 1, confirmation 5: 0 Done, abort pending", "pending", 2),
        ("module 2 hears frame 2, abort 5: 0 Done, nothing to drop", "to drop", 1),
    ] {
        assert!(svg.contains(&format!(": {says}</title>")), "{says}");
        assert_eq!(svg.matches(&format!(">{word}</text>")).count(), times, "{word}");
    }
    let history = "modules 2\nsetup 0 7 1 0 0 0 0 0\nsetup 1 7 0 0 0 0 0 0\nrequest 0 7 0a\ngive 0\nfull 0\n";
    let svg = picture("history", history.as_bytes(), &answers(history)).expect("a picture");
    assert!(
        svg.contains(": module 1 hears frame 0, plain 7:0a: 0 Done, delivered</title>") && svg.contains(">delivered<")
    );
}

#[test]
fn the_dead_are_not_asked() {
    let short = "request 0 5 07\ngive 0\nshort 0 1\ngive 0\nshort 1 1\n";
    assert_eq!(ends(&format!("{short}death 2\nticks 9\n")), [End::All]);
    assert_eq!(ends(&format!("{short}ticks 8\ndeath 2\ntick\n")), [End::All]);
    assert_eq!(ends(&format!("{short}ticks 9\ndeath 2\n")), [End::Differs]);
    assert_eq!(ends(&format!("{short}death 1\ndeath 2\nticks 9\n")), [End::None]);
}

#[test]
fn a_refused_request_has_no_window() {
    let twice = "request 0 5 07\nrequest 0 5 08\nrequest 1 5 08\n";
    assert_eq!(ends(twice).len(), 1);
}

#[test]
fn who_missed_a_short_sending() {
    let scene = scene("request 0 5 07\ngive 0\nshort 0\ndeath 1\nshort 0\ndeath 2\nfull 0\n");
    let missed: Vec<&Vec<usize>> = scene
        .moments
        .iter()
        .filter_map(|moment| match &moment.seen {
            Seen::Sending { missed, .. } => Some(missed),
            _ => None,
        })
        .collect();
    assert_eq!(missed, [&vec![1, 2], &vec![2], &vec![]]);
}

#[test]
fn quiet_stretches_are_folded() {
    let shown = |events: &str| -> Vec<String> {
        let text = |column: &Column| match column {
            Column::Tick { tick, .. } => tick.to_string(),
            Column::Fold { ticks } => format!("({ticks})"),
        };
        columns(&scene(events)).iter().map(text).collect()
    };
    assert_eq!(shown("ticks 4\n"), ["0", "1", "2", "3", "4"]);
    assert_eq!(shown("ticks 1000000\n"), ["0", "(999999)", "1000000"]);
    // A window's end is kept, though nothing happens there.
    assert_eq!(shown("request 0 5 07\nticks 1000\n"), ["0", "(8)", "9", "(990)", "1000"]);
}

#[test]
fn a_tick_too_wide_for_a_row_is_continued() {
    let many = "request 0 5 07\n".repeat(100);
    let rows = rows(&scene(&many), 900);
    assert!(rows.len() > 1 && rows.iter().all(|row| row.width <= 900));
    assert_eq!(rows.iter().map(|row| row.slots().count()).sum::<usize>(), 100);
    let continued = |row: &Row| matches!(row.cells[0].cell, Cell::Tick { tick: 0, continued: true, .. });
    assert!(rows[1..].iter().all(continued));
}

/// Whatever the width is at which a row is full, no row has nothing but ticks.
#[test]
fn no_row_is_empty() {
    let wide = "request 0 5 0011223344556677\n".repeat(4);
    for events in [
        format!("ticks 20\n{wide}ticks 20\n"),
        format!("ticks 3\n{wide}ticks 4\n{wide}ticks 6\n"),
        format!("{wide}give 0\nfull 0\ngive 0\nfull 1\nticks 30\nrequest 0 5 08\nticks 30\n"),
    ] {
        let scene = scene(&events);
        for width in 600..960 {
            let rows = rows(&scene, width);
            assert!(rows.iter().all(|row| row.slots().next().is_some()), "{events} at {width}");
            assert!(rows.iter().all(|row| row.width <= width), "{events} at {width}");
        }
    }
}

/// The word below a record stands below all lines of it.
#[test]
fn long_payloads_are_not_overprinted() {
    for payload in ["-", "07", "0011223344556677"] {
        let set_up = SET_UP.replace(" 5 ", " 134217727 ");
        let history = format!("{set_up}request 0 134217727 {payload}\ngive 0\nfull 0\nticks 9\n");
        let svg = picture("history", history.as_bytes(), &answers(&history)).expect("a picture");
        let drop =
            svg.split("<g class=\"mark drop\">").nth(1).and_then(|rest| rest.split("</g>").next()).expect("a drop");
        let number = |line: &str, name: &str| -> i32 {
            let value = line.split(&format!(" {name}=\"")).nth(1).and_then(|rest| rest.split('"').next());
            value.and_then(|value| value.parse().ok()).expect("a number")
        };
        let find = |part: &str| drop.lines().find(|line| line.contains(part)).expect("a part of the drop");
        let record = find("<rect");
        let bottom = number(record, "y") + number(record, "height");
        let word = find(">dropped<");
        assert!(number(word, "y") - 10 >= bottom, "{drop}");
        let lines = drop.lines().filter(|line| line.contains("class=\"p b\""));
        assert!(lines.clone().count() > 0 && lines.into_iter().all(|line| number(line, "y") < bottom), "{drop}");
    }
}

/// The ticks and the lines of moments that have a note.
fn noted(events: &str) -> Vec<(u64, bool)> {
    let scene = scene(events);
    let noted = scene.moments.iter().filter(|moment| moment.note.is_some());
    noted.map(|moment| (moment.tick, moment.seen == Seen::Remark)).collect()
}

#[test]
fn a_note_stands_where_it_was_written() {
    assert_eq!(noted("ticks 3\n# note: x\nrequest 0 5 07\n"), [(3, false)]);
    assert_eq!(noted("ticks 3\n# note: x\nticks 100\nrequest 0 5 07\n"), [(3, true)]);
    assert_eq!(noted("ticks 3\n# note: x\n# note: y\ntick\n"), [(3, true)]);
    assert_eq!(noted("ticks 3\n# note: x\n"), [(3, true)]);
    let delivered = "request 0 5 07\ngive 0\nfull 0\ngive 0\nfull 1\n# note: x\nticks 9\n# note: y\nticks 100\n";
    assert_eq!(noted(delivered), [(0, true), (9, true)]);
}

/// A history that breaks a rule says so beside what differs, and in the head.
#[test]
fn the_verdict_on_the_rules() {
    let kept = drawn("request 0 5 07\ngive 0\nfull 0\ngive 0\nfull 1\nticks 9\n");
    assert!(kept.contains(">The history keeps the bench rules.<") && !kept.contains("breaks rule"));
    let broken = drawn("request 0 5 07\ngive 0\nshort 0 1\ngive 0\nshort 1 1\nticks 9\n");
    assert!(broken.contains("<text class=\"breaks\" ") && broken.contains("line 9: breaks rule 2, TwoOmissions: "));
    assert!(broken.contains(">differs: rule 2 broken<") && !broken.contains("keeps the bench rules"));
}

/// What differs with no rule broken would be a fault of the node.
#[test]
fn a_fault_of_the_node_is_not_excused() {
    let history = format!("{SET_UP}request 0 5 07\ngive 0\nfull 0\ngive 0\nfull 1\nticks 9\n");
    let mut answers = answers(&history);
    let last = answers.len() - 1;
    answers[last] = "9 7:1:5:07".to_string();
    let svg = picture("history", history.as_bytes(), &answers).expect("a picture");
    assert!(svg.contains(">differs, though no rule is broken<") && svg.contains("keeps the bench rules"));
}

#[test]
fn errors_are_named_by_line() {
    let history = "# a comment\nmodules 2\n\ngive 2\nfull 0\ngive\nmodules 3\n";
    let named: Vec<String> = troubles(history, &answers(history)).iter().map(Trouble::to_string).collect();
    let whole = [
        "line 4: there is no module 2: they are 0 to 1: give 2",
        "line 5: there is no frame 0: none is given out so far: full 0",
        "line 6: too few words for `give M`: give",
        "line 7: a history is of one bench, and this begins another: modules 3",
    ];
    assert_eq!(named, whole);
}

#[test]
fn a_history_needs_modules() {
    let says = |history: &str| troubles(history, &answers(history))[0].to_string();
    assert_eq!(says(""), "there is no line `modules N`");
    assert_eq!(says("# nothing\n"), "there is no line `modules N`");
    assert_eq!(says("tick\n"), "line 1: no line `modules N` stands before it: tick");
    assert_eq!(says("modules 2\r\n"), "line 1: it ends in a carriage return: modules 2\\r");
}

#[test]
fn answers_that_are_none() {
    let says = |answers: &[&str]| {
        let answers: Vec<String> = answers.iter().map(|answer| answer.to_string()).collect();
        troubles("modules 2\ntick\n", &answers)[0].to_string()
    };
    assert_eq!(says(&["modules 2"]), "line 2: the harness gave no answer: tick");
    assert_eq!(says(&["modules 2", "one"]), "line 2: the harness answered one, which is no answer: tick");
    assert_eq!(says(&["modules 2", "1 7:5:00"]), "line 2: the answer names a module that is not there: tick");
    assert_eq!(says(&["modules 2", "1 2:dropped:1"]), "line 2: the answer names a module that is not there: tick");
    assert_eq!(
        says(&["modules 2", "1 1:dropped:0"]),
        "line 2: the harness answered 1 1:dropped:0, which is no answer: tick"
    );
    assert_eq!(says(&["modules 2", "1", "2"]), "the harness gave 1 more answers than there are lines");
}

#[test]
fn names_and_notes_are_text() {
    let history = "# title: <a> & \"b\"\n# module 1: x<y\nmodules 2\n# note: </svg>\ngive 0\n";
    let svg = picture("history", history.as_bytes(), &answers(history)).expect("a picture");
    assert!(svg.contains("&lt;a&gt; &amp; &quot;b&quot;") && svg.contains("1 x&lt;y") && svg.contains("&lt;/svg&gt;"));
    assert_eq!(svg.matches("</svg>").count(), 1);
}
