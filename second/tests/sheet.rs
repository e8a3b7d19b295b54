//! The text format of `sheet`, Table 3 of source document 001, and the table for people.

use second::response::Wrong;
use second::sheet::answer;
use second::sheet_table::table;

fn says(line: &str) -> String {
    answer(line.as_bytes(), Wrong::Nothing)
}

/// The table's streams at 1 Mbit/s, with `extra` bits added to each C.
fn table_three(extra: u64) -> String {
    let streams = [(89, 5_000), (127, 10_000), (108, 10_000), (108, 10_000), (108, 10_000)];
    let records: Vec<String> =
        (1..).zip(streams).map(|(priority, (c, t))| format!("{priority} {} {t} {t}", c + extra)).collect();
    format!("solve 10 2 10000 150 {}", records.join(" "))
}

#[test]
fn table_three_does_not_follow_from_c_as_it_is_printed() {
    assert_eq!(says(&table_three(0)), "0 0 427 516 497 624 624 732 732 840 732 840");
}

#[test]
fn table_three_follows_with_three_bits_in_blocking_and_interference() {
    let answer = says(&table_three(3));
    let numbers: Vec<u64> = answer.split(' ').skip(2).filter_map(|word| word.parse().ok()).collect();
    let printed = [89, 127, 108, 108, 108];
    let responses: Vec<u64> = numbers.chunks(2).zip(printed).map(|(pair, c)| pair[0] + c).collect();
    assert_eq!(responses, [519, 630, 741, 852, 852]);
}

#[test]
fn what_stands_past_the_numbers_stays() {
    assert_eq!(says("solve 3 0 1 0 7 5 9 9"), "0 0 0 5 4294967295");
    assert_eq!(says("solve 0 0 1 0"), "0 0 -");
    assert_eq!(says("solve 1 0 0 0"), "13 0 4294967295");
}

#[test]
fn refusals_in_order() {
    let two = |deadline: u64, out: u64| says(&format!("solve {out} 0 1 0 2 2 10 10 9 3 10 {deadline}"));
    assert_eq!(two(5, 4), "0 0 3 5 2 5");
    assert!(two(4, 4).starts_with("14 1 "));
    assert!(two(4, 3).starts_with("11 0 "));
    assert!(two(0, 3).starts_with("13 0 "));
}

#[test]
fn what_can_not_be_read() {
    let record = " 1 1 1 1";
    let many = |count: usize| format!("solve 0 0 1 0{}", record.repeat(count));
    assert!(says(&many(80)).starts_with("13 0 "));
    assert_eq!(says(&many(81)), "?");
    for line in [
        "",
        "solve",
        "solve 0 0 1",
        "solve 257 0 1 0",
        "solve 0 0 1 4294967296",
        "solve  0 0 1 0",
        "solve 0 0 1 0 ",
        "solve 0 0 1 0 1 2 3",
    ] {
        assert_eq!(says(line), "?", "{line:?}");
    }
}

fn shown(text: &str) -> Result<String, Vec<String>> {
    table("plan", text, |line| Ok(says(line)))
}

#[test]
fn a_table_with_names() {
    let text = "# two\nerrors 0 1 0\n\nlamp 2 2 10 10\nsweep-head 9 3 10 5\n";
    let due = "stream      waiting  response  deadline  margin\n\
               lamp              3         5        10       5\n\
               sweep-head        2         5         5       0\n";
    assert_eq!(shown(text).as_deref(), Ok(due));
}

#[test]
fn what_is_wrong_in_which_line() {
    let wrong = |text: &str| shown(text).err().unwrap_or_default().join("\n");
    assert_eq!(
        wrong("errors 0 1 0\nlamp 2 2 10 10\nhead 9 3 10 4\n"),
        "plan:3: head can be late: no waiting time satisfies its equation and, with a message of 3 bits, its deadline of 4 bits"
    );
    assert_eq!(wrong("lamp 2 2 10\n"), "plan:1: 4 numbers are wanted here: PRIORITY C T D");
    assert_eq!(wrong("\nlamp 2 0 10 10\n"), "plan:2: C is 0, and must be a number from 1 to 1000000");
    assert_eq!(wrong("lamp 2 1 9 9\nhead 2 1 9 9\n"), "plan:2: priority 2 is that of lamp in line 1 too");
    assert_eq!(wrong("errors 17 1 0\n"), "plan:1: N is 17, and must be a number from 0 to 16");
    assert_eq!(wrong("errors 1 1 0\nerrors 1 1 0\n"), "plan:2: a second line for the errors; line 1 has them");
    assert_eq!(wrong("# nothing\n"), "plan: there is no stream");
    assert_eq!(wrong("lamp 2 2 10 10\n"), "plan: there is no line `errors N PERIOD INACC`");
    let many: String = (1..=65).map(|number| format!("s{number} {number} 1 1000000 1000000\n")).collect();
    assert_eq!(wrong(&many), "plan:65: this is the 65th stream, and 64 are the most");
}
