//! The text format of `recording`, what `replay` prints, and the random recordings.

use second::heard::{bytes, Record};
use second::random::Random;
use second::random_recordings::script;
use second::recording::{printed, Recording};
use second::replay::Making;
use second::words::hex;

fn says(lines: &[&str]) -> Vec<String> {
    let mut recording = Recording::new(Making::FAULTLESS);
    lines.iter().filter_map(|line| recording.answer(line.as_bytes())).collect()
}

/// The bytes of frames: counter, identifier and payload of each.
fn recorded(frames: &[(u16, u32, &[u8])]) -> Vec<u8> {
    let record = |(counter, id, payload): &(u16, u32, &[u8])| Record {
        counter: *counter,
        id: *id,
        dlc: payload.len() as u8,
        payload: payload.to_vec(),
    };
    frames.iter().flat_map(|frame| bytes(&record(frame)).expect("a payload of eight bytes at most")).collect()
}

fn replayed(settings: &[&str], recording: &[u8]) -> String {
    let replay = format!("replay {}", hex(recording));
    let mut lines: Vec<&str> = settings.to_vec();
    lines.push(&replay);
    says(&lines).pop().unwrap_or_default()
}

const FIVE: &str = "setting 5 0 2 2 3 2 6";

fn print(recording: &[u8]) -> String {
    printed(recording, Making::FAULTLESS)
}

#[test]
fn the_example_of_the_change_request() {
    let recording = recorded(&[(10, 20, &[0x0a, 0x0b]), (13, 21, &[]), (17, 24, &[])]);
    assert_eq!(print(&recording), "17 5 2 0a0b\n");
    assert_eq!(replayed(&[FIVE], &recording), "0 0 17:5:0a0b");
}

#[test]
fn no_ticks_follow_the_last_record() {
    assert_eq!(print(&recorded(&[(10, 20, &[7]), (13, 21, &[]), (16, 24, &[])])), "");
    assert_eq!(print(&recorded(&[(10, 20, &[7]), (13, 21, &[])])), "");
}

#[test]
fn a_refused_frame_does_not_end_it() {
    let frames =
        recorded(&[(10, 20, &[7]), (10, 20, &[8]), (11, 23, &[]), (12, u32::MAX, &[]), (13, 21, &[]), (17, 24, &[])]);
    assert_eq!(print(&frames), "17 5 1 07\n");
}

#[test]
fn ticks_are_counted_past_the_rollover() {
    let frames = recorded(&[(65_534, 20, &[]), (0, 21, &[]), (0, 24, &[]), (65_535, 24, &[]), (5, 24, &[])]);
    assert_eq!(print(&frames), "65541 5 0\n");
    let later = recorded(&[(65_535, 24, &[]), (65_534, 20, &[1]), (65_534, 21, &[]), (65_533, 24, &[])]);
    assert_eq!(print(&later), "131077 5 1 01\n");
}

#[test]
fn deliveries_stand_when_a_record_is_at_fault() {
    let mut recording = recorded(&[(10, 20, &[0x0a, 0x0b]), (13, 21, &[]), (17, 24, &[])]);
    let whole = recording.len();
    assert_eq!(whole, 35);
    recording.push(9);
    assert_eq!(print(&recording), "17 5 2 0a0b\n15 35\n");
    recording.extend([0, 31, 0]);
    assert_eq!(print(&recording), "17 5 2 0a0b\n15 35\n");
    recording.extend([0; 7]);
    assert_eq!(print(&recording), "17 5 2 0a0b\n16 35\n");
    recording[whole + 2] = 32;
    recording[whole] = 8;
    assert_eq!(replayed(&[FIVE], &recording), "17 35 17:5:0a0b");
    // The record at fault is not ticked to.
    assert_eq!(
        print(&[recorded(&[(10, 20, &[1]), (13, 21, &[])]), vec![8, 0, 32, 0, 20, 0, 0, 0, 0, 0]].concat()),
        "17 23\n"
    );
}

#[test]
fn the_first_record_at_fault_decides() {
    assert_eq!(
        says(&["replay 00001f00", "replay 00002000", "replay 000020", "replay 0500200000"]),
        ["16 0", "17 0", "15 0", "15 0"]
    );
    assert_eq!(says(&["replay 00001f0000002000"]), ["16 0"]);
    assert_eq!(says(&["replay -"]), ["0 0"]);
}

#[test]
fn settings_are_judged_first_and_in_order() {
    let bad = "setting 5 0 2 2 3 2 5";
    for recording in [&[][..], &[0], &[0, 0, 31, 0]] {
        assert_eq!(replayed(&[bad], recording), "1 0");
        assert_eq!(replayed(&[FIVE, FIVE, bad], recording), "3 0");
        assert_eq!(replayed(&[FIVE, bad, FIVE], recording), "1 0");
    }
    let many: Vec<String> = (0..40).map(|stream| format!("setting {stream} 1 0 0 0 0 0")).collect();
    let many: Vec<&str> = many.iter().map(String::as_str).collect();
    assert_eq!(replayed(&many[..32], &[]), "0 0");
    assert_eq!(replayed(&many[..33], &[]), "2 0");
    assert_eq!(replayed(&many, &[]), "2 0");
}

#[test]
fn every_class_delivers_and_a_send_slot_does_no_harm() {
    let settings = ["setting 6 1 1 1 0 0 1", "setting 7 0 0 0 0 0 0", "setting 8 0 1 1 0 0 4", FIVE];
    let frames = recorded(&[(3, 24, &[1]), (3, 31, &[2]), (5, 20, &[3]), (5, 21, &[]), (7, 32, &[4]), (12, 31, &[])]);
    assert_eq!(replayed(&settings, &frames), "0 0 3:7:02 12:5:03 12:8:04 12:7:-");
}

#[test]
fn the_list_of_settings() {
    let bad = "setting 5 9 9 0 0 0 0";
    assert_eq!(says(&[FIVE, bad, "settings", FIVE, "# x", "", "setting 5"]), ["0", "1", "settings", "0", "?"]);
    let mut lines = vec![FIVE; 41];
    lines.extend(["replay -", "settings", "replay -", FIVE]);
    let answers = says(&lines);
    assert_eq!(answers[38..], ["38", "39", "?", "3 0", "settings", "0 0", "0"]);
}

#[test]
fn records_written() {
    let lines = [
        "write 10 20 2 0a0b 13",
        "write 65535 4294967295 255 - 13",
        "write 10 20 2 0a0b 12",
        "write 0 0 8 0102030405060708 19",
        "write 0 0 9 010203040506070809 0",
        "write 0 0 0 - 0",
    ];
    let due = [
        "0 13 0b0020000a0014000000020a0b",
        "0 11 09002000ffffffffffffffeeee",
        "11 0 eeeeeeeeeeeeeeeeeeeeeeee",
        "0 19 11002000000000000000080102030405060708",
        "17 0 -",
        "11 0 -",
    ];
    assert_eq!(says(&lines), due);
}

#[test]
fn what_can_not_be_read() {
    for line in [
        "settings 1",
        "setting 5 0 2 2 3 2",
        "setting 5 0 2 2 3 2 65536",
        "setting 4294967296 0 2 2 3 2 6",
        "replay",
        "replay 0A",
        "replay  00",
        "replay 0",
        "write 65536 0 0 - 0",
        "write 0 4294967296 0 - 0",
        "write 0 0 256 - 0",
        "write 0 0 0 - 1025",
        "write 0 0 0 -",
        "write +1 0 0 - 0",
        "Settings",
    ] {
        assert_eq!(says(&[line]), ["?"], "{line:?}");
    }
    let payload = |length: usize| format!("write 0 0 0 {} 0", "00".repeat(length));
    assert_eq!(says(&[&payload(64), &payload(65)]), ["17 0 -", "?"]);
    let long = |length: usize| format!("replay {}", "00".repeat(length));
    assert_eq!(says(&[&long(32_764), &long(32_765)]), ["16 0", "?"]);
}

#[test]
fn random_scripts_cover_everything() {
    let mut recording = Recording::new(Making::FAULTLESS);
    for number in 0..1_200 {
        for line in script(&mut Random::of(5, number)) {
            recording.answer(&line);
        }
    }
    assert_eq!(recording.seen.missing(), Vec::<String>::new());
}
