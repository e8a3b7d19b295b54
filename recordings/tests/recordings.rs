//! Logs and recordings there and back, what is left out and what is refused, and recordings longer than is held at once.

use recordings::record::{record, Recorded};
use recordings::show::show;
use second::heard::{bytes, read, Record};
use second::random::Random;

/// The recording of a log that can be read, and what became of its lines.
fn recorded(log: &str, tick_us: u32) -> (Vec<u8>, Recorded) {
    let mut out = Vec::new();
    let recorded = record(log.as_bytes(), tick_us, &mut out).expect("nothing stops it");
    (out, recorded)
}

fn whole(log: &str, tick_us: u32) -> Vec<u8> {
    let (recording, recorded) = recorded(log, tick_us);
    assert_eq!(recorded.troubles.lines("log"), Vec::<String>::new());
    recording
}

fn troubles(log: &str) -> Vec<String> {
    recorded(log, 1_000).1.troubles.lines("log")
}

fn shown(recording: &[u8], tick_us: u32) -> (String, Vec<String>) {
    let mut out = Vec::new();
    let troubles = show(recording, tick_us, &mut out).expect("nothing stops it");
    (String::from_utf8(out).expect("a text"), troubles.lines("recording"))
}

/// A frame that candump has a line for.
fn some_frame(random: &mut Random, counter: u16) -> Record {
    let length = random.index(9);
    let dlc = if length == 8 { random.from(8, 15) as u8 } else { length as u8 };
    Record { counter, id: random.below(1 << 29) as u32, dlc, payload: random.bytes(length) }
}

fn some_recording(random: &mut Random, frames: u64) -> Vec<u8> {
    let mut counter = 0_u16;
    let mut recording = Vec::new();
    for _ in 0..frames {
        let gap = if random.one_in(9) { random.below(65_536) } else { random.below(30) };
        counter = counter.wrapping_add(gap as u16);
        recording.extend(bytes(&some_frame(random, counter)).expect("eight bytes at most"));
    }
    recording
}

#[test]
fn from_a_recording_to_a_log_and_back() {
    for number in 0..500 {
        let mut random = Random::of(1, number);
        let frames = random.from(1, 60);
        let recording = some_recording(&mut random, frames);
        let tick_us = random.pick(&[1, 7, 1_000, 65_536, 1_000_000, u32::MAX]);
        let (log, troubles) = shown(&recording, tick_us);
        assert_eq!(troubles, Vec::<String>::new());
        assert_eq!(log.lines().count() as u64, frames);
        assert_eq!(whole(&log, tick_us), recording, "recording {number}");
    }
}

/// A log of frames of all kinds, and how many of them are recorded.
fn some_log(random: &mut Random) -> (String, usize) {
    let mut time = random.below(1 << 50);
    let (mut log, mut taken) = (String::new(), 0);
    for _ in 0..random.from(1, 50) {
        time += random.below(4_000);
        let data: String = (0..random.index(9)).map(|_| format!("{:02X}", random.draw() as u8)).collect();
        let id = random.below(1 << 29);
        let frame = match random.below(8) {
            0 => format!("{:03X}#{data}", id % 2_048),
            1 => format!("{id:08X}#R"),
            2 => format!("{:08X}#0000000000000000", id + (1 << 29)),
            3 => format!("{id:08X}#{:016X}_{:X}", random.draw(), random.from(9, 15)),
            _ => format!("{id:08X}#{data}"),
        };
        taken += usize::from(!frame.contains('R') && frame.find('#') == Some(8) && frame < "2".to_string());
        log += &format!("({:010}.{:06}) can1 {frame}\n", time / 1_000_000, time % 1_000_000);
    }
    (log, taken)
}

#[test]
fn from_a_log_to_a_recording_and_back_and_there_again() {
    let mut recorded = 0;
    for number in 0..1_000 {
        let mut random = Random::of(2, number);
        let (log, taken) = some_log(&mut random);
        let tick_us = random.pick(&[1, 250, 1_000, 10_000]);
        let recording = whole(&log, tick_us);
        let (again, troubles) = shown(&recording, tick_us);
        assert_eq!(troubles, Vec::<String>::new());
        assert_eq!(again.lines().count(), taken, "{log}");
        assert_eq!(whole(&again, tick_us), recording, "{log}");
        recorded += taken;
    }
    assert!(recorded > 10_000);
}

#[test]
fn times_are_divided_and_rounded_down() {
    let log = "(1703936000.010213) can0 00000014#0A0B\n(1703936000.010999) can0 00000015#\n(1703936000.011000) can0 00000016#";
    let counters = |tick_us: u32| {
        let recording = whole(log, tick_us);
        let mut counters = Vec::new();
        let mut offset = 0;
        while offset < recording.len() {
            let (record, length) = read(&recording[offset..]).expect("a record");
            counters.push(u64::from(record.counter));
            offset += length;
        }
        counters
    };
    assert_eq!(counters(1_000), [10, 10, 11]);
    assert_eq!(counters(1), [10_213, 10_999, 11_000].map(|rest: u64| (1_703_936_000_000_000 + rest) % 65_536));
    assert_eq!(counters(u32::MAX), [396_728; 3].map(|tick: u64| tick % 65_536));
}

#[test]
fn what_is_left_out_is_counted() {
    let log = "# a note\n\n(0.000001) can0 123#\n(0.000002) can0 00000014#R\n(0.000003) can0 123#R4\n\
               (0.000004) can0 20000001#0000000000000000\n(0.000005) can0 00000014#";
    let (recording, recorded) = recorded(log, 1);
    assert_eq!(recorded.left_out().as_deref(), Some("left out: 11-bit identifiers 1, remote frames 2, error frames 1"));
    assert_eq!(recorded.records, 1);
    assert_eq!(shown(&recording, 1).0, "(0000000000.000005) can0 00000014#\n");
}

#[test]
fn lines_that_can_not_be_read_are_named() {
    let log = "(0.000000) can0 00000014#00\n# note\n(0.000000) can0 0014#00\nvcan0 00000014 [2]\n(0.000000) can0 00000014##000\n";
    let due = [
        "log: line 3: its identifier is not 8 hex digits, or 3: (0.000000) can0 0014#00",
        "log: line 4: its time is not `(SECONDS.MICROSECONDS)`, with six or nine digits after the point: vcan0 00000014 [2]",
        "log: line 5: its frame is one of CAN FD, and a recording holds classical frames: (0.000000) can0 00000014##000",
    ];
    assert_eq!(troubles(log), due);
    let many = "x\n".repeat(50);
    assert_eq!(troubles(&many).len(), 21);
    assert_eq!(troubles(&many)[20], "log: and 30 more");
    let long = format!("(0.000000) can0 00000014#{}", "0".repeat(70_000));
    assert!(troubles(&long)[0].starts_with("log: line 1: it is too long"));
}

#[test]
fn a_recording_does_not_go_back() {
    let back =
        "(1.000000) can0 00000014#\n(0.999999) can0 00000014#\n(1.000500) can0 00000014#\n(1.000400) can0 00000014#\n";
    assert_eq!(
        troubles(back),
        ["log: line 2: its tick is 999, and line 1 was at 1000 already: (0.999999) can0 00000014#"]
    );
    // What is left out has no tick.
    assert_eq!(troubles("(1.000000) can0 123#\n(0.000000) can0 00000014#\n"), Vec::<String>::new());
}

#[test]
fn a_recording_is_of_one_bus() {
    let two = "(1.000000) can0 123#\n(1.000000) can1 00000014#\n";
    assert_eq!(
        troubles(two),
        ["log: line 2: line 1 is of can0, and a recording is of one bus: (1.000000) can1 00000014#"]
    );
}

#[test]
fn what_the_counter_is_too_short_for_is_said() {
    let lost = |seconds: &str| {
        let log = format!("(0.000000) can0 00000014#\n({seconds}) can0 00000014#\n");
        recorded(&log, 1_000).1.lost.lines("log")
    };
    assert_eq!(lost("65.535999"), Vec::<String>::new());
    assert_eq!(lost("65.536000"), ["log: line 2: 65536 ticks after line 1, of which 0 are recorded"]);
    assert_eq!(lost("70.000000"), ["log: line 2: 70000 ticks after line 1, of which 4464 are recorded"]);
    let late = recorded("(1703936000.010213) can0 00000014#\n", 1_000).1;
    assert!(late.lost.is_empty());
}

#[test]
fn records_without_a_line_are_named_and_the_rest_is_shown() {
    let record = |counter, id, dlc, payload: &[u8]| {
        bytes(&Record { counter, id, dlc, payload: payload.to_vec() }).expect("eight bytes at most")
    };
    let recording = [
        record(3, 20, 1, &[7]),
        record(2, 1 << 29, 0, &[]),
        record(2, 20, 2, &[7]),
        record(4, 20, 16, &[0; 8]),
        record(5, 20, 0, &[]),
        vec![9, 0, 32],
    ];
    let (log, says) = shown(&recording.concat(), 1_000);
    assert_eq!(log, "(0000000000.003000) can0 00000014#07\n(0000000065.541000) can0 00000014#\n");
    let due = [
        "recording: offset 12: the identifier 536870912 has more than 29 bits",
        "recording: offset 23: no frame has DLC 2 and a payload of 1 bytes",
        "recording: offset 35: no frame has DLC 16 and a payload of 8 bytes",
        "recording: offset 65: 15 CutRecord",
    ];
    assert_eq!(says, due);
}

/// What is said of a recording that is at hand as a whole.
fn first_fault(recording: &[u8]) -> Vec<String> {
    let mut offset = 0;
    while offset < recording.len() {
        match read(&recording[offset..]) {
            Ok((_, length)) => offset += length,
            Err(refusal) => return vec![format!("recording: offset {offset}: {} {refusal:?}", refusal.number())],
        }
    }
    Vec::new()
}

#[test]
fn long_recordings_with_a_fault_anywhere() {
    let recording = some_recording(&mut Random::new(3), 20_000);
    assert!(recording.len() > 250_000);
    assert_eq!(shown(&recording, 1_000).1, Vec::<String>::new());
    let mut starts = vec![0];
    while let Ok((_, length)) = read(&recording[starts[starts.len() - 1]..]) {
        starts.push(starts[starts.len() - 1] + length);
        if starts[starts.len() - 1] == recording.len() {
            break;
        }
    }
    starts.pop();
    let mut seen = [0; 18];
    for number in 0..120 {
        let mut random = Random::of(4, number);
        let at = random.pick(&starts);
        let mut damaged = recording.clone();
        // So long a record that it goes past what is read at once, whole or cut by a byte.
        let most = (damaged.len() - at - 2).min(65_535);
        let length = random.from(most.saturating_sub(1) as u64, most as u64) as u16;
        damaged[at..at + 2].copy_from_slice(&length.to_le_bytes());
        damaged[at + 2] += u8::from(random.one_in(4));
        damaged.truncate(at + 2 + usize::from(length) - random.index(2));
        let due = first_fault(&damaged);
        assert_eq!(shown(&damaged, 1_000).1, due, "number {number}");
        for fault in 15..=17 {
            seen[fault] += usize::from(due[0].contains(&format!(": {fault} ")));
        }
    }
    assert!(seen[15..].iter().all(|count| *count > 5), "{seen:?}");
}
