//! Random recordings: traffic for some settings, with gaps up to the moments that matter and across the rollover, and
//! damage of all kinds; and random scripts of `recording` around them.

use crate::calls::write_asked;
use crate::fields::LINE_MOST;
use crate::heard::{bytes, Record};
use crate::random::Random;
use crate::random_calls::damage as damaged_line;
use crate::random_settings;
use crate::recording::SETTINGS_MOST;
use crate::settings::Asked;
use crate::words::hex;

/// The bytes of a recording, and where its records begin.
#[derive(Clone, Debug, Default)]
struct Bytes {
    all: Vec<u8>,
    starts: Vec<usize>,
}

/// A stream that frames are made for, and what it would hold.
struct Known {
    asked: Asked,
    /// When something of it last happened.
    touched: u64,
    held: bool,
    confirmed: bool,
    payloads: [Vec<u8>; 3],
}

/// Frames as they are heard one after another.
struct Traffic<'a> {
    random: &'a mut Random,
    known: Vec<Known>,
    /// The stream of the last frame.
    focus: usize,
    now: u64,
}

/// A recording of so many frames for these settings, perhaps damaged.
pub fn recording(random: &mut Random, settings: &[Asked], frames: u64) -> Vec<u8> {
    let mut traffic = Traffic::of(random, settings);
    let mut made = Bytes::default();
    for _ in 0..frames {
        let record = traffic.frame();
        made.starts.push(made.all.len());
        made.all.extend(bytes(&record).unwrap_or_default());
    }
    if random.percent(35) {
        damage(random, &mut made);
    }
    made.all
}

impl Traffic<'_> {
    fn of<'a>(random: &'a mut Random, settings: &[Asked]) -> Traffic<'a> {
        let known = settings
            .iter()
            .map(|asked| {
                let length = if random.percent(35) { 8 } else { random.index(9) };
                let first = random.bytes(length);
                // The same length with other bytes, and the same bytes with another length.
                let mut other = first.clone();
                match other.last_mut() {
                    Some(byte) => *byte ^= 1,
                    None => other.push(0),
                }
                let shorter = first[..length.saturating_sub(1)].to_vec();
                Known { asked: *asked, touched: 0, held: false, confirmed: false, payloads: [first, other, shorter] }
            })
            .collect();
        Traffic { random, known, focus: 0, now: 0 }
    }

    fn frame(&mut self) -> Record {
        self.now += self.gap();
        let counter = (self.now % 65_536) as u16;
        if self.known.is_empty() || self.random.percent(6) {
            return self.stray(counter);
        }
        if !self.random.percent(50) {
            self.focus = self.random.index(self.known.len());
        }
        let known = &self.known[self.focus];
        let code = match known.asked.class {
            _ if self.random.percent(4) => self.random.below(4) as u32,
            0 => 3,
            2 if known.confirmed => self.random.pick(&[0, 0, 1, 2]),
            2 if known.held => self.random.pick(&[0, 1, 1, 1, 1, 2]),
            2 => self.random.pick(&[0, 0, 0, 0, 0, 0, 0, 1, 2]),
            _ => 0,
        };
        let payload = match code {
            1 | 2 if !self.random.percent(3) => Vec::new(),
            _ => known.payloads[if self.random.percent(88) { 0 } else { self.random.index(3) }].clone(),
        };
        let id = known.asked.stream.wrapping_mul(4).wrapping_add(code);
        let known = &mut self.known[self.focus];
        match code {
            0 if !known.held => (known.held, known.touched) = (true, self.now),
            0 if payload == known.payloads[0] => known.touched = self.now,
            1 => known.confirmed = known.held,
            2 => (known.held, known.confirmed) = (false, false),
            _ => {}
        }
        let dlc = self.dlc(payload.len());
        Record { counter, id, dlc, payload }
    }

    /// Mostly what the payload's length asks for.
    fn dlc(&mut self, length: usize) -> u8 {
        match self.random.below(100) {
            0 => length as u8 + 1,
            1 => (length as u8).saturating_sub(1),
            2 => self.random.pick(&[8, 9, 15, 16, 17, 255]),
            3..=32 if length == 8 => self.random.from(9, 15) as u8,
            _ => length as u8,
        }
    }

    /// The ticks up to the next frame.
    fn gap(&mut self) -> u64 {
        match self.random.below(100) {
            0..=39 => self.random.below(4),
            40..=84 => self.moment(),
            85..=90 => self.random.below(40),
            91..=93 => (2 * 65_536 + self.random.below(6) - 3 - self.now % 65_536) % 65_536,
            94 => self.random.pick(&[65_535, 65_534, 32_768, 32_767]),
            95 => self.random.below(65_536),
            _ => 0,
        }
    }

    /// Up to a moment that matters to a stream.
    fn moment(&mut self) -> u64 {
        let held: Vec<usize> = (0..self.known.len()).filter(|at| self.known[*at].held).collect();
        if held.is_empty() {
            return self.random.below(4);
        }
        let at = self.random.pick(&held);
        let known = &mut self.known[at];
        let delay = if known.confirmed || known.asked.class != 2 || self.random.percent(10) {
            u64::from(known.asked.deliver_delay)
        } else {
            u64::from(known.asked.confirm_delay)
        };
        let step = self.random.below(3);
        let gap = (known.touched + delay + step).saturating_sub(self.now).min(65_535);
        if step > 0 && known.touched + delay < self.now + gap {
            (known.held, known.confirmed) = (false, false);
        }
        gap
    }

    /// A frame of no known stream, or of no legal identifier.
    fn stray(&mut self, counter: u16) -> Record {
        let id = match self.random.below(6) {
            0 => 536_870_911,
            1 => 536_870_912,
            2 => u32::MAX,
            3 => self.random.below(100) as u32,
            4 => 536_870_908 + self.random.below(8) as u32,
            _ => self.random.draw() as u32,
        };
        let length = self.random.index(9);
        Record { counter, id, dlc: self.dlc(length), payload: self.random.bytes(length) }
    }
}

/// One thing wrong, mostly.
fn damage(random: &mut Random, made: &mut Bytes) {
    let Bytes { all, starts } = made;
    if starts.is_empty() || random.one_in(6) {
        return append(random, all);
    }
    // The last record is at fault as often as all others together.
    let at = if random.one_in(2) { starts[starts.len() - 1] } else { random.pick(starts) };
    let follow = all.len() - at - 2;
    let length = match random.below(3) {
        0 => random.pick(&[8, 9, 17, 18]),
        1 => random.pick(&[0, 1, 2, 10, 16, 19, 255, 256, 2_304, 4_352, 65_535]),
        _ => (follow + 1).saturating_sub(random.index(3)),
    };
    let length = u16::try_from(length).unwrap_or(u16::MAX).to_le_bytes();
    let kind: [u8; 2] = match random.below(2) {
        0 => random.pick(&[31_u16, 33]).to_le_bytes(),
        _ => random.pick(&[0_u16, 1, 288, 8_192, 65_535]).to_le_bytes(),
    };
    match random.below(8) {
        0 => all.truncate(random.index(all.len())),
        1 => all.truncate((at + random.index(13)).min(all.len())),
        2 => all[at + 2..at + 4].copy_from_slice(&kind),
        3 | 4 => all[at..at + 2].copy_from_slice(&length),
        5 => {
            all[at..at + 2].copy_from_slice(&length);
            all[at + 2..at + 4].copy_from_slice(&kind);
        }
        6 => {
            let at = random.index(all.len());
            all[at] ^= 1 << random.below(8);
        }
        _ => {
            let at = random.index(all.len());
            all.remove(at);
        }
    }
}

/// Some bytes after the last record.
fn append(random: &mut Random, all: &mut Vec<u8>) {
    const HEADS: [[u8; 4]; 8] = [
        [0, 0, 31, 0],
        [0, 0, 32, 0],
        [2, 0, 32, 0],
        [3, 0, 32, 0],
        [8, 0, 32, 0],
        [9, 0, 32, 0],
        [18, 0, 32, 0],
        [18, 0, 33, 0],
    ];
    let few = random.index(4);
    match random.below(4) {
        0 => all.extend(random.bytes(few + 1)),
        1 => all.extend(vec![0; few + 1]),
        2 => {
            let many = random.index(24);
            all.extend(random.pick(&HEADS));
            all.extend(random.bytes(many));
        }
        _ => all.extend(&random.pick(&HEADS)[..few + 1]),
    }
}

/// A list of settings: mostly good ones, sometimes about as many as a node has slots, sometimes as they come.
fn settings(random: &mut Random) -> Vec<Asked> {
    match random.below(100) {
        0..=3 => Vec::new(),
        4..=76 => good(random, 6),
        77..=84 => crowd(random),
        _ => {
            let mut list = good(random, 8);
            spoil(random, &mut list);
            list
        }
    }
}

/// About as many settings as a node has slots, or as many as the list has room for.
fn crowd(random: &mut Random) -> Vec<Asked> {
    let count = random.pick(&[31, 32, 32, 33, 40]);
    let mut crowd = many_good(random, count);
    match random.below(4) {
        0 => spoil(random, &mut crowd),
        // One that is set up already, where there is no slot left or one.
        1 => crowd.insert(random.pick(&[31, 32]).min(crowd.len()), crowd[random.index(31)]),
        _ => {}
    }
    crowd.truncate(SETTINGS_MOST);
    crowd
}

/// Up to so many settings that are taken one after the other.
fn good(random: &mut Random, most: u64) -> Vec<Asked> {
    let count = random.from(1, most);
    many_good(random, count)
}

fn many_good(random: &mut Random, count: u64) -> Vec<Asked> {
    let mut list: Vec<Asked> = Vec::new();
    while (list.len() as u64) < count {
        let stream = match random.below(10) {
            0..=5 => random.below(24) as u32,
            6 => 134_217_727,
            _ => random.below(1 << 27) as u32,
        };
        let mut asked = random_settings::asked(random, stream);
        // Streams with the same delays deliver at the same ticks.
        if let (Some(last), true) = (list.last(), random.percent(30)) {
            asked = Asked { stream, ..*last };
        }
        asked.role = u8::from(random.percent(15));
        if asked.tested().is_some() && list.iter().all(|other| other.stream != stream) {
            list.push(asked);
        }
    }
    list
}

/// A setting or two that are refused, or may be.
fn spoil(random: &mut Random, list: &mut Vec<Asked>) {
    for _ in 0..random.from(1, 2) {
        let at = random.index(list.len());
        let other = random.pick(&[7, 134_217_728, u32::MAX]);
        let asked = match random.below(6) {
            0 => Asked { stream: 7, role: 2, ..list[at] },
            1 => Asked { stream: 7, class: 3, ..list[at] },
            2..=3 => random_settings::asked(random, list[at].stream),
            _ => random_settings::asked(random, other),
        };
        let place = random.index(list.len() + 1);
        list.insert(place, asked);
        list.truncate(SETTINGS_MOST);
    }
}

/// A script of `recording`, which begins with `settings`.
pub fn script(random: &mut Random) -> Vec<Vec<u8>> {
    let list = settings(random);
    let mut lines = vec![b"settings".to_vec()];
    lines.extend(list.iter().map(|asked| format!("setting {}", write_asked(asked)).into_bytes()));
    if list.len() == SETTINGS_MOST {
        let more = list[0];
        lines.push(format!("setting {}", write_asked(&more)).into_bytes());
    }
    for _ in 0..random.from(1, 4) {
        let frames = match random.below(60) {
            0 => random.from(200, 1_700),
            1..=4 => 0,
            5..=14 => random.from(1, 3),
            _ => random.from(4, 40),
        };
        let mut recording = recording(random, &list, frames);
        recording.truncate(MOST);
        if random.one_in(400) {
            recording.resize(MOST + random.index(2), 0);
        }
        lines.push(replay_line(&recording));
        if random.one_in(3) {
            lines.push(write_line(random).into_bytes());
        }
        if random.one_in(4) {
            lines.push(other_line(random));
        }
    }
    lines
}

/// The most bytes that a line of a replay has room for.
const MOST: usize = (LINE_MOST - "replay ".len()) / 2;

pub fn replay_line(recording: &[u8]) -> Vec<u8> {
    format!("replay {}", hex(recording)).into_bytes()
}

fn write_line(random: &mut Random) -> String {
    let drawn = random.draw();
    let counter = random.pick(&[0, 1, 255, 256, 65_535, drawn as u16]);
    let id = random.pick(&[0, 20, 536_870_911, 536_870_912, u32::MAX, drawn as u32]);
    let dlc = random.pick(&[0, 8, 9, 15, 16, 255, drawn as u8]);
    let length = match random.below(10) {
        0 | 1 => random.pick(&[9, 10, 64]),
        2 => random.index(65),
        _ => random.index(9),
    };
    let record = 11 + length as u64;
    let output = match random.below(8) {
        0 => record - 1,
        1 => record + 1,
        2 => random.from(0, 24),
        3 if random.one_in(4) => random.from(0, 1_024),
        _ => record,
    };
    format!("write {counter} {id} {dlc} {} {output}", hex(&random.bytes(length)))
}

/// A line that can't be read, or that is skipped.
fn other_line(random: &mut Random) -> Vec<u8> {
    match random.below(4) {
        0 => {
            let good = match random.below(4) {
                0 => write_line(random),
                1 => "setting 5 0 2 2 3 2 6".to_string(),
                2 => "replay 0b0020000a0014000000020a0b".to_string(),
                _ => "settings".to_string(),
            };
            damaged_line(random, &good)
        }
        1 => random.pick(OVER_A_LIMIT).to_vec(),
        2 => format!("write 0 0 0 {} 0", hex(&random.bytes(65))).into_bytes(),
        _ => random.pick(STRANGE).to_vec(),
    }
}

const OVER_A_LIMIT: &[&[u8]] = &[
    b"setting 4294967296 0 2 2 3 2 6",
    b"setting 5 256 2 2 3 2 6",
    b"setting 5 0 256 2 3 2 6",
    b"setting 5 0 2 65536 3 2 6",
    b"setting 5 0 2 2 65536 2 6",
    b"setting 5 0 2 2 3 65536 6",
    b"setting 5 0 2 2 3 2 65536",
    b"write 65536 0 0 - 0",
    b"write 0 4294967296 0 - 0",
    b"write 0 0 256 - 0",
    b"write 0 0 0 - 1025",
];

/// Lines that can't be read, and some that are skipped.
const STRANGE: &[&[u8]] = &[
    b"",
    b"#",
    b"# settings",
    b" ",
    b" # settings",
    b"Settings",
    b"settings ",
    b" settings",
    b"settings 0",
    b"setting",
    b"setting 5 0 2 2 3 2",
    b"setting 5 0 2 2 3 2 6 0",
    b"setting 5 0 2 2 3 2 -6",
    b"setting 5 0 2 2 3 2 +6",
    b"setting  5 0 2 2 3 2 6",
    b"setting 5 0 2 2 3 2 6\r",
    b"replay",
    b"replay ",
    b"replay  -",
    b"replay - -",
    b"replay --",
    b"replay 0",
    b"replay 0G",
    b"replay 0A",
    b"replay 0b 00",
    b"replay\t-",
    b"write 0 0 0 -",
    b"write 0 0 0 0A 16",
    b"write 0 0 0 abc 16",
    b"write 0 0 0 - 0 0",
    b"write 0x0 0 0 - 0",
    b"write 0 -1 0 - 0",
    b"writes 0 0 0 - 0",
    b"\xff\xfe",
];
