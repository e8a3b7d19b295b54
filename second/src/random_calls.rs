//! Random scripts of `calls`: every reply and class, wrong lengths and identifiers, lines that can't be read, runs of
//! ticks that end at the moments that matter, the rollover, and more than 32 set ups.

use crate::calls::write_asked;
use crate::random::Random;
use crate::random_settings;
use crate::settings::Asked;
use crate::words::hex;

/// How to make scripts.
#[derive(Clone, Copy, Debug, Default)]
pub struct Making {
    /// Also what the text format leaves to a reading: calls before the first `node`, leading zeros, upper-case hex.
    pub edges: bool,
}

/// A stream that was asked for, and what the script did with it.
struct Known {
    asked: Asked,
    /// When something of it last happened.
    touched: u64,
    payloads: Vec<Vec<u8>>,
}

struct Maker<'a> {
    random: &'a mut Random,
    making: Making,
    lines: Vec<Vec<u8>>,
    known: Vec<Known>,
    now: u64,
    /// The ticks that the script may still spend in long runs.
    budget: u64,
    /// Whether more set ups than slots are wanted.
    crowd: bool,
}

/// A script that begins with `node` and ends with `tally`.
pub fn script(random: &mut Random, making: Making) -> Vec<Vec<u8>> {
    let budget = match random.below(100) {
        0 => 200_000,
        1..=4 => 40_000,
        _ => 1_500,
    };
    let crowd = random.percent(6);
    let mut maker = Maker { random, making, lines: Vec::new(), known: Vec::new(), now: 0, budget, crowd };
    maker.make();
    maker.lines
}

impl Maker<'_> {
    fn make(&mut self) {
        if self.making.edges && self.random.percent(50) {
            self.set_up();
            self.say("tally");
        }
        self.say("node");
        let set_ups = if self.crowd { self.random.from(40, 60) } else { self.random.below(9) };
        for _ in 0..set_ups {
            self.set_up();
        }
        if self.random.percent(3) {
            self.approach_rollover();
        }
        let calls = self.random.from(20, 260);
        for _ in 0..calls {
            self.call();
        }
        self.say("tally");
    }

    /// Ticks to just before the rollover, then something for many streams, so that they wait across it.
    fn approach_rollover(&mut self) {
        let before = self.random.from(65_526, 65_536);
        self.ticks(before);
        for _ in 0..2 * self.known.len() {
            match self.random.below(4) {
                0 => self.request(),
                1 => self.next(),
                _ => self.hear(),
            }
        }
    }

    fn say(&mut self, line: impl Into<Vec<u8>>) {
        self.lines.push(line.into());
    }

    fn call(&mut self) {
        match self.random.below(100) {
            0..=37 => self.hear(),
            38..=49 => self.tick(),
            50..=62 => self.wait(),
            63..=75 => self.request(),
            76..=90 => self.next(),
            91..=92 => self.set_up(),
            93 => self.volley(),
            94 => self.say("tally"),
            _ => self.unreadable(),
        }
    }

    fn some_stream(&mut self) -> u32 {
        if self.crowd && self.random.percent(85) {
            return self.random.below(1 << 27) as u32;
        }
        match self.random.below(100) {
            0..=54 => self.random.below(24) as u32,
            55..=79 => self.random.below(1 << 27) as u32,
            80..=89 => 134_217_727,
            90..=92 => 134_217_726,
            93..=97 => 134_217_728,
            98 => self.random.draw() as u32,
            _ => u32::MAX,
        }
    }

    /// A known stream, mostly, and mostly one with that role.
    fn some_known(&mut self, role: Option<u8>) -> Option<usize> {
        if self.known.is_empty() || self.random.percent(4) {
            return None;
        }
        let fits: Vec<usize> = (0..self.known.len()).filter(|at| Some(self.known[*at].asked.role) == role).collect();
        if fits.is_empty() || self.random.percent(10) {
            return Some(self.random.index(self.known.len()));
        }
        Some(self.random.pick(&fits))
    }

    fn set_up(&mut self) {
        let stream = match self.some_known(None) {
            Some(at) if self.random.percent(8) => self.known[at].asked.stream,
            _ => self.some_stream(),
        };
        let asked = random_settings::asked(self.random, stream);
        self.say(format!("setup {}", write_asked(&asked)));
        let taken = asked.tested().is_some() && self.known.iter().all(|known| known.asked.stream != stream);
        if !taken && !self.random.percent(10) {
            return;
        }
        let mut payloads = Vec::new();
        let longest = if self.random.percent(30) { 8 } else { self.random.from(0, 8) as usize };
        payloads.push(self.random.bytes(longest));
        // The same length with other bytes, and the same bytes with another length.
        let mut other = payloads[0].clone();
        match other.last_mut() {
            Some(byte) => *byte ^= 1,
            None => other.push(0),
        }
        payloads.push(other);
        let mut shorter = payloads[0].clone();
        shorter.pop();
        payloads.push(shorter);
        self.known.push(Known { asked, touched: self.now, payloads });
    }

    fn output(&mut self, least: u64) -> u64 {
        match self.random.below(40) {
            0 => least - 1,
            1 => least + 1,
            2 => 0,
            3 => self.random.below(1_025),
            4 if self.random.one_in(4) => 1_024,
            5 => self.random.below(least),
            _ => least,
        }
    }

    /// A payload of one of the known kinds, or of any length.
    fn payload(&mut self, known: Option<usize>) -> Vec<u8> {
        if let (Some(at), false) = (known, self.random.percent(5)) {
            let among = if self.random.percent(85) { 1 } else { 3 };
            return self.known[at].payloads[self.random.index(among)].clone();
        }
        let length = match self.random.below(10) {
            0 => 64,
            1..=3 => 9,
            4 => self.random.below(65),
            _ => self.random.below(9),
        };
        self.random.bytes(length as usize)
    }

    fn hear(&mut self) {
        let known = self.some_known(Some(0));
        let line = self.heard(known);
        self.say(line);
        if let Some(at) = known {
            self.known[at].touched = self.now;
        }
    }

    fn heard(&mut self, known: Option<usize>) -> String {
        let code = match known.map(|at| self.known[at].asked.class) {
            _ if self.random.percent(6) => self.random.below(4) as u32,
            Some(0) => 3,
            Some(1) => 0,
            Some(2) => self.random.pick(&[0, 0, 0, 1, 1, 2]),
            _ => self.random.below(4) as u32,
        };
        let id = match known {
            Some(at) => self.known[at].asked.stream.wrapping_mul(4).wrapping_add(code),
            None => match self.random.below(6) {
                0 => 536_870_911,
                1 => 536_870_912,
                2 => u32::MAX,
                3 => self.random.below(100) as u32,
                4 => 536_870_911 + self.random.below(5) as u32,
                _ => self.random.draw() as u32,
            },
        };
        if self.random.percent(6) {
            return self.heard_at_fault(id, known);
        }
        let payload = match code {
            1 | 2 if !self.random.percent(4) => Vec::new(),
            _ => self.payload(known),
        };
        let dlc = match (self.random.below(60), payload.len() as u64) {
            (0, length) => length + 1,
            (1, length) => length.saturating_sub(1),
            (2, _) => self.random.pick(&[8, 9, 15, 16, 255]),
            // DLC 9 to 15 mean eight bytes, and not nine; 16 means nothing.
            (3..=29, 8 | 9) => self.random.from(9, 16),
            (_, length) => length,
        };
        let output = self.output(16);
        format!("hear {id} {dlc} {} {output}", hex(&payload))
    }

    /// A frame in which each fault is drawn by itself, so that several meet.
    fn heard_at_fault(&mut self, id: u32, known: Option<usize>) -> String {
        let payload = self.payload(known);
        let too_big = if self.random.percent(30) { 536_870_912 } else { 0 };
        let code = if self.random.percent(60) { self.random.pick(&[1, 2]) } else { id % 4 };
        let dlc = match self.random.below(10) {
            0..=2 => self.random.from(16, 255),
            3..=5 => self.random.from(0, 15),
            _ => payload.len() as u64,
        };
        let output = self.output(16);
        format!("hear {} {dlc} {} {output}", (id - id % 4 + code) | too_big, hex(&payload))
    }

    fn tick(&mut self) {
        let output = self.output(512);
        self.say(format!("tick {output}"));
        self.now += u64::from(output >= 512);
    }

    fn ticks(&mut self, number: u64) {
        self.budget = self.budget.saturating_sub(number);
        self.now += number;
        self.say(format!("ticks {number}"));
    }

    /// Data for all receivers at one tick, some of it confirmed, and then ticks one by one: some come due together.
    fn volley(&mut self) {
        for at in 0..self.known.len() {
            let (asked, data) = (self.known[at].asked, self.known[at].payloads[0].clone());
            if asked.role != 0 || asked.class == 0 {
                continue;
            }
            let id = asked.stream.wrapping_mul(4);
            self.say(format!("hear {id} {} {} 16", data.len(), hex(&data)));
            if asked.class == 2 && self.random.percent(40) {
                self.say(format!("hear {} 0 - 16", id.wrapping_add(1)));
            }
            self.known[at].touched = self.now;
        }
        for _ in 0..self.random.from(2, 16) {
            self.tick();
        }
    }

    /// Ticks up to a moment that matters to a stream, or a few, or very many; then often a call for that stream.
    fn wait(&mut self) {
        let at = match self.some_known(None) {
            Some(at) if !self.random.percent(15) => at,
            _ => {
                let number =
                    if self.random.one_in(400) { self.random.pick(&[65_535, 65_536]) } else { self.random.below(6) };
                return self.ticks(number.min(self.budget.max(6)));
            }
        };
        let known = &self.known[at];
        let asked = &known.asked;
        let (rd, dc, dd) =
            (u64::from(asked.data_reach), u64::from(asked.confirm_delay), u64::from(asked.deliver_delay));
        let delay = self.random.pick(&[dc, dd, rd + dd]) + self.random.below(3);
        let number = (known.touched + delay).saturating_sub(self.now);
        if number > self.budget.max(6) || number > 65_536 {
            let few = self.random.below(6);
            return self.ticks(few);
        }
        self.ticks(number);
        if self.random.percent(60) {
            let line = match self.known[at].asked.role {
                1 => self.requested(Some(at)),
                _ if self.random.percent(50) => "next 8".to_string(),
                _ => self.heard(Some(at)),
            };
            if !line.starts_with("next") {
                self.known[at].touched = self.now;
            }
            self.say(line);
        }
    }

    fn request(&mut self) {
        let known = self.some_known(Some(1));
        let line = self.requested(known);
        self.say(line);
        if let Some(at) = known {
            self.known[at].touched = self.now;
        }
    }

    fn requested(&mut self, known: Option<usize>) -> String {
        let stream = match known {
            Some(at) => self.known[at].asked.stream,
            None => self.some_stream(),
        };
        let payload = self.payload(known);
        format!("request {stream} {}", hex(&payload))
    }

    fn next(&mut self) {
        let output = self.output(8);
        self.say(format!("next {output}"));
    }

    /// A line that can't be read, or nearly so.
    fn unreadable(&mut self) {
        let line = match self.random.below(10) {
            0..=4 => self.damaged(),
            5..=6 => self.over_a_limit(),
            7 if self.making.edges => self.doubtful(),
            8 if self.random.one_in(20) => self.very_long(),
            _ => self.random.pick(STRANGE).to_vec(),
        };
        self.say(line);
    }

    /// A good line with one thing wrong.
    fn damaged(&mut self) -> Vec<u8> {
        let known = self.some_known(None);
        let good = match self.random.below(6) {
            0 => self.heard(known),
            1 => self.requested(known),
            2 => "tick 512".to_string(),
            3 => "next 8".to_string(),
            4 => "setup 5 0 2 2 3 2 6".to_string(),
            _ => self.random.pick(&["node", "tally", "ticks 2"]).to_string(),
        };
        damage(self.random, &good)
    }

    fn over_a_limit(&mut self) -> Vec<u8> {
        let long = hex(&self.random.bytes(65));
        let lines = [
            "hear 4294967296 0 - 16".to_string(),
            "hear 20 256 - 16".to_string(),
            "hear 20 0 - 1025".to_string(),
            format!("hear 20 65 {long} 16"),
            "tick 1025".to_string(),
            "ticks 65537".to_string(),
            "next 1025".to_string(),
            "setup 4294967296 0 2 2 3 2 6".to_string(),
            "setup 5 256 2 2 3 2 6".to_string(),
            "setup 5 0 256 2 3 2 6".to_string(),
            "setup 5 0 2 65536 3 2 6".to_string(),
            "setup 5 0 2 2 65536 2 6".to_string(),
            "setup 5 0 2 2 3 65536 6".to_string(),
            "setup 5 0 2 2 3 2 65536".to_string(),
            "request 4294967296 -".to_string(),
            format!("request 5 {long}"),
        ];
        lines[self.random.index(lines.len())].clone().into_bytes()
    }

    /// Lines whose answer rests on a reading of the format.
    fn doubtful(&mut self) -> Vec<u8> {
        self.random.pick(DOUBTFUL).to_vec()
    }

    fn very_long(&mut self) -> Vec<u8> {
        let length = self.random.from(5_000, 70_000) as usize;
        match self.random.below(3) {
            0 => vec![b'x'; length],
            1 => [b"tick 512".to_vec(), vec![b' '; length]].concat(),
            _ => [b"hear 20 0 ".to_vec(), vec![b'0'; length], b" 16".to_vec()].concat(),
        }
    }
}

/// Lines that can't be read at all.
const STRANGE: &[&[u8]] = &[
    b"",
    b" ",
    b"#",
    b"# node",
    b"?",
    b"Node",
    b"nodes",
    b"node ",
    b" node",
    b"node node",
    b"hears 20 0 - 16",
    b"tick\t512",
    b"tick 512\r",
    b"ticks",
    b"tick -1",
    b"ticks +1",
    b"tick 0x200",
    b"tick 512.0",
    b"tick 5e2",
    b"next",
    b"tally 0",
    b"request 5",
    b"request 5 0",
    b"request 5 0g",
    b"request 5 abc",
    b"request 5 0x",
    b"request 5 --",
    b"request -5 -",
    b"request 5 - -",
    b"hear 20 0  16",
    b"setup 5 0 2 2 3 2",
    b"setup 5 0 2 2 3 2 6 0",
    b"setup 5 0 2 2 3 2 -6",
    b"\xff\xfe",
    b"tick 512\x00",
    b"tick \xd9\xa1",
];

const DOUBTFUL: &[&[u8]] = &[
    b"tick 0512",
    b"ticks 00",
    b"hear 0020 00 - 016",
    b"request 5 0A",
    b"request 5 AB0c",
    b"hear 20 1 FF 16",
    b"request 0000000005 -",
];

/// One thing wrong with a line of either text format.
pub fn damage(random: &mut Random, good: &str) -> Vec<u8> {
    let mut words: Vec<String> = good.split(' ').map(str::to_string).collect();
    let at = random.index(words.len());
    match random.below(8) {
        0 => words.push("0".to_string()),
        1 => {
            words.pop();
        }
        2 => words[at] = String::new(),
        3 => words.insert(at, String::new()),
        4 => {
            let wrong = ["-1", "+1", "x", "1.0", "0x10", "99999999999999999999999999999999", "1e3", "--", "0z"];
            words[at] = random.pick(&wrong).to_string();
        }
        5 => words[at].push('!'),
        6 => words[0].push('s'),
        _ => words.push(String::new()),
    }
    words.join(" ").into_bytes()
}
