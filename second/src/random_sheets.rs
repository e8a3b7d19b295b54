//! Random lines of `sheet`: lists of all kinds, and lines that can't be read.

use crate::random::Random;
use crate::response::{sheet, Errors, Stream, Verdict, Wrong};
use crate::sheet::{line, OUT_MOST, RECORDS_MOST};

const MOST: u64 = 1_000_000;

/// A random line.
pub fn random_line(random: &mut Random) -> Vec<u8> {
    if random.one_in(25) {
        return unreadable(random);
    }
    let mut errors = random_errors(random);
    let mut streams = match random.below(20) {
        0..=6 => small(random),
        7..=12 => loaded(random),
        13..=15 => timed(random, errors),
        16 => long(random),
        17 => alike(random),
        18 => whole_bus(random),
        _ => Vec::new(),
    };
    if random.one_in(8) {
        one_at_a_limit(random, &mut streams, &mut errors);
    }
    line(random_room(random, streams.len()), errors, &streams).into_bytes()
}

fn random_errors(random: &mut Random) -> Errors {
    match random.below(6) {
        0 => Errors { n: 0, period: random.from(1, MOST), inaccessibility: random.from(0, 10_000) },
        1 => Errors { n: random.from(1, 16), period: random.from(1, MOST), inaccessibility: random.from(0, 10_000) },
        _ => Errors { n: random.from(0, 3), period: random.from(20, 400), inaccessibility: random.from(0, 6) },
    }
}

/// Mostly just enough, or one too few.
fn random_room(random: &mut Random, streams: usize) -> u64 {
    let enough = 2 * streams as u64;
    let room = match random.below(10) {
        0 => enough.saturating_sub(1),
        1 => enough + 1,
        2 => random.from(0, OUT_MOST),
        3 => 0,
        _ => enough,
    };
    room.min(OUT_MOST)
}

/// Priorities that are all different, in no order.
fn priorities(random: &mut Random, count: usize) -> Vec<u64> {
    let mut chosen = Vec::new();
    let most = if random.one_in(2) { count as u64 * 2 } else { MOST };
    while chosen.len() < count {
        let priority = random.from(1, most);
        if !chosen.contains(&priority) {
            chosen.push(priority);
        }
    }
    chosen
}

/// A few streams with small numbers, of which many are late.
fn small(random: &mut Random) -> Vec<Stream> {
    let count = random.from(1, 6) as usize;
    let deadline = random.pick(&[20, 60, 200, 400, 900]);
    priorities(random, count)
        .into_iter()
        .map(|priority| Stream { priority, c: random.from(1, 6), t: random.from(2, 60), d: random.from(1, deadline) })
        .collect()
}

/// Streams whose messages take about a chosen part of the bus together, from half of it to more than all.
fn loaded(random: &mut Random) -> Vec<Stream> {
    let count = random.from(1, 12);
    let percent = random.pick(&[50, 80, 90, 97, 99, 100, 101, 110, 200]);
    let longest = random.pick(&[50, 500, 20_000]);
    priorities(random, count as usize)
        .into_iter()
        .map(|priority| {
            let t = random.from(5, longest);
            let c = (t * percent / 100 / count + random.from(0, 1)).max(1);
            Stream { priority, c, t, d: random.pick(&[t, 2 * t, 10 * longest, 60_000]).clamp(1, MOST) }
        })
        .collect()
}

/// A list in which every deadline is just kept, but at one place, or at some, by one bit not.
fn timed(random: &mut Random, errors: Errors) -> Vec<Stream> {
    let count = random.from(1, 64);
    let mut streams: Vec<Stream> = priorities(random, count as usize)
        .into_iter()
        .map(|priority| Stream { priority, c: random.from(1, 130), t: random.from(count * 100, count * 400), d: MOST })
        .collect();
    if let Verdict::Done(times) = sheet(&streams, errors, 128, Wrong::Nothing) {
        for (stream, pair) in streams.iter_mut().zip(&times) {
            stream.d = pair.1.min(MOST);
        }
        let late = match random.below(5) {
            0 => return streams,
            1 => vec![0],
            2 => vec![streams.len() - 1],
            3 => vec![random.index(streams.len())],
            _ => (0..3).map(|_| random.index(streams.len())).collect(),
        };
        for at in late {
            streams[at].d = (streams[at].d - 1).max(1);
        }
    }
    streams
}

/// About as many records as a list may have.
fn long(random: &mut Random) -> Vec<Stream> {
    let count = random.pick(&[63, 64, 64, 64, 65, 65, 66, RECORDS_MOST]);
    priorities(random, count)
        .into_iter()
        .map(|priority| Stream {
            priority,
            c: random.from(1, 100),
            t: random.from(5_000, 90_000),
            d: random.from(20_000, MOST),
        })
        .collect()
}

/// A priority that stands twice, next to the other or far from it.
fn alike(random: &mut Random) -> Vec<Stream> {
    let mut streams = small(random);
    let copied = streams[random.index(streams.len())].priority;
    let at = random.index(streams.len() + 1);
    streams.insert(at, Stream { priority: copied, c: 1, t: 50, d: 50 });
    streams
}

/// One stream that takes nearly the whole bus, before others.
fn whole_bus(random: &mut Random) -> Vec<Stream> {
    let t = random.pick(&[1, 2, 3, 10, 1_000]);
    let mut streams = small(random);
    for stream in &mut streams {
        stream.priority += 1;
        stream.t = random.from(1_000, MOST);
        stream.d = random.pick(&[100, 5_000, MOST]);
    }
    streams.push(Stream { priority: 1, c: (t - random.from(0, 1)).clamp(1, MOST), t, d: random.from(1, 5_000) });
    streams
}

/// One number at a limit, or just past it.
fn one_at_a_limit(random: &mut Random, streams: &mut [Stream], errors: &mut Errors) {
    let number = random.pick(&[0, 1, MOST - 1, MOST, MOST + 1, 4_294_967_295]);
    if streams.is_empty() || random.one_in(3) {
        match random.below(3) {
            0 => errors.n = random.pick(&[0, 16, 17, 4_294_967_295]),
            1 => errors.period = number,
            _ => errors.inaccessibility = random.pick(&[0, 10_000, 10_001, 4_294_967_295]),
        }
        return;
    }
    let at = random.index(streams.len());
    match random.below(4) {
        0 => streams[at].priority = number,
        1 => streams[at].c = number,
        2 => streams[at].t = number,
        _ => streams[at].d = number,
    }
}

/// A line that can't be read, most often one word away from one that can.
fn unreadable(random: &mut Random) -> Vec<u8> {
    let errors = Errors { n: 1, period: 100, inaccessibility: 1 };
    let streams = small(random);
    let mut words: Vec<String> = line(20, errors, &streams).split(' ').map(str::to_string).collect();
    let at = random.from(1, words.len() as u64 - 1) as usize;
    match random.below(8) {
        0 => drop(words.remove(at)),
        1 => words[at] = random.pick(&["", "x", "-1", "+1", "4294967296", "99999999999999999999", "1.5"]).to_string(),
        2 => words[1] = "257".to_string(),
        3 => words[0] = random.pick(&["", "solved", "Solve", "sheet"]).to_string(),
        4 => words.push(random.pick(&["", "7", "7 7 7"]).to_string()),
        5 => words.insert(at, String::new()),
        6 => words.truncate(random.from(1, 4) as usize),
        _ => {
            let many = vec![streams[0]; RECORDS_MOST + random.from(1, 3) as usize];
            return line(0, errors, &many).into_bytes();
        }
    }
    words.join(" ").into_bytes()
}
