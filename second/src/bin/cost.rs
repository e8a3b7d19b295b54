//! The workloads of `cost/` over this implementation, by reference: from each line `WORKLOAD ROUNDS CALLS` of standard
//! input one checksum. Only the first CALLS of the rounds call the node. The line `size 0 0` is answered by the node's
//! size in bytes, without its map.

use std::io::BufRead;

use second::node::{Node, TICK_OUTPUT};
use second::receiver::Did;
use second::reply::Reply;
use second::settings::Asked as Settings;

#[derive(Clone, Copy)]
enum Call {
    Hear,
    HearLast,
    HearAbsent,
    Tick,
    Request,
    NextFrame,
    SetUp,
    Any,
}

#[derive(Clone, Copy)]
enum Streams {
    Mixed,
    Received,
    Sent,
    TwoReceived,
    TwoSent,
    HighestLast,
}

/// What is done to a stream.
#[derive(Clone, Copy)]
enum Done {
    Heard,
    Confirmed,
    Requested,
}

/// What a round asks of the node.
#[derive(Clone, Copy)]
struct Asked {
    number: u32,
    dlc: u8,
    len: usize,
    first: u8,
    room: usize,
    settings: Settings,
}

const NOTHING: Asked = Asked { number: 0, dlc: 0, len: 0, first: 0, room: TICK_OUTPUT, settings: settings(0, 0, 0) };

const PAYLOAD: [u8; 9] = [0, 1, 2, 3, 4, 5, 6, 7, 8];

fn next(random: u32) -> u32 {
    random.wrapping_mul(1_664_525).wrapping_add(1_013_904_223)
}

fn mixed(sum: u32, x: u32) -> u32 {
    sum.wrapping_mul(31).wrapping_add(x)
}

fn stream(k: u32) -> u32 {
    (k % 64 * 13 + 7) % 64 * 4_099 + 5
}

/// Of the streams 57 to 88 the last has the highest number of all.
const BELOW_HIGHEST: u32 = 57;
const HIGHEST: u32 = 88;

const fn settings(stream: u32, role: u8, class: u8) -> Settings {
    let (data_reach, confirm_delay, abort_reach, deliver_delay) = match class {
        0 => (0, 0, 0, 0),
        1 => (50, 0, 0, 100),
        _ => (50, 80, 10, 100),
    };
    Settings { stream, role, class, data_reach, confirm_delay, abort_reach, deliver_delay }
}

fn role(k: u32) -> u8 {
    u8::from(k % 8 == 7)
}

fn code(class: u32, any: bool, w: u32) -> u32 {
    match (class, w) {
        _ if any => w % 4,
        (0, _) => 3,
        (1, _) | (_, 0..=3) => 0,
        (_, 4..=6) => 1,
        _ => 2,
    }
}

fn length(k: u32, code: u32, shorter: bool) -> u8 {
    if code == 1 || code == 2 {
        return 0;
    }
    ((k % 9) as u8).saturating_sub(u8::from(shorter))
}

fn frame(random: u32) -> Asked {
    let h = random / 65_536;
    let (k, kind) = (h % 32, h / 32 % 16);
    let other = h / 4_096 % 8;
    let code = code(k % 3, kind == 3, h / 512 % 8);
    let len = length(k, code, other == 6);
    let dlc = len + u8::from(kind == 1);
    Asked {
        number: (stream(k) + u32::from(kind == 2)) * 4 + code,
        dlc,
        len: usize::from(len),
        first: (other / 7) as u8,
        room: if kind == 0 { 15 } else { TICK_OUTPUT },
        ..NOTHING
    }
}

/// Data with eight bytes; half with another first byte.
fn data(stream: u32, random: u32) -> Asked {
    Asked { number: stream * 4, dlc: 8, len: 8, first: (random / 65_536 % 2) as u8, ..NOTHING }
}

fn message(random: u32) -> Asked {
    let h = random / 65_536;
    let (k, kind) = (h % 32, h / 32 % 8);
    let len = if kind == 1 { 9 } else { usize::from(length(k, 0, false)) };
    Asked { number: stream(k) + u32::from(kind == 0), len, first: h as u8, ..NOTHING }
}

fn asked_stream(i: u64, random: u32) -> Asked {
    let kind = random / 65_536 % 16;
    let k = if kind == 1 { 0 } else { (i % 40) as u32 };
    let role = if kind == 0 { 2 } else { role(k) };
    Asked { settings: settings(stream(k), role, (k % 3) as u8), ..NOTHING }
}

fn with(streams: Streams) -> Node {
    let mut node = Node::fresh();
    let first = if matches!(streams, Streams::HighestLast) { BELOW_HIGHEST } else { 0 };
    for k in 0..32 {
        let class = (k % 3) as u8;
        let (role, class) = match streams {
            Streams::Mixed => (role(k), class),
            Streams::Received => (0, 1 + (k % 2) as u8),
            Streams::Sent => (1, class),
            Streams::TwoReceived => (0, 2),
            Streams::TwoSent => (1, 2),
            Streams::HighestLast => (0, 1),
        };
        node.set_up(settings(stream(first + k), role, class));
    }
    node
}

/// This is done to so many of every four streams, and so many ticks follow; where `apart` is true, one follows each.
fn held(streams: Streams, done: Done, of_four: u32, apart: bool, ticks: u32) -> Node {
    let mut node = with(streams);
    let mut output = [0; TICK_OUTPUT];
    for k in 0..32 {
        if k % 4 < of_four {
            if let Done::Requested = done {
                node.request(stream(k), &PAYLOAD[..8]);
            } else {
                node.hear(stream(k) * 4, 8, &PAYLOAD[..8], &mut output);
            }
            if let Done::Confirmed = done {
                node.hear(stream(k) * 4 + 1, 0, &[], &mut output);
            }
        }
        if apart {
            node.tick(&mut output);
        }
    }
    for _ in 0..ticks {
        node.tick(&mut output);
    }
    node
}

fn requested(k: u32) -> Node {
    let mut node = with(Streams::Sent);
    node.request(stream(k), &PAYLOAD[..8]);
    node
}

/// The call of a workload, its first node, and after how many rounds it starts from that node again.
fn named(name: &str) -> Option<(Call, Node, u64)> {
    Some(match name {
        "hear" => (Call::Hear, with(Streams::Mixed), 256),
        "hear-last" => (Call::HearLast, with(Streams::HighestLast), 2),
        "hear-absent" => (Call::HearAbsent, with(Streams::Mixed), 256),
        "tick-idle" => (Call::Tick, held(Streams::Received, Done::Confirmed, 2, false, 0), 64),
        "tick-one" => (Call::Tick, held(Streams::Received, Done::Confirmed, 4, true, 68), 32),
        "tick-many" => (Call::Tick, held(Streams::Received, Done::Confirmed, 4, false, 100), 1),
        "tick-dropped" => (Call::Tick, held(Streams::TwoReceived, Done::Heard, 4, false, 80), 1),
        "request" => (Call::Request, with(Streams::Sent), 32),
        "next-one" => (Call::NextFrame, requested(19), 1),
        "next-many" => (Call::NextFrame, held(Streams::TwoSent, Done::Requested, 4, false, 0), 1),
        "next-none" => (Call::NextFrame, with(Streams::Sent), 256),
        "set-up" => (Call::SetUp, Node::fresh(), 40),
        "mixed" => (Call::Any, with(Streams::Mixed), 65_536),
        _ => return None,
    })
}

/// Eight ticks, four hears, two next frames, a request and a set up.
fn any_call(x: u32) -> Call {
    match x {
        0..=7 => Call::Tick,
        8..=11 => Call::Hear,
        12 | 13 => Call::NextFrame,
        14 => Call::Request,
        _ => Call::SetUp,
    }
}

fn run(work: Call, start: &Node, period: u64, rounds: u64, calls: u64) -> u32 {
    let mut node = start.clone();
    let (mut random, mut sum) = (1, 0);
    for i in 0..rounds {
        if i % period == 0 {
            node = start.clone();
        }
        random = next(random);
        let call = match work {
            Call::Any => any_call(random / 4_096 % 16),
            one => one,
        };
        let asked = match call {
            Call::Hear => frame(random),
            Call::HearLast => data(stream(HIGHEST), random),
            Call::HearAbsent => data(stream(random / 65_536 % 32) + 1, random),
            Call::Request => message(random),
            Call::SetUp => asked_stream(i, random),
            Call::Tick | Call::NextFrame | Call::Any => NOTHING,
        };
        let mut output = [0; TICK_OUTPUT];
        let mut payload = PAYLOAD;
        payload[0] = asked.first;
        let payload = &payload[..asked.len];
        let lent = &mut output[..asked.room];
        let (mut reply, mut id, mut count) = (Reply::Done, 0, 0);
        let (mut told, mut dropped, mut delivered) = (0, 0, 0);
        if i < calls {
            match call {
                Call::Hear | Call::HearLast | Call::HearAbsent => {
                    let heard = node.hear(asked.number, asked.dlc, payload, lent);
                    (reply, count) = (heard.reply, heard.written);
                    told = heard.did.map_or(0, Did::number);
                }
                Call::Tick => {
                    let ticked = node.tick(lent);
                    (reply, count) = (ticked.reply, ticked.written);
                    (dropped, delivered) = (ticked.dropped, ticked.delivered);
                }
                Call::Request => reply = node.request(asked.number, payload),
                Call::NextFrame => {
                    let given = node.next_frame(lent);
                    (reply, id, count) = (given.reply, given.id.0, given.length);
                }
                Call::SetUp => reply = node.set_up(asked.settings),
                Call::Any => {}
            }
        }
        let h = (random / 65_536) as usize;
        for x in [reply.number(), id as usize, count, told, dropped, delivered] {
            sum = mixed(sum, x as u32);
        }
        for x in [output[h % 16], output[h % 512]] {
            sum = mixed(sum, x.into());
        }
    }
    ended(node, sum)
}

/// The checksum with what the node does at a next frame and a tick.
fn ended(mut node: Node, sum: u32) -> u32 {
    let mut output = [0; TICK_OUTPUT];
    let given = node.next_frame(&mut output);
    node.tick(&mut output);
    let with_id = mixed(sum, given.id.0);
    output.iter().fold(mixed(with_id, node.counter() as u32), |sum, byte| mixed(sum, u32::from(*byte)))
}

fn main() {
    for line in std::io::stdin().lock().lines().map_while(Result::ok) {
        if line == "size 0 0" {
            println!("{}", std::mem::size_of::<Node>());
            continue;
        }
        let mut words = line.split(' ');
        let work = words.next().and_then(named);
        let mut number = || words.next().and_then(|word| word.parse::<u64>().ok());
        match (work, number(), number()) {
            (Some((call, start, period)), Some(rounds), Some(calls)) => {
                println!("{}", run(call, &start, period, rounds, calls));
            }
            _ => println!("?"),
        }
    }
}
