//! The lines of `tests/lent/hostile.c`, each a call on a node in lent bytes, whatever bytes: this implementation's
//! own node says the same of each.
//!
//! Its node has one part for a stream, so each slot is a node by itself: a call on a stream is made on the first slot
//! of it, a tick on each slot, and a next frame on the first slot that has one pending. The other slots stay as they
//! were. Of an odd slot (`lent::Kept`) nothing is said but that the others stay, and that a refusal changes no byte.

use crate::deeds::Deeds;
use crate::ident::Stream;
use crate::lent::{decode, Decoded, Kept, Layout, Slot, SLOTS};
use crate::limits::Limit;
use crate::node::{Node, TICK_OUTPUT};
use crate::receiver::Did;
use crate::reply::{Reply, REPLIES};
use crate::settings::Asked;

/// What was seen in the lines.
#[derive(Clone, Debug, Default)]
pub struct Seen {
    pub lines: u64,
    /// Those whose whole answer was said, and those of which a part was, since a slot that matters is odd.
    pub whole: u64,
    pub in_part: u64,
    pub replies: [u64; REPLIES],
    /// What frames did.
    pub deeds: Deeds,
    /// The ticks that dropped, and those that delivered.
    pub dropping: u64,
    pub delivering: u64,
}

/// A line as it was read.
struct Line<'a> {
    words: std::str::SplitAsciiWhitespace<'a>,
}

impl Line<'_> {
    fn word(&mut self) -> Result<&str, String> {
        self.words.next().ok_or_else(|| "a word is missing".to_string())
    }

    fn number(&mut self) -> Result<u32, String> {
        let word = self.word()?;
        word.parse().map_err(|_| format!("{word} is no number"))
    }

    fn length(&mut self) -> Result<usize, String> {
        Ok(self.number()? as usize)
    }

    /// Bytes in hex; a dot is none.
    fn bytes(&mut self) -> Result<Vec<u8>, String> {
        let word = self.word()?;
        if word == "." {
            return Ok(Vec::new());
        }
        let digit = |c: u8| char::from(c).to_digit(16).ok_or_else(|| "no hex".to_string());
        word.as_bytes()
            .chunks(2)
            .map(|two| match two {
                [a, b] => u8::try_from(digit(*a)? * 16 + digit(*b)?).map_err(|_| "no byte".to_string()),
                _ => Err("half a byte".to_string()),
            })
            .collect()
    }
}

/// A call's answer as the line has it.
struct Answer {
    reply: u32,
    id: u32,
    written: usize,
    told: usize,
    dropped: usize,
    delivered: usize,
    output: Vec<u8>,
}

/// The number by which it is told what a frame did.
fn number(did: Option<Did>) -> usize {
    did.map_or(0, Did::number)
}

fn same<T: PartialEq + std::fmt::Debug>(what: &str, said: T, expected: T) -> Result<(), String> {
    if said == expected {
        return Ok(());
    }
    Err(format!("{what}: {said:?}, and here {expected:?}"))
}

/// A time with this counter, far enough from the start.
fn time(counter: u16) -> u64 {
    131_072 + u64::from(counter)
}

/// A slot after a call is what the node that had it alone has now; where that is what it had before, nothing of the
/// slot changed.
fn same_part(old: &Slot, new: &Slot, before: u64, alone: &Node) -> Result<(), String> {
    let part = |slot: &Slot, now: u64| match slot.kept(now) {
        Kept::Part(part) => Ok(Some(part)),
        Kept::Free | Kept::Neither => Ok(None),
        Kept::Odd => Err("a slot became odd".to_string()),
    };
    let after = alone.part(Stream(old.stream));
    if part(old, before)?.as_ref() == after {
        same("a slot that no call changed", new, old)?;
    }
    same("the slot after", part(new, alone.now())?.as_ref(), after)
}

/// Every slot but one is as it was, and the counter too.
fn others_stay(before: &Decoded, after: &Decoded, but: Option<usize>) -> Result<(), String> {
    same("the counter", after.counter, before.counter)?;
    for i in (0..SLOTS).filter(|i| Some(*i) != but) {
        same("another slot", &after.slots[i], &before.slots[i])?;
    }
    Ok(())
}

fn first(node: &Decoded, test: impl Fn(&Slot) -> bool) -> Option<usize> {
    node.slots.iter().position(test)
}

/// Whether the whole answer was said.
type Said = Result<bool, String>;

/// A call on the slot of one stream, or on none: what its own node answers, and the slot after.
fn on_stream(
    before: &Decoded,
    after: &Decoded,
    stream: u32,
    answer: &Answer,
    call: impl FnOnce(&mut Node) -> Result<Reply, String>,
) -> Said {
    let i = first(before, |slot| slot.used && slot.stream == stream);
    others_stay(before, after, i)?;
    let now = time(before.counter);
    let alone = i.map_or_else(|| Some(Node::at(now, Stream(stream), None)), |i| before.slots[i].alone(now));
    let Some(mut alone) = alone else {
        return Ok(false);
    };
    let reply = call(&mut alone)?;
    same("the reply", answer.reply, reply as u32)?;
    if let Some(i) = i {
        same_part(&before.slots[i], &after.slots[i], now, &alone)?;
    }
    Ok(true)
}

/// The slots in use stand in front of the first that is free or has a higher stream; the first free one gives way.
fn in_place(slots: &[Slot], new: Slot) -> Vec<Slot> {
    let mut placed = slots.to_vec();
    if let Some(free) = placed.iter().position(|slot| !slot.used) {
        let at = placed.iter().position(|slot| !slot.used || slot.stream > new.stream).unwrap_or(free);
        placed.remove(free);
        placed.insert(at, new);
    }
    placed
}

/// The settings as asked; none where a number is too great for any that is legal.
fn asked(line: &mut Line) -> Result<Option<Asked>, String> {
    let numbers: Vec<u32> = (0..7).map(|_| line.number()).collect::<Result<_, _>>()?;
    let byte = |at: usize| u8::try_from(numbers[at]).ok();
    let ticks = |at: usize| u16::try_from(numbers[at]).ok();
    Ok((|| {
        Some(Asked {
            stream: numbers[0],
            role: byte(1)?,
            class: byte(2)?,
            data_reach: ticks(3)?,
            confirm_delay: ticks(4)?,
            abort_reach: ticks(5)?,
            deliver_delay: ticks(6)?,
        })
    })())
}

fn set_up(before: &Decoded, after: &Decoded, asked: Option<Asked>, answer: &Answer) -> Said {
    let settings = asked.and_then(Asked::tested);
    let reply = match &settings {
        None => Reply::BadSettings,
        Some(settings) if first(before, |slot| slot.used && slot.stream == settings.stream.0).is_some() => Reply::Taken,
        Some(_) if first(before, |slot| !slot.used).is_none() => Reply::TableFull,
        Some(_) => Reply::Done,
    };
    same("the reply", answer.reply, reply as u32)?;
    let slots = match settings {
        Some(settings) if reply == Reply::Done => in_place(&before.slots, Slot::set_up(&settings)),
        _ => before.slots.clone(),
    };
    same("the node after", after, &Decoded { slots, counter: before.counter })?;
    Ok(true)
}

/// Each slot by itself; the records stand one after the other.
fn tick(before: &Decoded, after: &Decoded, mut output: Vec<u8>, answer: &Answer) -> Said {
    if output.len() < TICK_OUTPUT {
        same("the reply", answer.reply, Reply::ShortOutput as u32)?;
        return Ok(true);
    }
    same("the reply", answer.reply, Reply::Done as u32)?;
    same("the counter", after.counter, before.counter.wrapping_add(1))?;
    let (mut written, mut dropped, mut delivered, mut whole) = (0, 0, 0, true);
    for (old, new) in before.slots.iter().zip(&after.slots) {
        match old.kept(time(before.counter)) {
            Kept::Free | Kept::Neither => same("a slot that no tick changes", new, old)?,
            Kept::Odd if old.rests() => same("a slot that no tick changes", new, old)?,
            Kept::Odd => whole = false,
            Kept::Part(part) => {
                let mut alone = Node::at(time(before.counter), Stream(old.stream), Some(part));
                let mut record = [0; TICK_OUTPUT];
                let ticked = alone.tick(&mut record);
                same_part(old, new, time(before.counter), &alone)?;
                output[written..written + ticked.written].copy_from_slice(&record[..ticked.written]);
                written += ticked.written;
                dropped += ticked.dropped;
                delivered += ticked.delivered;
            }
        }
    }
    if whole {
        same("how much is written", answer.written, written)?;
        same("how many are dropped", answer.dropped, dropped)?;
        same("how many are delivered", answer.delivered, delivered)?;
        same("the output", &answer.output, &output)?;
    }
    Ok(whole)
}

/// Of the first slot that has a frame pending. A number that is no stream has none.
fn next_frame(before: &Decoded, after: &Decoded, mut output: Vec<u8>, answer: &Answer) -> Said {
    let now = time(before.counter);
    let stream = |slot: &Slot| i64::from(slot.stream) <= Limit::StreamMost.value();
    let i = first(before, |slot| slot.used && stream(slot) && slot.is_pending());
    let alone = i.map_or_else(|| Some(Node::at(now, Stream(0), None)), |i| before.slots[i].alone(now));
    let Some(mut alone) = alone else {
        others_stay(before, after, i)?;
        return Ok(false);
    };
    let given = alone.next_frame(&mut output);
    same("the reply", answer.reply, given.reply as u32)?;
    same("the identifier", answer.id, given.id.0)?;
    same("the length", answer.written, given.length)?;
    same("the output", &answer.output, &output)?;
    others_stay(before, after, i)?;
    if let Some(i) = i {
        same_part(&before.slots[i], &after.slots[i], now, &alone)?;
    }
    Ok(true)
}

/// What a frame asks of the node that hears it. A DLC that is no byte is none on any bus.
fn hear(before: &Decoded, after: &Decoded, frame: (u32, u32, Vec<u8>), mut output: Vec<u8>, answer: &Answer) -> Said {
    let (id, dlc, payload) = frame;
    let dlc = u8::try_from(dlc).unwrap_or(u8::MAX);
    let whole = on_stream(before, after, id / 4, answer, |alone| {
        let heard = alone.hear(id, dlc, &payload, &mut output);
        same("how much is written", answer.written, heard.written)?;
        same("what the frame did", answer.told, number(heard.did))?;
        Ok(heard.reply)
    })?;
    if whole {
        same("the output", &answer.output, &output)?;
    }
    Ok(whole)
}

/// Reads a line, and says whether this implementation's whole answer is the line's; an error is a difference.
fn said_of(layout: &Layout, line: &str, seen: &mut Seen) -> Said {
    let mut line = Line { words: line.split_ascii_whitespace() };
    let call = line.word()?.to_string();
    let bytes = line.bytes()?;
    let mut output = Vec::new();
    let mut lent = |line: &mut Line| -> Result<(), String> {
        let (room, fill) = (line.length()?, line.number()?);
        output = vec![u8::try_from(fill).map_err(|_| "no byte".to_string())?; room];
        Ok(())
    };
    let (mut settings, mut stream, mut frame) = (None, 0, (0, 0, Vec::new()));
    match call.as_str() {
        "set_up" => settings = asked(&mut line)?,
        "hear" => {
            frame = (line.number()?, line.number()?, line.bytes()?);
            lent(&mut line)?;
        }
        "tick" | "next_frame" => lent(&mut line)?,
        "request" => {
            stream = line.number()?;
            frame.2 = line.bytes()?;
        }
        _ => return Err(format!("{call} is no call")),
    }
    let answer = Answer {
        reply: line.number()?,
        id: line.number()?,
        written: line.length()?,
        told: line.length()?,
        dropped: line.length()?,
        delivered: line.length()?,
        output: line.bytes()?,
    };
    let bytes_after = line.bytes()?;
    if let Some(reply) = Reply::from_number(answer.reply.into()) {
        seen.replies[reply.place()] += 1;
    }
    if let Some(did) = Did::ALL.into_iter().find(|did| did.number() == answer.told) {
        seen.deeds.count(did);
    }
    seen.dropping += u64::from(answer.dropped > 0);
    seen.delivering += u64::from(answer.delivered > 0);
    let done = answer.reply == Reply::Done as u32;
    same("whether a frame is told to have done something", answer.told != 0, done && call == "hear")?;
    if !done {
        same("what a refused tick drops and delivers", (answer.dropped, answer.delivered), (0, 0))?;
        same("the bytes after a refusal", &bytes_after, &bytes)?;
        same("what a refusal writes", answer.written, 0)?;
        same("the output of a refusal", &answer.output, &output)?;
    }
    let decoded = |bytes: &[u8]| decode(layout, bytes).ok_or_else(|| "bytes of another length".to_string());
    let (before, after) = (decoded(&bytes)?, decoded(&bytes_after)?);
    match call.as_str() {
        "set_up" => set_up(&before, &after, settings, &answer),
        "hear" => hear(&before, &after, frame, output, &answer),
        "tick" => tick(&before, &after, output, &answer),
        "request" => on_stream(&before, &after, stream, &answer, |alone| Ok(alone.request(stream, &frame.2))),
        _ => next_frame(&before, &after, output, &answer),
    }
}

/// All lines; the first that differs is an error.
pub fn compare<'a>(layout: &Layout, lines: impl Iterator<Item = &'a str>) -> Result<Seen, String> {
    let mut seen = Seen::default();
    for line in lines {
        seen.lines += 1;
        match said_of(layout, line, &mut seen) {
            Ok(true) => seen.whole += 1,
            Ok(false) => seen.in_part += 1,
            Err(differs) => return Err(format!("line {}: {differs}\n{line}", seen.lines)),
        }
    }
    Ok(seen)
}
