//! The replay: a recording fed to one fresh node, tick by tick, and what the node delivers.

use crate::bench::LOOK_EACH;
use crate::fault::Fault;
use crate::heard::{read_by, Record, Refusal};
use crate::ident::Stream;
use crate::node::{Node, HEAR_OUTPUT, TICK_OUTPUT};
use crate::receiver::{Did, Happened};
use crate::recording_faults::Wrong;
use crate::reply::Reply;
use crate::settings::Asked;

/// A payload delivered, with the unbounded tick count.
#[derive(Clone, Debug, PartialEq, Eq)]
pub struct Delivery {
    pub tick: u64,
    pub stream: Stream,
    pub payload: Vec<u8>,
}

/// What a replay answers. The offset is that of the record at fault, and 0 where there is none.
#[derive(Clone, Debug, Default, PartialEq, Eq)]
pub struct Replayed {
    pub reply: usize,
    pub offset: usize,
    pub deliveries: Vec<Delivery>,
}

/// What is wrong with a replay, and with the node in it.
#[derive(Clone, Copy, Debug)]
pub struct Making {
    pub wrong: Wrong,
    pub fault: Fault,
}

impl Making {
    pub const FAULTLESS: Making = Making { wrong: Wrong::Nothing, fault: Fault::None };
}

pub fn replay(settings: &[Asked], recording: &[u8]) -> Replayed {
    replay_by(Making::FAULTLESS, settings, recording, &mut None)
}

/// The same with faults; the node is left behind for the one mutant that begins with it.
pub(crate) fn replay_by(making: Making, settings: &[Asked], recording: &[u8], left: &mut Option<Node>) -> Replayed {
    let wrong = making.wrong;
    let mut player =
        Player { node: Node::with(making.fault), wrong, base: None, deliveries: Vec::new(), refused: None };
    match left.take() {
        Some(node) if wrong == Wrong::NodeStays => player.node = node,
        _ => {
            let judged = !(wrong == Wrong::EmptyNeedsNone && recording.is_empty());
            if let (Err(refused), true) = (player.set_up(settings), judged) {
                return match first_fault(wrong, recording) {
                    Some(fault) if wrong == Wrong::FaultsFirst => fault,
                    _ => refused,
                };
            }
        }
    }
    let replayed = player.play(recording);
    *left = Some(player.node);
    replayed
}

struct Player {
    node: Node,
    wrong: Wrong,
    /// The counter that the node begins at. Only a mutant's is not 0.
    base: Option<u16>,
    deliveries: Vec<Delivery>,
    /// The reply of a frame that was refused. Only mutants look at it.
    refused: Option<Reply>,
}

impl Player {
    /// Sets all settings up, in their order.
    fn set_up(&mut self, settings: &[Asked]) -> Result<(), Replayed> {
        let mut refused = Ok(());
        for (position, asked) in settings.iter().enumerate() {
            let sends = asked.role == 1 && asked.tested().is_some();
            let reply = match self.wrong {
                Wrong::SendSlotsLeftOut if sends => continue,
                Wrong::SendSlotsRefused if sends => Reply::BadSettings,
                _ => self.node.set_up(*asked),
            };
            if reply == Reply::Done || self.wrong == Wrong::RefusedSettingSkipped {
                continue;
            }
            let reply = if self.wrong == Wrong::RefusalIsBad { Reply::BadSettings } else { reply };
            let offset = if self.wrong == Wrong::PositionOfSetting { position } else { 0 };
            refused = Err(Replayed { reply: reply.number(), offset, deliveries: Vec::new() });
            if self.wrong != Wrong::LastRefusal {
                break;
            }
        }
        if settings.is_empty() && self.wrong == Wrong::NoSettings {
            return Err(Replayed { reply: Reply::BadSettings.number(), ..Replayed::default() });
        }
        refused
    }

    fn play(&mut self, recording: &[u8]) -> Replayed {
        if recording.is_empty() && self.wrong == Wrong::EmptyIsCut {
            return self.done(Refusal::CutRecord.number(), 0);
        }
        let (mut offset, mut last, mut records) = (0, 0, 0);
        while offset < recording.len() {
            let rest = &recording[offset..];
            match read_by(self.wrong, rest) {
                Ok((record, length)) => {
                    self.hear(&record);
                    (last, offset, records) = (offset, offset + length, records + 1);
                }
                Err(_) if self.wrong == Wrong::SurplusEnds && rest.len() < 4 => break,
                Err(Refusal::UnknownKind) if self.wrong == Wrong::SkipsUnknown => {
                    offset += 2 + usize::from(u16::from_le_bytes([rest[0], rest[1]]));
                }
                Err(refusal) => {
                    if let (Wrong::FaultTicks, [_, _, _, _, low, high, ..]) = (self.wrong, rest) {
                        self.tick_to(u16::from_le_bytes([*low, *high]));
                    }
                    let offset = match self.wrong {
                        Wrong::OffsetOfLength => offset + 2,
                        Wrong::OffsetOfHeader => offset + 4,
                        Wrong::OffsetOfLast => last,
                        Wrong::OffsetZero => 0,
                        Wrong::OffsetInRecords => records,
                        _ => offset,
                    };
                    return self.done(refusal.number(), offset);
                }
            }
            if self.wrong == Wrong::RefusedEnds && self.refused.is_some() {
                break;
            }
        }
        match self.wrong {
            Wrong::TicksAfterLast => self.ticks(65_536),
            Wrong::OneTickAfterLast => self.ticks(1),
            _ => {}
        }
        let reply = self.refused.filter(|_| self.wrong == Wrong::RefusedAnswers).map_or(0, Reply::number);
        self.done(reply, if self.wrong == Wrong::OffsetWhenDone { offset } else { 0 })
    }

    fn done(&mut self, reply: usize, offset: usize) -> Replayed {
        let mut deliveries = std::mem::take(&mut self.deliveries);
        match self.wrong {
            Wrong::FaultLosesDeliveries if reply != 0 => deliveries.clear(),
            Wrong::OnlyLastOfTick => {
                deliveries.reverse();
                deliveries.dedup_by_key(|delivery| delivery.tick);
                deliveries.reverse();
            }
            Wrong::DeliveriesBackwards => deliveries.reverse(),
            _ => {}
        }
        Replayed { reply, offset, deliveries }
    }

    /// Ticks the node to the record's counter, and lets it hear the frame.
    fn hear(&mut self, record: &Record) {
        if self.wrong == Wrong::BeginsAtFirst {
            self.base.get_or_insert(record.counter);
        }
        let before = self.node.now();
        let kept = (self.wrong == Wrong::RefusedNotTicked).then(|| (self.node.clone(), self.deliveries.len()));
        if self.wrong != Wrong::HearsFirst {
            self.tick_to(record.counter);
        }
        let heard = self.node.hear(record.id, record.dlc, &record.payload, &mut [0; HEAR_OUTPUT]);
        if heard.did == Some(Did::DeliveredAtOnce) && self.wrong != Wrong::PlainLost {
            let tick = match self.wrong {
                Wrong::PlainTickLater => self.node.now() + 1,
                Wrong::PlainTickBefore => before,
                _ => self.node.now(),
            };
            self.deliver(tick, Stream(record.id / 4), record.payload.clone());
        }
        if heard.reply != Reply::Done {
            self.refused = Some(heard.reply);
            if let Some((node, deliveries)) = kept {
                self.node = node;
                self.deliveries.truncate(deliveries);
            }
        }
        if self.wrong == Wrong::HearsFirst {
            self.tick_to(record.counter);
        }
    }

    /// Ticks until the node's counter is this one.
    fn tick_to(&mut self, counter: u16) {
        let own = (self.node.now() as u16).wrapping_add(self.base.unwrap_or(0));
        let difference = u64::from(counter.wrapping_sub(own));
        self.ticks(match self.wrong {
            Wrong::NotModulo => u64::from(counter.saturating_sub(own)),
            Wrong::Distance => u64::from(counter.abs_diff(own)),
            Wrong::ToTheCounter => u64::from(counter),
            Wrong::EqualIsARound if difference == 0 => 65_536,
            Wrong::OneTickMore if difference > 0 => difference + 1,
            Wrong::OneTickLess if difference > 0 => difference - 1,
            _ => difference,
        });
    }

    fn ticks(&mut self, number: u64) {
        for at in 1..=number {
            if at.is_multiple_of(LOOK_EACH) && self.node.is_idle() {
                return self.node.pass(number - at + 1);
            }
            for (stream, happened) in self.node.tick(&mut [0; TICK_OUTPUT]).happened {
                if let Happened::Delivered(payload) = happened {
                    self.deliver(self.node.now(), stream, payload);
                }
            }
        }
    }

    fn deliver(&mut self, tick: u64, stream: Stream, payload: Vec<u8>) {
        let tick = if self.wrong == Wrong::TicksByCounter { tick % 65_536 } else { tick };
        self.deliveries.push(Delivery { tick, stream, payload });
    }
}

/// The first record at fault, if there is one.
fn first_fault(wrong: Wrong, recording: &[u8]) -> Option<Replayed> {
    let mut offset = 0;
    while offset < recording.len() {
        match read_by(wrong, &recording[offset..]) {
            Ok((_, length)) => offset += length,
            Err(refusal) => return Some(Replayed { reply: refusal.number(), offset, deliveries: Vec::new() }),
        }
    }
    None
}
