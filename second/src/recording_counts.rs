//! What occurred in scripts of `recording`, counted so that the coverage is seen.

use std::fmt;

use crate::heard::{read, PAYLOAD_MOST};
use crate::replay::Replayed;
use crate::settings::Asked;

/// The replies of a replay, and of a record written.
const REPLAYED: [usize; 7] = [0, 1, 2, 3, 15, 16, 17];
const WRITTEN: [usize; 3] = [0, 11, 17];
/// A stretch without a frame that counts as a quiet one.
const QUIET: u16 = 60_000;

#[derive(Clone, Debug, Default)]
pub struct RecordingCounts {
    pub replays: [u64; REPLAYED.len()],
    pub writes: [u64; WRITTEN.len()],
    pub records: u64,
    /// By class.
    pub deliveries: [u64; 3],
    pub empty_deliveries: u64,
    pub late_deliveries: u64,
    pub shared_ticks: u64,
    pub faults_after_deliveries: u64,
    pub refused_and_empty: u64,
    pub refused_and_at_fault: u64,
    pub send_slots: u64,
    pub quiet: u64,
    pub long_dlcs: u64,
    pub illegal_ids: u64,
    pub full_lists: u64,
    pub skipped: u64,
    pub unreadable: u64,
}

impl RecordingCounts {
    pub fn replayed(&mut self, settings: &[Asked], recording: &[u8], replayed: &Replayed) {
        if let Some(at) = REPLAYED.iter().position(|reply| *reply == replayed.reply) {
            self.replays[at] += 1;
        }
        let whole = self.look(recording);
        if (1..=3).contains(&replayed.reply) {
            self.refused_and_empty += u64::from(recording.is_empty());
            self.refused_and_at_fault += u64::from(!whole);
            return;
        }
        self.send_slots += u64::from(settings.iter().any(|asked| asked.role == 1));
        self.faults_after_deliveries += u64::from(replayed.reply != 0 && !replayed.deliveries.is_empty());
        for (at, delivery) in replayed.deliveries.iter().enumerate() {
            let class = settings.iter().find(|asked| asked.stream == delivery.stream.0).map(|asked| asked.class);
            if let Some(count) = class.and_then(|class| self.deliveries.get_mut(usize::from(class))) {
                *count += 1;
            }
            self.empty_deliveries += u64::from(delivery.payload.is_empty());
            self.late_deliveries += u64::from(delivery.tick >= 65_536);
            self.shared_ticks += u64::from(at > 0 && replayed.deliveries[at - 1].tick == delivery.tick);
        }
    }

    /// Counts the records of a recording, and says whether none of them is at fault.
    fn look(&mut self, recording: &[u8]) -> bool {
        let (mut offset, mut counter) = (0, 0_u16);
        while offset < recording.len() {
            let Ok((record, length)) = read(&recording[offset..]) else {
                return false;
            };
            self.records += 1;
            self.quiet += u64::from(record.counter.wrapping_sub(counter) >= QUIET);
            self.long_dlcs += u64::from((9..=15).contains(&record.dlc) && record.payload.len() == PAYLOAD_MOST);
            self.illegal_ids += u64::from(record.id >= 1 << 29);
            (offset, counter) = (offset + length, record.counter);
        }
        true
    }

    pub fn written(&mut self, reply: usize) {
        if let Some(at) = WRITTEN.iter().position(|number| *number == reply) {
            self.writes[at] += 1;
        }
    }

    fn named(&self) -> [(&'static str, u64); 16] {
        [
            ("records", self.records),
            ("plain deliveries", self.deliveries[0]),
            ("IMD deliveries", self.deliveries[1]),
            ("2M deliveries", self.deliveries[2]),
            ("deliveries of no bytes", self.empty_deliveries),
            ("deliveries after a rollover", self.late_deliveries),
            ("deliveries with another at their tick", self.shared_ticks),
            ("faults after deliveries", self.faults_after_deliveries),
            ("refused settings with an empty recording", self.refused_and_empty),
            ("refused settings with a record at fault", self.refused_and_at_fault),
            ("replays with a send slot", self.send_slots),
            ("quiet stretches of 60,000 ticks", self.quiet),
            ("DLC 9 to 15 with eight bytes", self.long_dlcs),
            ("identifiers above 29 bits", self.illegal_ids),
            ("settings past the 40th", self.full_lists),
            ("lines that can't be read", self.unreadable),
        ]
    }

    /// What could occur and did not.
    pub fn missing(&self) -> Vec<String> {
        let replays =
            REPLAYED.iter().zip(self.replays).map(|(reply, count)| (format!("replay never answered {reply}"), count));
        let writes =
            WRITTEN.iter().zip(self.writes).map(|(reply, count)| (format!("write never answered {reply}"), count));
        let named = self.named().into_iter().map(|(what, count)| (format!("no {what}"), count));
        replays.chain(writes).chain(named).filter(|(_, count)| *count == 0).map(|(what, _)| what).collect()
    }
}

impl fmt::Display for RecordingCounts {
    fn fmt(&self, f: &mut fmt::Formatter) -> fmt::Result {
        for (call, replies, counts) in
            [("replay", &REPLAYED[..], &self.replays[..]), ("write", &WRITTEN[..], &self.writes[..])]
        {
            write!(f, "  {call:<6}")?;
            for (reply, count) in replies.iter().zip(counts) {
                write!(f, "  {reply}: {count}")?;
            }
            writeln!(f)?;
        }
        for some in self.named().chunks(4) {
            let named: Vec<String> = some.iter().map(|(what, count)| format!("{what} {count}")).collect();
            writeln!(f, "  {}", named.join(", "))?;
        }
        Ok(())
    }
}
