//! What occurred in scripts of `calls`, counted so that the coverage is seen.

use std::fmt;

use crate::deeds::Deeds;
use crate::node::Ticked;
use crate::receiver::Happened;
use crate::reply::{Reply, REPLIES};

/// The five calls whose replies the tally counts.
#[derive(Clone, Copy, Debug, PartialEq, Eq)]
pub enum Call {
    SetUp = 0,
    Hear = 1,
    Tick = 2,
    Request = 3,
    NextFrame = 4,
}

impl Call {
    pub const ALL: [Call; 5] = [Call::SetUp, Call::Hear, Call::Tick, Call::Request, Call::NextFrame];

    pub fn name(self) -> &'static str {
        match self {
            Call::SetUp => "set up",
            Call::Hear => "hear",
            Call::Tick => "tick",
            Call::Request => "request",
            Call::NextFrame => "next frame",
        }
    }

    /// The numbers of the replies that the call can give.
    pub fn numbers(self) -> &'static [usize] {
        match self {
            Call::SetUp => &[0, 1, 2, 3],
            Call::Hear => &[0, 5, 6, 7, 11, 18, 19, 20, 21],
            Call::Tick => &[0, 11],
            Call::Request => &[0, 8, 9, 10],
            Call::NextFrame => &[0, 11, 12],
        }
    }
}

/// What occurred in scripts of `calls`.
#[derive(Clone, Debug, Default)]
pub struct CallCounts {
    pub replies: [[u64; REPLIES]; 5],
    /// Set ups taken, class by role.
    pub taken: [[u64; 2]; 3],
    pub nodes: u64,
    /// Frames heard with a DLC of 9 to 16, each with eight bytes and with nine.
    pub high_dlcs: [[u64; 2]; 8],
    /// What frames that were heard did.
    pub deeds: Deeds,
    /// Lines `tick` that dropped none, one or several messages, by how many they delivered.
    pub ticks: [[u64; 3]; 3],
    pub aborts: u64,
    pub unreadable: u64,
    /// How often the 16-bit counter rolled over.
    pub rollovers: u64,
}

impl CallCounts {
    pub fn set_up(&mut self, class: u8, role: u8) {
        if let Some(count) = self.taken.get_mut(usize::from(class)).and_then(|row| row.get_mut(usize::from(role))) {
            *count += 1;
        }
    }

    pub fn heard(&mut self, dlc: u8, bytes: usize) {
        let count = usize::from(dlc).checked_sub(9).and_then(|row| self.high_dlcs.get_mut(row));
        if let (Some(row), 8 | 9) = (count, bytes) {
            row[bytes - 8] += 1;
        }
    }

    pub fn ticked(&mut self, ticked: &Ticked) {
        let caused = ticked.happened.iter().filter(|(_, happened)| *happened == Happened::AbortPending);
        self.aborts += caused.count() as u64;
    }

    /// A tick whose drops and deliveries are told.
    pub fn told(&mut self, ticked: &Ticked) {
        self.ticks[ticked.dropped.min(2)][ticked.delivered.min(2)] += u64::from(ticked.reply == Reply::Done);
    }

    /// What could occur and did not.
    pub fn missing(&self) -> Vec<String> {
        let mut missing = self.deeds.missing();
        for (dropped, row) in self.ticks.iter().enumerate() {
            for (delivered, count) in row.iter().enumerate() {
                if *count == 0 {
                    missing.push(format!("no line `tick` dropped {dropped} and delivered {delivered}, 2 for several"));
                }
            }
        }
        for call in Call::ALL {
            for reply in Reply::ALL {
                let number = reply.number();
                if call.numbers().contains(&number) && self.replies[call as usize][reply.place()] == 0 {
                    missing.push(format!("{} never answered {number}", call.name()));
                }
            }
        }
        for (class, row) in self.taken.iter().enumerate() {
            for (role, count) in row.iter().enumerate() {
                if *count == 0 {
                    missing.push(format!("class {class} was never set up with role {role}"));
                }
            }
        }
        for (dlc, row) in (9..).zip(&self.high_dlcs) {
            for (bytes, count) in (8..).zip(row) {
                if *count == 0 {
                    missing.push(format!("DLC {dlc} was never heard with {bytes} bytes"));
                }
            }
        }
        let counts =
            [("an abort", self.aborts), ("a line that can't be read", self.unreadable), ("a rollover", self.rollovers)];
        missing.extend(counts.iter().filter(|(_, count)| *count == 0).map(|(what, _)| what.to_string()));
        missing
    }
}

impl fmt::Display for CallCounts {
    fn fmt(&self, f: &mut fmt::Formatter) -> fmt::Result {
        writeln!(
            f,
            "  fresh nodes {}, aborts made pending {}, rollovers {}, lines that can't be read {}",
            self.nodes, self.aborts, self.rollovers, self.unreadable
        )?;
        write!(f, "{}", self.deeds)?;
        write!(f, "  lines `tick` that delivered none, one, several:")?;
        for (dropped, row) in ["none", "one", "several"].iter().zip(&self.ticks) {
            write!(f, " {}, {}, {} dropping {dropped};", row[0], row[1], row[2])?;
        }
        writeln!(f)?;
        write!(f, "  set ups taken (receive, send):")?;
        for (name, row) in ["plain", "IMD", "2M"].iter().zip(&self.taken) {
            write!(f, " {name} {}, {};", row[0], row[1])?;
        }
        writeln!(f)?;
        for (at, bytes) in ["eight", "nine"].iter().enumerate() {
            let counts: Vec<String> = self.high_dlcs.iter().map(|row| row[at].to_string()).collect();
            writeln!(f, "  DLC 9 to 16 with {bytes} bytes: {}", counts.join(", "))?;
        }
        for call in Call::ALL {
            write!(f, "  {:<10}", call.name())?;
            for reply in Reply::ALL {
                let count = self.replies[call as usize][reply.place()];
                if count > 0 {
                    write!(f, "  {} {reply:?} {count}", reply.number())?;
                }
            }
            writeln!(f)?;
        }
        Ok(())
    }
}
