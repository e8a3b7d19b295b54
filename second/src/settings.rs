//! The settings of a stream, the test they have to pass, and which codes a class carries.

use crate::fault::Fault;
use crate::ident::{Code, Stream};
use crate::limits::Limit;

#[derive(Clone, Copy, Debug, PartialEq, Eq, PartialOrd, Ord, Hash)]
pub enum Role {
    Receive,
    Send,
}

#[derive(Clone, Copy, Debug, PartialEq, Eq, PartialOrd, Ord, Hash)]
pub enum Class {
    Plain,
    Imd,
    TwoMessage,
}

/// The seven numbers of a set up as they come, good or bad.
#[derive(Clone, Copy, Debug, PartialEq, Eq, PartialOrd, Ord, Hash)]
pub struct Asked {
    pub stream: u32,
    pub role: u8,
    pub class: u8,
    pub data_reach: u16,
    pub confirm_delay: u16,
    pub abort_reach: u16,
    pub deliver_delay: u16,
}

/// Settings that passed the test; the four numbers are in ticks.
#[derive(Clone, Copy, Debug, PartialEq, Eq, PartialOrd, Ord, Hash)]
pub struct Settings {
    pub stream: Stream,
    pub role: Role,
    pub class: Class,
    pub data_reach: u64,
    pub confirm_delay: u64,
    pub abort_reach: u64,
    pub deliver_delay: u64,
}

impl Settings {
    /// How long a send slot is held after a request, and a message is not yet judged.
    pub fn hold(&self) -> u64 {
        self.data_reach + self.deliver_delay
    }
}

impl Asked {
    /// These numbers as settings, if they keep the rules.
    pub fn tested(self) -> Option<Settings> {
        self.tested_by(Fault::None)
    }

    pub(crate) fn tested_by(self, fault: Fault) -> Option<Settings> {
        let most = |limit: Limit| limit.of(fault);
        if i64::from(self.stream) > most(Limit::StreamMost)
            || i64::from(self.role) > most(Limit::RoleMost)
            || i64::from(self.class) > most(Limit::ClassMost)
        {
            return None;
        }
        let rd = i64::from(self.data_reach);
        let dc = i64::from(self.confirm_delay);
        let ra = i64::from(self.abort_reach);
        let dd = i64::from(self.deliver_delay);
        let (class, keeps) = match self.class {
            0 => (
                Class::Plain,
                rd <= most(Limit::PlainRd)
                    && dc <= most(Limit::PlainDc)
                    && ra <= most(Limit::PlainRa)
                    && dd <= most(Limit::PlainDd),
            ),
            1 => (
                Class::Imd,
                (most(Limit::ImdRdLeast)..=most(Limit::ImdRdMost)).contains(&rd)
                    && dc <= most(Limit::ImdDc)
                    && ra <= most(Limit::ImdRa)
                    && (rd + most(Limit::ImdDdOverRd)..=most(Limit::ImdDdMost)).contains(&dd),
            ),
            _ => (
                Class::TwoMessage,
                (most(Limit::TwoRdLeast)..=most(Limit::TwoRdMost)).contains(&rd)
                    && (rd + most(Limit::TwoDcOverRd)..=most(Limit::TwoDcMost)).contains(&dc)
                    && (most(Limit::TwoRaLeast)..=most(Limit::TwoRaMost)).contains(&ra)
                    && (dc + ra + most(Limit::TwoDdOver)..=most(Limit::TwoDdMost)).contains(&dd),
            ),
        };
        keeps.then_some(Settings {
            stream: Stream(self.stream),
            role: if self.role == 1 { Role::Send } else { Role::Receive },
            class,
            data_reach: u64::from(self.data_reach),
            confirm_delay: u64::from(self.confirm_delay),
            abort_reach: u64::from(self.abort_reach),
            deliver_delay: u64::from(self.deliver_delay),
        })
    }
}

impl Class {
    /// Whether frames of this class may carry the code.
    pub fn carries(self, code: Code) -> bool {
        match self {
            Class::Plain => code == Code::Plain,
            Class::Imd => code == Code::Data,
            Class::TwoMessage => code != Code::Plain,
        }
    }

    pub(crate) fn carries_by(self, fault: Fault, code: Code) -> bool {
        self.carries(code) != (fault == Fault::Cell(self as u8, code as u8))
    }
}
