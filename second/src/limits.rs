//! Every number of the paper that bounds something, in one table, so that a mutant can have one of them off by one.

use crate::fault::Fault;

/// In which direction a mutant has a limit wrong.
#[derive(Clone, Copy, Debug, PartialEq, Eq, PartialOrd, Ord, Hash)]
pub enum Off {
    Lower,
    Higher,
}

macro_rules! limits {
    ($($name:ident, $value:literal, $word:literal, $says:literal;)*) => {
        /// A number of the paper that bounds something.
        #[derive(Clone, Copy, Debug, PartialEq, Eq, PartialOrd, Ord, Hash)]
        pub enum Limit { $($name,)* }

        impl Limit {
            pub const ALL: &'static [Limit] = &[$(Limit::$name,)*];

            pub fn value(self) -> i64 {
                match self { $(Limit::$name => $value,)* }
            }

            pub fn word(self) -> &'static str {
                match self { $(Limit::$name => $word,)* }
            }

            pub fn says(self) -> &'static str {
                match self { $(Limit::$name => $says,)* }
            }
        }
    };
}

limits! {
    StreamMost, 134_217_727, "stream-most", "a stream number at most";
    RoleMost, 1, "role-most", "a role at most";
    ClassMost, 2, "class-most", "a class at most";
    Slots, 32, "slots", "slots of a node";
    PlainRd, 0, "plain-rd-most", "plain: Rd at most";
    PlainDc, 0, "plain-dc-most", "plain: dc at most";
    PlainRa, 0, "plain-ra-most", "plain: Ra at most";
    PlainDd, 0, "plain-dd-most", "plain: dd at most";
    ImdRdLeast, 1, "imd-rd-least", "IMD: Rd at least";
    ImdRdMost, 8_000, "imd-rd-most", "IMD: Rd at most";
    ImdDc, 0, "imd-dc-most", "IMD: dc at most";
    ImdRa, 0, "imd-ra-most", "IMD: Ra at most";
    ImdDdOverRd, 0, "imd-dd-least", "IMD: dd at least Rd and";
    ImdDdMost, 16_000, "imd-dd-most", "IMD: dd at most";
    TwoRdLeast, 1, "2m-rd-least", "2M: Rd at least";
    TwoRdMost, 8_000, "2m-rd-most", "2M: Rd at most";
    TwoDcOverRd, 0, "2m-dc-least", "2M: dc at least Rd and";
    TwoDcMost, 8_000, "2m-dc-most", "2M: dc at most";
    TwoRaLeast, 1, "2m-ra-least", "2M: Ra at least";
    TwoRaMost, 4_000, "2m-ra-most", "2M: Ra at most";
    TwoDdOver, 1, "2m-dd-least", "2M: dd at least dc and Ra and";
    TwoDdMost, 16_000, "2m-dd-most", "2M: dd at most";
    IdentMost, 536_870_911, "ident-most", "a bus identifier at most";
    DlcMost, 15, "dlc-most", "a DLC at most";
    DlcBytes, 8, "dlc-bytes", "bytes that a DLC means at most";
    RequestMost, 8, "request-most", "a request's payload at most";
    HearOutput, 16, "hear-output", "hear's output at least";
    TickOutput, 512, "tick-output", "tick's output at least";
    NextOutput, 8, "next-output", "next frame's output at least";
}

impl Limit {
    /// The limit as a node with this fault has it.
    pub fn of(self, fault: Fault) -> i64 {
        match fault {
            Fault::Limit(limit, Off::Lower) if limit == self => self.value() - 1,
            Fault::Limit(limit, Off::Higher) if limit == self => self.value() + 1,
            _ => self.value(),
        }
    }
}
