//! The faults that can be switched on in this implementation: each makes a mutant that the comparisons have to catch.

use crate::limits::{Limit, Off};
use crate::reply::Reply;

macro_rules! faults {
    ($($name:ident, $word:literal, $says:literal;)*) => {
        /// What is wrong with a node or a bench; `None` in the faultless ones.
        #[derive(Clone, Copy, Debug, PartialEq, Eq, PartialOrd, Ord, Hash)]
        pub enum Fault {
            None,
            $($name,)*
            /// A limit off by one.
            Limit(Limit, Off),
            /// A cell of the class-by-code table turned over.
            Cell(u8, u8),
            /// Each of two replies to a frame at fault given for the other.
            Swapped(Reply, Reply),
        }

        const NAMED: &[(Fault, &str, &str)] = &[$((Fault::$name, $word, $says),)*];
    };
}

faults! {
    // Errors seen in earlier versions.
    AgeAlone, "age-alone", "delivering on age alone, as the Ada code does";
    ConfirmNotStrict, "confirm-not-strict", "testing age >= dc";
    DeliveredStays, "delivered-stays", "a delivered message is left in the table";
    DuplicateUnconfirms, "duplicate-unconfirms", "a duplicate unconfirms a message";
    CountersBySize, "counters-by-size", "counters are compared by size across the rollover";
    SlotOrder, "slot-order", "a tick delivers in slot order";
    // The dummies that have to be rejected.
    RefusesFrames, "refuses-frames", "a node that refuses all frames";
    NeverDelivers, "never-delivers", "a node that never delivers";
    DoesNothing, "does-nothing", "a node that answers 0 and does nothing";
    FirstFrameOnly, "first-frame-only", "a node that only nods at frames after the first";
    InventedTally, "invented-tally", "a tally that counts everything as Done";
    // Tests, stamps and states.
    DeliverNotStrict, "deliver-not-strict", "testing age >= dd";
    HoldNotStrict, "hold-not-strict", "testing age >= Rd + dd";
    HoldWithoutReach, "hold-without-reach", "a hold of dd ticks alone";
    ImdNotHeld, "imd-not-held", "no hold in IMD";
    DuplicateKeepsStamp, "duplicate-keeps-stamp", "a duplicate leaves the stamp as it was";
    ConfirmationStamps, "confirmation-stamps", "a confirmation renews the stamp";
    LoneConfirmation, "lone-confirmation", "a confirmation with nothing held makes no abort pending";
    LoneAbort, "lone-abort", "an abort with nothing held makes an abort pending";
    AbortSparesConfirmed, "abort-spares-confirmed", "an abort does not drop a confirmed message";
    AbortClearsOwn, "abort-clears-own", "hearing an abort takes back a pending one of one's own";
    DropsSilently, "drops-silently", "an unconfirmed message is dropped with no abort pending";
    ClashByLength, "clash-by-length", "only the lengths are compared for a Clash";
    ClashByBytes, "clash-by-bytes", "only the bytes that both have are compared for a Clash";
    HeldLengthIsDlc, "held-length-is-dlc", "the held length is the DLC, 15 where that is 15";
    ClashReplaces, "clash-replaces", "a Clash replaces what is held";
    DlcAboveEight, "dlc-above-eight", "DLC 9 to 15 are refused";
    NineBytes, "nine-bytes", "DLC 9 with nine bytes is taken";
    OneFaultOfFrames, "one-fault-of-frames", "every fault in a frame is answered 4";
    SendSlotHears, "send-slot-hears", "a frame of a send slot is answered 0";
    TickDeliversOne, "tick-delivers-one", "a tick delivers one message at most";
    // What is told.
    DuplicateIsNew, "duplicate-is-new", "a duplicate is told as new";
    AgainIsConfirmed, "again-is-confirmed", "confirmed is told for confirmed again";
    PendingToldOnce, "pending-told-once", "an abort that is pending already is told as nothing to drop";
    ConfirmedDropUntold, "confirmed-drop-untold", "an abort that drops a confirmed message is told as nothing to drop";
    RefusalTells, "refusal-tells", "a refused frame is told as new";
    DropsCountDelivered, "drops-count-delivered", "what a tick delivers is counted among the dropped";
    DeliveredCountDrops, "delivered-count-drops", "what a tick drops is counted among the delivered";
    OneDropTold, "one-drop-told", "a tick tells one drop at most";
    HoldIsDrop, "hold-is-drop", "the end of a hold is counted as a drop";
    HoldIsDelivery, "hold-is-delivery", "the end of a hold is counted as a delivery";
    // Frames given out.
    AbortTwice, "abort-twice", "a pending abort that was caused twice is given out twice";
    BusyMissesPending, "busy-misses-pending", "Busy does not look at pending frames";
    NextInSlotOrder, "next-in-slot-order", "next frame takes the first slot that has one";
    NextStaysPending, "next-stays-pending", "a data frame given out stays pending";
    ConfirmationFirst, "confirmation-first", "a confirmation is given out before its data";
    // Outputs and records.
    PastRecord, "past-record", "the bytes past the record are overwritten";
    RefusedTickMoves, "refused-tick-moves", "a refused tick moves the counter";
    RefusalWrites, "refusal-writes", "a refused next frame writes to the output";
    RecordLengthWhole, "record-length-whole", "the record's length counts itself";
    RecordStreamBigEndian, "record-stream-big-endian", "the record's stream is big-endian";
    // Orders of refusal.
    TakenFirst, "taken-first", "set up answers 3 before 1";
    FullFirst, "full-first", "set up answers 2 before 3";
    FrameFirst, "frame-first", "hear answers 18 to 21 before 11";
    DlcFirst, "dlc-first", "hear answers 19 before 18";
    UnwantedFirst, "unwanted-first", "hear answers 21 before 20";
    MineFirst, "mine-first", "hear answers 5 before 18 to 21";
    SenderFirst, "sender-first", "request answers 9 before 10";
    NothingFirst, "nothing-first", "next frame answers 12 before 11";
    // The tally and the bench.
    TallyOfFour, "tally-of-4", "the tally counts 18 to 21 as 4";
    TallyMissesRefusals, "tally-misses-refusals", "the tally does not count refusals";
    DeadHears, "dead-hears", "a dead module hears";
    DeadTicks, "dead-ticks", "a dead module is ticked";
    OwnerHears, "owner-hears", "a sending is heard by its owner";
    ShortReachesAll, "short-reaches-all", "a short sending reaches every module";
}

/// The replies to a frame at fault, in hear's order.
const FAULTS_IN_FRAMES: [Reply; 4] =
    [Reply::IdentifierTooBig, Reply::DlcTooBig, Reply::PayloadLength, Reply::UnwantedPayload];

impl Fault {
    /// Every fault, in the order of the table of mutants.
    pub fn all() -> Vec<Fault> {
        let mut all: Vec<Fault> = NAMED.iter().map(|named| named.0).collect();
        for &limit in Limit::ALL {
            all.push(Fault::Limit(limit, Off::Lower));
            all.push(Fault::Limit(limit, Off::Higher));
        }
        for class in 0..3 {
            for code in 0..4 {
                all.push(Fault::Cell(class, code));
            }
        }
        for (at, &one) in FAULTS_IN_FRAMES.iter().enumerate() {
            for &other in &FAULTS_IN_FRAMES[at + 1..] {
                all.push(Fault::Swapped(one, other));
            }
        }
        all
    }

    pub fn name(self) -> String {
        match self {
            Fault::None => "none".to_string(),
            Fault::Limit(limit, Off::Lower) => format!("{}-lower", limit.word()),
            Fault::Limit(limit, Off::Higher) => format!("{}-higher", limit.word()),
            Fault::Cell(class, code) => format!("cell-{class}-{code}"),
            Fault::Swapped(one, other) => format!("swapped-{}-{}", one.number(), other.number()),
            _ => self.named().map_or(String::new(), |named| named.1.to_string()),
        }
    }

    pub fn says(self) -> String {
        match self {
            Fault::None => "no fault".to_string(),
            Fault::Limit(limit, _) => format!("{} {} instead of {}", limit.says(), limit.of(self), limit.value()),
            Fault::Cell(class, code) => format!("class {class} by code {code} is turned over in the table"),
            Fault::Swapped(one, other) => {
                format!("{} is answered for {}, and that for it", one.number(), other.number())
            }
            _ => self.named().map_or(String::new(), |named| named.2.to_string()),
        }
    }

    pub fn from_name(name: &str) -> Option<Fault> {
        Fault::all().into_iter().chain([Fault::None]).find(|fault| fault.name() == name)
    }

    fn named(self) -> Option<&'static (Fault, &'static str, &'static str)> {
        NAMED.iter().find(|named| named.0 == self)
    }
}

#[cfg(test)]
mod tests {
    use super::*;

    #[test]
    fn every_fault_is_found_by_its_name() {
        for fault in Fault::all() {
            assert_eq!(Fault::from_name(&fault.name()), Some(fault));
            assert!(!fault.says().is_empty());
        }
        assert_eq!(Fault::from_name("none"), Some(Fault::None));
        assert_eq!(Fault::from_name("no such fault"), None);
    }
}
