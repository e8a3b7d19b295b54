//! How a node compares times: a time is past when the count of ticks is above it.

use crate::fault::Fault;

/// The time, and how it is compared.
#[derive(Clone, Copy)]
pub(crate) struct Clock {
    pub now: u64,
    pub fault: Fault,
}

impl Clock {
    /// Whether the time is past; `loose` is the fault that has this test not strict.
    pub fn past(self, time: u64, loose: Fault) -> bool {
        if self.fault == Fault::CountersBySize {
            return time % 65_536 < self.now % 65_536;
        }
        time < self.now || (self.fault == loose && time == self.now)
    }
}
