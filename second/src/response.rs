//! The response-time sheet, from equations (2) to (4) and (8) to (10) of source document 001 alone: two ways to the least
//! waiting time, of which the plain one goes through every number.

use crate::wrongs::wrongs;

/// One stream of a list, in whole bit times.
#[derive(Clone, Copy, Debug, PartialEq, Eq)]
pub struct Stream {
    pub priority: u64,
    pub c: u64,
    pub t: u64,
    pub d: u64,
}

/// Up to `n` errors in each period, each of which makes the bus inaccessible for a time.
#[derive(Clone, Copy, Debug, PartialEq, Eq)]
pub struct Errors {
    pub n: u64,
    pub period: u64,
    pub inaccessibility: u64,
}

#[derive(Clone, Debug, PartialEq, Eq)]
pub enum Verdict {
    /// Waiting time and response time of each stream.
    Done(Vec<(u64, u64)>),
    ShortOutput,
    BadStream,
    Late(usize),
}

wrongs! {
    FloorPlusOne, "floor-plus-one", "⌈a / b⌉ is ⌊a / b⌋ + 1";
    Floor, "floor", "⌈a / b⌉ is ⌊a / b⌋";
    WithoutTheBit, "without-the-bit", "⌈waiting / T⌉ in place of ⌈(waiting + 1) / T⌉";
    OwnBlocking, "own-blocking", "a stream is blocked by its own C too";
    NoBlocking, "no-blocking", "no stream is blocked";
    BlockedByAll, "blocked-by-all", "a stream is blocked by the longest of all others";
    HigherFirst, "higher-first", "the higher priority number goes first";
    ErrorsWithoutC, "errors-without-c", "the errors are counted while waiting only";
    ErrorsOnce, "errors-once", "n errors are counted, however long it takes";
    OneError, "one-error", "one error in each period, whatever n is";
    StrictDeadline, "strict-deadline", "a response at the deadline is late";
    WaitingInTime, "waiting-in-time", "only the waiting time has to keep the deadline";
    DeadlineIsPeriod, "deadline-is-period", "a deadline above the period is cut to it";
    SecondLeast, "second-least", "the solution after the least one, where there is one";
    ShortFirst, "short-first", "11 before 13";
    LateFirst, "late-first", "14 before 11";
    LastLate, "last-late", "the position of the last late stream";
    LatePriority, "late-priority", "the late stream of the best priority, not the first in the list";
    PositionFromOne, "position-from-one", "positions from 1";
    ByPriority, "by-priority", "written in priority order";
    ResponseFirst, "response-first", "the response time before the waiting time";
    SixtyFive, "sixty-five", "65 records are taken";
    SixtyThree, "sixty-three", "64 records are too many";
    RepeatsNextToEachOther, "repeats-next", "a repeated priority is seen only next to the other";
    ZeroPriority, "zero-priority", "priority 0 is taken";
    ZeroC, "zero-c", "C of 0 is taken";
    MostLower, "most-lower", "1,000,000 is refused";
    MostHigher, "most-higher", "1,000,001 is taken";
    SeventeenErrors, "seventeen-errors", "n of 17 is taken";
    LongInaccessibility, "long-inaccessibility", "an inaccessibility of 10,001 is taken";
    PeriodUnread, "period-unread", "a period of 0 is taken where n is 0";
    EmptyIsFine, "empty-is-fine", "the errors are not looked at where the list is empty";
}

const MOST: u64 = 1_000_000;
const STREAMS: usize = 64;
const ERRORS: u64 = 16;
const INACCESSIBILITY: u64 = 10_000;

/// A list with what is wrong with its sheet.
struct Sheet<'a> {
    streams: &'a [Stream],
    errors: Errors,
    wrong: Wrong,
}

/// The sheet of a list, for an output that has room for so many numbers.
pub fn sheet(streams: &[Stream], errors: Errors, room: usize, wrong: Wrong) -> Verdict {
    let sheet = Sheet { streams, errors, wrong };
    let short = room < 2 * streams.len();
    if wrong == Wrong::ShortFirst && short {
        return Verdict::ShortOutput;
    }
    if sheet.bad() {
        return Verdict::BadStream;
    }
    if short && wrong != Wrong::LateFirst {
        return Verdict::ShortOutput;
    }
    let times: Vec<Option<u64>> = streams.iter().map(|own| sheet.waiting(own)).collect();
    if let Some(at) = sheet.late(&times) {
        return Verdict::Late(at);
    }
    if short {
        return Verdict::ShortOutput;
    }
    sheet.written(&times)
}

impl Sheet<'_> {
    fn bad(&self) -> bool {
        let most = match self.wrong {
            Wrong::MostLower => MOST - 1,
            Wrong::MostHigher => MOST + 1,
            _ => MOST,
        };
        let in_range = |number: u64| (1..=most).contains(&number);
        let numbers = |own: &Stream| {
            (in_range(own.priority) || (self.wrong == Wrong::ZeroPriority && own.priority == 0))
                && (in_range(own.c) || (self.wrong == Wrong::ZeroC && own.c == 0))
                && in_range(own.t)
                && in_range(own.d)
        };
        let unlike = |at: usize| {
            let own = self.streams[at].priority;
            let others = match self.wrong {
                Wrong::RepeatsNextToEachOther => {
                    &self.streams[(at + 1).min(self.streams.len())..(at + 2).min(self.streams.len())]
                }
                _ => &self.streams[at + 1..],
            };
            others.iter().all(|other| other.priority != own)
        };
        let streams = match self.wrong {
            Wrong::SixtyFive => STREAMS + 1,
            Wrong::SixtyThree => STREAMS - 1,
            _ => STREAMS,
        };
        let errors_most = if self.wrong == Wrong::SeventeenErrors { ERRORS + 1 } else { ERRORS };
        let time_most = if self.wrong == Wrong::LongInaccessibility { INACCESSIBILITY + 1 } else { INACCESSIBILITY };
        let errors = self.errors.n <= errors_most
            && (in_range(self.errors.period) || (self.wrong == Wrong::PeriodUnread && self.errors.n == 0))
            && self.errors.inaccessibility <= time_most;
        let errors = errors || (self.wrong == Wrong::EmptyIsFine && self.streams.is_empty());
        !(errors
            && self.streams.len() <= streams
            && self.streams.iter().all(numbers)
            && (0..self.streams.len()).all(unlike))
    }

    /// ⌈a / b⌉: as many whole b as there are, and one more for a rest.
    fn ceiling(&self, a: u64, b: u64) -> u64 {
        let whole = a.checked_div(b).unwrap_or(0);
        match self.wrong {
            Wrong::Floor => whole,
            Wrong::FloorPlusOne => whole + 1,
            _ => whole + u64::from(whole * b < a),
        }
    }

    fn goes_before(&self, one: &Stream, other: &Stream) -> bool {
        if self.wrong == Wrong::HigherFirst {
            one.priority > other.priority
        } else {
            one.priority < other.priority
        }
    }

    /// The right side of the equation.
    fn right(&self, own: &Stream, waiting: u64) -> u64 {
        let blocks = |other: &&Stream| match self.wrong {
            Wrong::NoBlocking => false,
            Wrong::OwnBlocking => !self.goes_before(other, own),
            Wrong::BlockedByAll => other.priority != own.priority,
            _ => self.goes_before(own, other),
        };
        let blocking = self.streams.iter().filter(blocks).map(|other| other.c).max().unwrap_or(0);
        let bit = u64::from(self.wrong != Wrong::WithoutTheBit);
        let higher = self.streams.iter().filter(|other| self.goes_before(other, own));
        let interference: u64 = higher.map(|other| self.ceiling(waiting + bit, other.t) * other.c).sum();
        let stretch = if self.wrong == Wrong::ErrorsWithoutC { waiting } else { waiting + own.c };
        let periods = if self.wrong == Wrong::ErrorsOnce { 1 } else { self.ceiling(stretch, self.errors.period) };
        let errors = if self.wrong == Wrong::OneError { self.errors.n.min(1) } else { self.errors.n };
        blocking + interference + errors * periods * self.errors.inaccessibility
    }

    /// Whether a stream that waits so long keeps its deadline.
    fn in_time(&self, own: &Stream, waiting: u64) -> bool {
        match self.wrong {
            Wrong::StrictDeadline => waiting + own.c < own.d,
            Wrong::WaitingInTime => waiting <= own.d,
            Wrong::DeadlineIsPeriod => waiting + own.c <= own.d.min(own.t),
            _ => waiting + own.c <= own.d,
        }
    }

    /// The least solution that keeps the deadline.
    fn waiting(&self, own: &Stream) -> Option<u64> {
        if own.d <= SEARCHED {
            let mut solutions = self.solutions(own);
            let least = solutions.next();
            let second = if self.wrong == Wrong::SecondLeast { solutions.next() } else { None };
            return second.or(least);
        }
        let mut waiting = 0;
        while self.in_time(own, waiting) {
            let next = self.right(own, waiting);
            if next == waiting {
                return Some(waiting);
            }
            waiting = next;
        }
        None
    }

    /// Every solution that keeps the deadline, by trying every number.
    fn solutions<'b>(&'b self, own: &'b Stream) -> impl Iterator<Item = u64> + 'b {
        (0..).take_while(|waiting| self.in_time(own, *waiting)).filter(|waiting| self.right(own, *waiting) == *waiting)
    }

    fn late(&self, times: &[Option<u64>]) -> Option<usize> {
        let mut late = (0..times.len()).filter(|at| times[*at].is_none());
        let at = match self.wrong {
            Wrong::LastLate => late.next_back(),
            Wrong::LatePriority => late.min_by_key(|at| self.streams[*at].priority),
            _ => late.next(),
        };
        at.map(|at| at + usize::from(self.wrong == Wrong::PositionFromOne))
    }

    fn written(&self, times: &[Option<u64>]) -> Verdict {
        let mut order: Vec<usize> = (0..times.len()).collect();
        if self.wrong == Wrong::ByPriority {
            order.sort_by_key(|at| self.streams[*at].priority);
        }
        let pair = |at: &usize| {
            let waiting = times[*at].unwrap_or(0);
            let response = waiting + self.streams[*at].c;
            if self.wrong == Wrong::ResponseFirst {
                (response, waiting)
            } else {
                (waiting, response)
            }
        };
        Verdict::Done(order.iter().map(pair).collect())
    }
}

/// Deadlines up to this are searched number by number.
const SEARCHED: u64 = 400;

#[cfg(test)]
mod tests {
    use super::*;
    use crate::random::Random;

    /// Both ways to the least solution agree.
    #[test]
    fn the_recurrence_finds_what_the_search_finds() {
        let mut found = [0; 2];
        for number in 0..3_000 {
            let mut random = Random::of(3, number);
            let count = random.from(1, 5);
            let streams: Vec<Stream> = (0..count)
                .map(|at| Stream {
                    priority: at + 1,
                    c: random.from(1, 6),
                    t: random.from(1, 40),
                    d: random.from(1, 300),
                })
                .collect();
            let errors =
                Errors { n: random.from(0, 2), period: random.from(1, 60), inaccessibility: random.from(0, 4) };
            let sheet = Sheet { streams: &streams, errors, wrong: Wrong::Nothing };
            for own in &streams {
                let searched = sheet.solutions(own).next();
                let longer = Stream { d: own.d + SEARCHED, c: own.c, ..*own };
                let all: Vec<Stream> =
                    streams.iter().map(|s| if s.priority == own.priority { longer } else { *s }).collect();
                let same = Sheet { streams: &all, errors, wrong: Wrong::Nothing };
                let by_rounds = same.waiting(&longer).filter(|waiting| waiting + own.c <= own.d);
                assert_eq!(searched, by_rounds, "{streams:?} {errors:?}");
                found[usize::from(searched.is_some())] += 1;
            }
        }
        assert!(found.iter().all(|count| *count > 1_000), "{found:?}");
    }
}
