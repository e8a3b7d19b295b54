//! Every history of one message that keeps the rules, for one sender and two receivers, from the least settings up,
//! with demand 3 checked in each; and the history that shows why dd can't be one lower.

use std::sync::Mutex;
use std::thread;
use std::time::{Duration, Instant};

use crate::compare_harness::{print_told, simpler};
use crate::demand::{check_messages, Looked};
use crate::fault::Fault;
use crate::history::{Event, Line};
use crate::limits::{Limit, Off};
use crate::search::{explore, set_ups, Ends, Extent, Stop, ABORTS_MOST, STREAM};
use crate::settings::Asked;
use crate::shrink::shrink;
use crate::told::{answers, judged, leave_out, told};

/// The settings of 2M by ascending Rd + dc + Ra, from the least on, each with the least dd and with one more. A larger
/// dd only adds ticks at which nothing can happen but deaths.
fn settings_up() -> impl Iterator<Item = Asked> {
    (3..40).flat_map(|sum: u16| {
        let mut all = Vec::new();
        for data_reach in 1..sum {
            for confirm_delay in data_reach..sum.saturating_sub(data_reach) {
                let abort_reach = sum - data_reach - confirm_delay;
                for more in 1..=2 {
                    let deliver_delay = confirm_delay + abort_reach + more;
                    let asked = Asked {
                        stream: STREAM,
                        role: 0,
                        class: 2,
                        data_reach,
                        confirm_delay,
                        abort_reach,
                        deliver_delay,
                    };
                    all.push(asked);
                }
            }
        }
        all
    })
}

fn print_history(asked: Asked, fault: Fault, events: &[Event]) {
    let mut lines = set_ups(asked);
    let first = lines.len();
    lines.extend(events.iter().cloned().map(Line::Event));
    let fails = |lines: &[Line]| {
        let telling = told(lines, &answers(lines, fault), fault);
        let keeps = judged(lines, fault).keeps();
        keeps && telling.is_some_and(|it| !check_messages(&it, |_| true, &mut Looked::default()).is_empty())
    };
    // Events are left out, set ups are not.
    let without = |lines: &[Line], kept: &[bool]| {
        let kept: Vec<bool> = kept.iter().enumerate().map(|(at, kept)| *kept || at < first).collect();
        leave_out(lines, &kept, fault)
    };
    let short = shrink(lines, Duration::from_secs(10), without, simpler, fails);
    print_told(&short, &answers(&short, fault));
}

/// A search that ended, with the seconds that it took.
struct Ended {
    asked: Asked,
    extent: Extent,
    result: Result<Ends, Stop>,
    seconds: f64,
}

/// Searches from the least settings up until the deadline, as many at once as there are processors.
fn search_up(deadline: Instant) -> Vec<Ended> {
    let next = Mutex::new(settings_up().enumerate());
    let ended: Mutex<Vec<(usize, Ended)>> = Mutex::new(Vec::new());
    let take = || next.lock().ok().and_then(|mut next| next.next());
    let threads = thread::available_parallelism().map_or(1, usize::from).min(4);
    thread::scope(|scope| {
        for _ in 0..threads {
            scope.spawn(|| {
                while let Some((number, asked)) = take() {
                    let start = Instant::now();
                    // The least settings are always finished.
                    let limit = if number == 0 { start + Duration::from_secs(3_600) } else { deadline };
                    if start > limit {
                        return;
                    }
                    let (extent, result) = explore(asked, Fault::None, limit);
                    let it = Ended { asked, extent, result, seconds: start.elapsed().as_secs_f64() };
                    if let Ok(mut ended) = ended.lock() {
                        ended.push((number, it));
                    }
                }
            });
        }
    });
    let mut ended = ended.into_inner().unwrap_or_default();
    ended.sort_by_key(|(number, _)| *number);
    ended.into_iter().map(|(_, it)| it).collect()
}

/// Explores from the least settings up for about so many seconds, then tries dd one lower than allowed.
/// Says whether demand 3 held everywhere, and failed there.
pub fn run(seconds: u64) -> bool {
    println!(
        "exhaust: 1 sender, 2 receivers, 1 message; at most {ABORTS_MOST} aborts of a module in a tick are followed"
    );
    let mut held = false;
    for ended in search_up(Instant::now() + Duration::from_secs(seconds)) {
        let Asked { data_reach, confirm_delay, abort_reach, deliver_delay, .. } = ended.asked;
        let name = format!("Rd {data_reach} dc {confirm_delay} Ra {abort_reach} dd {deliver_delay}");
        let Extent { states, transitions, end_states: [all, none, nobody], cut } = ended.extent;
        match ended.result {
            Ok(ends) => {
                held = true;
                let [all_ways, none_ways, nobody_ways] = ends.ways;
                println!(
                    "exhaust: {name}: {states} states, {transitions} transitions, {:.2e} histories; \
                     {cut} sendings not followed; {:.1} s",
                    all_ways + none_ways + nobody_ways,
                    ended.seconds
                );
                println!(
                    "    end states (histories): all {all} ({all_ways:.2e}), none {none} ({none_ways:.2e}), \
                     no live receiver {nobody} ({nobody_ways:.2e})"
                );
            }
            Err(Stop::OutOfTime) => println!("exhaust: {name}: time was up after {states} states"),
            Err(Stop::Found(events)) => {
                println!("exhaust: {name}: demand 3 fails in a history that keeps the rules:");
                print_history(ended.asked, Fault::None, &events);
                return false;
            }
        }
    }
    held && lower_fails()
}

/// With dd one lower than allowed a history has to be found.
fn lower_fails() -> bool {
    let fault = Fault::Limit(Limit::TwoDdOver, Off::Lower);
    let asked =
        Asked { stream: STREAM, role: 0, class: 2, data_reach: 1, confirm_delay: 1, abort_reach: 1, deliver_delay: 2 };
    let (extent, result) = explore(asked, fault, Instant::now() + Duration::from_secs(600));
    match result {
        Err(Stop::Found(events)) => {
            println!(
                "exhaust: with dd one lower than allowed (Rd 1 dc 1 Ra 1 dd 2) demand 3 fails, as it must, after {} states:",
                extent.states
            );
            print_history(asked, fault, &events);
            true
        }
        _ => {
            println!("exhaust: dd one lower than allowed was not found out");
            false
        }
    }
}
