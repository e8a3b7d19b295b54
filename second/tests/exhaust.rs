//! The exhaustive search finds the histories that it is there to find.

use std::time::{Duration, Instant};

use second::fault::Fault;
use second::limits::{Limit, Off};
use second::search::{explore, Stop, STREAM};
use second::settings::Asked;

const LEAST: Asked =
    Asked { stream: STREAM, role: 0, class: 2, data_reach: 1, confirm_delay: 1, abort_reach: 1, deliver_delay: 3 };

fn finds(asked: Asked, fault: Fault) -> bool {
    let (_, result) = explore(asked, fault, Instant::now() + Duration::from_secs(300));
    matches!(result, Err(Stop::Found(_)))
}

#[test]
fn faults_of_one_message_are_found() {
    for fault in [
        Fault::AgeAlone,
        Fault::ConfirmNotStrict,
        Fault::DeliverNotStrict,
        Fault::LoneConfirmation,
        Fault::AbortSparesConfirmed,
        Fault::DropsSilently,
        Fault::NeverDelivers,
        Fault::RefusesFrames,
        Fault::FirstFrameOnly,
    ] {
        assert!(finds(LEAST, fault), "{}", fault.name());
    }
}

#[test]
fn dd_one_lower_is_found() {
    let lower = Fault::Limit(Limit::TwoDdOver, Off::Lower);
    assert!(finds(Asked { deliver_delay: 2, ..LEAST }, lower));
    assert!(finds(Asked { confirm_delay: 2, abort_reach: 2, deliver_delay: 4, ..LEAST }, lower));
}
