//! The generators and checks at work, in small.

use second::compare_harness::check_demand;
use second::demand::{alone, check_alone};
use second::fault::Fault;
use second::history_counts::HistoryCounts;
use second::mutants::EQUAL;
use second::node::Node;
use second::random::Random;
use second::random_histories::{history, two_message_streams, Making};
use second::reply::Reply;
use second::settings::Asked;
use second::told::{answers, judged, leave_out, told};

#[test]
fn demand_3_holds_and_the_coverage_is_there() {
    let mut counts = HistoryCounts::default();
    for number in 0..1_500 {
        let making = Making { fault: Fault::None, sinful: true, noise: true, edges: false };
        let made = history(&mut Random::of(1, number), making);
        counts.count(&made);
        assert_eq!(judged(&made.lines, Fault::None), made.verdict, "history {number}");
        assert_eq!(check_demand(&made.told, &made.verdict, &mut counts.looked), [], "history {number}");
        if made.verdict.keeps() {
            for stream in two_message_streams(&made.told) {
                let rest = alone(&made.lines, &made.told, stream);
                let telling = told(&rest, &answers(&rest, Fault::None), Fault::None).expect("read back");
                assert_eq!(check_alone(&made.told, &telling, stream), None, "history {number}");
                counts.alone += 1;
            }
        }
    }
    assert_eq!(counts.missing(), Vec::<String>::new());
}

#[test]
fn the_same_seed_makes_the_same_history() {
    let making = Making { fault: Fault::None, sinful: true, noise: true, edges: true };
    for number in 0..50 {
        let one = history(&mut Random::of(9, number), making);
        let other = history(&mut Random::of(9, number), making);
        assert_eq!(one.lines, other.lines);
    }
}

#[test]
fn leaving_nothing_out_changes_nothing() {
    let making = Making { fault: Fault::None, sinful: false, noise: false, edges: false };
    for number in 0..50 {
        let made = history(&mut Random::of(2, number), making);
        assert_eq!(leave_out(&made.lines, &vec![true; made.lines.len()], Fault::None), made.lines);
    }
}

/// The one mutant that can't be caught: dc is from Rd to 8,000, so no dc goes with an Rd of 8,001.
#[test]
fn rd_above_its_most_in_2m_is_refused_by_the_limit_of_dc() {
    for confirm_delay in 0..=u16::MAX {
        let asked = Asked {
            stream: 5,
            role: 0,
            class: 2,
            data_reach: 8_001,
            confirm_delay,
            abort_reach: 1,
            deliver_delay: 16_000,
        };
        assert_eq!(Node::fresh().set_up(asked), Reply::BadSettings);
        assert_eq!(Node::with(EQUAL).set_up(asked), Reply::BadSettings);
    }
}
