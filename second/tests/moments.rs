//! The worked moments 1 to 12 of the rules paper.

use second::ident::{join, split, BusId, Code, Stream};
use second::node::{Node, HEAR_OUTPUT, NEXT_OUTPUT, TICK_OUTPUT};
use second::receiver::{Did, Happened};
use second::reply::Reply;
use second::settings::Asked;

const STREAM_5: Asked =
    Asked { stream: 5, role: 0, class: 2, data_reach: 2, confirm_delay: 3, abort_reach: 2, deliver_delay: 6 };
const DATA: u32 = 20;
const CONFIRMATION: u32 = 21;
const ABORT: u32 = 22;

fn receiver() -> Node {
    let mut node = Node::fresh();
    assert_eq!(node.set_up(STREAM_5), Reply::Done);
    node
}

fn sender() -> Node {
    let mut node = Node::fresh();
    assert_eq!(node.set_up(Asked { role: 1, ..STREAM_5 }), Reply::Done);
    node
}

/// Ticks until the count is `count`, and tells what happened at which tick.
fn tick_to(node: &mut Node, count: u64) -> Vec<(u64, Happened)> {
    let mut all = Vec::new();
    while node.now() < count {
        let ticked = node.tick(&mut [0; TICK_OUTPUT]);
        assert_eq!(ticked.reply, Reply::Done);
        all.extend(ticked.happened.into_iter().map(|(_, happened)| (node.now(), happened)));
    }
    all
}

fn hear(node: &mut Node, id: u32, payload: &[u8]) -> Reply {
    node.hear(id, payload.len() as u8, payload, &mut [0; HEAR_OUTPUT]).reply
}

/// What a frame did, the reply being 0.
fn did(node: &mut Node, id: u32, payload: &[u8]) -> &'static str {
    let heard = node.hear(id, payload.len() as u8, payload, &mut [0; HEAR_OUTPUT]);
    assert_eq!(heard.reply, Reply::Done);
    heard.did.map_or("-", Did::word)
}

fn next(node: &mut Node) -> (Reply, u32) {
    let next = node.next_frame(&mut [0; NEXT_OUTPUT]);
    (next.reply, next.id.0)
}

#[test]
fn moment_1() {
    assert_eq!(Node::fresh().set_up(STREAM_5), Reply::Done);
    assert_eq!(Node::fresh().set_up(Asked { deliver_delay: 5, ..STREAM_5 }), Reply::BadSettings);
}

#[test]
fn moment_2() {
    let mut node = receiver();
    tick_to(&mut node, 10);
    assert_eq!(hear(&mut node, DATA, &[1]), Reply::Done);
    assert_eq!(tick_to(&mut node, 13), []);
    assert_eq!(next(&mut node), (Reply::Nothing, 0));
    assert_eq!(tick_to(&mut node, 14), [(14, Happened::AbortPending)]);
    assert_eq!(next(&mut node), (Reply::Done, ABORT));
}

#[test]
fn moment_3() {
    let mut node = receiver();
    tick_to(&mut node, 10);
    hear(&mut node, DATA, &[1, 2]);
    tick_to(&mut node, 13);
    assert_eq!(hear(&mut node, CONFIRMATION, &[]), Reply::Done);
    assert_eq!(tick_to(&mut node, 16), []);
    assert_eq!(tick_to(&mut node, 17), [(17, Happened::Delivered(vec![1, 2]))]);
}

#[test]
fn moment_4() {
    let mut node = receiver();
    tick_to(&mut node, 65_534);
    assert_eq!(node.counter(), 65_534);
    hear(&mut node, DATA, &[1]);
    assert_eq!(tick_to(&mut node, 65_537), []);
    assert_eq!(tick_to(&mut node, 65_538), [(65_538, Happened::AbortPending)]);
    assert_eq!(node.counter(), 2);
}

#[test]
fn moment_5() {
    let mut node = receiver();
    assert_eq!(hear(&mut node, CONFIRMATION, &[]), Reply::Done);
    assert_eq!(next(&mut node), (Reply::Done, 22));
    assert_eq!(next(&mut node), (Reply::Nothing, 0));
}

#[test]
fn moment_6() {
    let mut node = receiver();
    tick_to(&mut node, 10);
    hear(&mut node, DATA, &[1]);
    tick_to(&mut node, 12);
    assert_eq!(hear(&mut node, DATA, &[1]), Reply::Done);
    tick_to(&mut node, 13);
    hear(&mut node, CONFIRMATION, &[]);
    assert_eq!(tick_to(&mut node, 18), []);
    assert_eq!(tick_to(&mut node, 19), [(19, Happened::Delivered(vec![1]))]);
}

#[test]
fn moment_7() {
    let mut node = sender();
    tick_to(&mut node, 10);
    assert_eq!(node.request(5, &[1]), Reply::Done);
    assert_eq!(next(&mut node), (Reply::Done, DATA));
    assert_eq!(next(&mut node), (Reply::Done, CONFIRMATION));
    tick_to(&mut node, 18);
    assert_eq!(node.request(5, &[1]), Reply::Busy);
    tick_to(&mut node, 19);
    assert_eq!(node.request(5, &[1]), Reply::Done);
}

#[test]
fn moment_8() {
    assert_eq!(split(BusId(536_870_911)), Ok((Stream(134_217_727), Code::Plain)));
    assert_eq!(split(BusId(536_870_912)), Err(Reply::BadFrame));
    assert_eq!(join(Stream(134_217_727), 3), Ok(BusId(536_870_911)));
}

#[test]
fn moment_9() {
    for dlc in [8, 9] {
        assert_eq!(receiver().hear(DATA, dlc, &[0; 8], &mut [0; 16]).reply, Reply::Done);
    }
}

// Moment 10 is in the tests of the bench rules.

#[test]
fn moment_11() {
    let mut node = Node::fresh();
    for stream in 0..32 {
        assert_eq!(node.set_up(Asked { stream, ..STREAM_5 }), Reply::Done);
    }
    assert_eq!(node.set_up(Asked { stream: 32, ..STREAM_5 }), Reply::TableFull);
    assert_eq!(node.set_up(Asked { stream: 31, ..STREAM_5 }), Reply::Taken);
    assert_eq!(node.set_up(Asked { stream: 31, role: 2, ..STREAM_5 }), Reply::BadSettings);
}

#[test]
fn moment_12() {
    let mut node = receiver();
    let before = node.clone();
    assert_eq!(node.tick(&mut [0; 511]).reply, Reply::ShortOutput);
    assert_eq!(node, before);
    assert_eq!(node.tick(&mut [0; 512]).reply, Reply::Done);
    assert_eq!(node.now(), 1);
}

#[test]
fn a_duplicate_leaves_a_confirmed_message_confirmed() {
    let mut node = receiver();
    hear(&mut node, DATA, &[1]);
    hear(&mut node, CONFIRMATION, &[]);
    tick_to(&mut node, 2);
    hear(&mut node, DATA, &[1]);
    assert_eq!(tick_to(&mut node, 9), [(9, Happened::Delivered(vec![1]))]);
}

#[test]
fn other_bytes_clash_and_change_nothing() {
    let mut node = receiver();
    hear(&mut node, DATA, &[1]);
    let before = node.clone();
    assert_eq!(hear(&mut node, DATA, &[2]), Reply::Clash);
    assert_eq!(hear(&mut node, DATA, &[1, 0]), Reply::Clash);
    assert_eq!(node, before);
}

#[test]
fn deliveries_of_one_tick_ascend_by_stream() {
    let mut node = Node::fresh();
    for stream in [9, 2, 5] {
        let imd =
            Asked { class: 1, data_reach: 1, confirm_delay: 0, abort_reach: 0, deliver_delay: 1, role: 0, stream };
        assert_eq!(node.set_up(imd), Reply::Done);
        assert_eq!(hear(&mut node, stream * 4, &[stream as u8]), Reply::Done);
    }
    let mut output = [0xee; 512];
    assert_eq!(node.tick(&mut output).written, 0);
    let ticked = node.tick(&mut output);
    assert_eq!(ticked.written, 27);
    assert_eq!([output[4], output[13], output[22]], [2, 5, 9]);
    assert!(output[27..].iter().all(|byte| *byte == 0xee));
}

#[test]
fn what_frames_did() {
    let mut node = receiver();
    for (id, payload, due) in [
        (ABORT, &[][..], "nothing-to-drop"),
        (CONFIRMATION, &[], "abort-pending"),
        (CONFIRMATION, &[], "abort-pending"),
        (DATA, &[1], "new"),
        (DATA, &[1], "duplicate"),
        (CONFIRMATION, &[], "confirmed"),
        (DATA, &[1], "duplicate"),
        (CONFIRMATION, &[], "confirmed-again"),
        (ABORT, &[], "dropped"),
        (ABORT, &[], "nothing-to-drop"),
        (DATA, &[2], "new"),
        (ABORT, &[], "dropped"),
    ] {
        assert_eq!(did(&mut node, id, payload), due);
    }
    assert_eq!(next(&mut node), (Reply::Done, ABORT));
    let refused = node.hear(DATA + 4, 0, &[], &mut [0; HEAR_OUTPUT]);
    assert_eq!((refused.reply, refused.did), (Reply::NotMine, None));
}

#[test]
fn what_ticks_did() {
    let mut node = Node::fresh();
    for (stream, role, class) in [(1, 0, 2), (2, 0, 2), (3, 0, 1), (4, 1, 1), (5, 0, 1)] {
        let two = class == 2;
        let (confirm_delay, abort_reach, deliver_delay) = if two { (3, 2, 6) } else { (0, 0, 3) };
        let data_reach = if role == 1 { 1 } else { 2 };
        let asked = Asked { stream, role, class, data_reach, confirm_delay, abort_reach, deliver_delay };
        assert_eq!(node.set_up(asked), Reply::Done);
    }
    for stream in [1, 2, 3, 5] {
        assert_eq!(did(&mut node, stream * 4, &[1]), "new");
    }
    let told = |node: &mut Node| {
        let ticked = node.tick(&mut [0; TICK_OUTPUT]);
        (ticked.reply, ticked.dropped, ticked.delivered)
    };
    assert_eq!(did(&mut node, 9, &[]), "confirmed");
    assert_eq!(node.request(4, &[]), Reply::Done);
    for _ in 0..3 {
        assert_eq!(told(&mut node), (Reply::Done, 0, 0));
    }
    assert_eq!(node.tick(&mut [0; TICK_OUTPUT - 1]).dropped, 0);
    // Stream 1 is unconfirmed; 3 and 5 are IMD; 2 is confirmed, and waits for its dd.
    assert_eq!(told(&mut node), (Reply::Done, 1, 2));
    // The end of the sender's hold is neither.
    assert_eq!(told(&mut node), (Reply::Done, 0, 0));
    assert_eq!(told(&mut node), (Reply::Done, 0, 0));
    assert_eq!(told(&mut node), (Reply::Done, 0, 1));
}
