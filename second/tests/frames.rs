//! The frame test: every DLC with payloads of many lengths, and what a receiver holds of a frame with DLC 9 to 15.

use second::fault::Fault;
use second::limits::{Limit, Off};
use second::node::{Node, HEAR_OUTPUT, TICK_OUTPUT};
use second::receiver::Happened;
use second::reply::Reply;
use second::settings::Asked;

const DATA: u32 = 20;
const CONFIRMATION: u32 = 21;
const ABORT: u32 = 22;
const PLAIN: u32 = 27;

/// Receives stream 5 by two messages, and stream 6 plain.
fn receiver(fault: Fault) -> Node {
    let mut node = Node::with(fault);
    let five =
        Asked { stream: 5, role: 0, class: 2, data_reach: 2, confirm_delay: 3, abort_reach: 2, deliver_delay: 6 };
    let six = Asked { stream: 6, role: 0, class: 0, data_reach: 0, confirm_delay: 0, abort_reach: 0, deliver_delay: 0 };
    assert_eq!([node.set_up(five), node.set_up(six)], [Reply::Done; 2]);
    node
}

fn hear(node: &mut Node, id: u32, dlc: u8, payload: &[u8]) -> Reply {
    node.hear(id, dlc, payload, &mut [0; HEAR_OUTPUT]).reply
}

#[test]
fn every_dlc_with_every_length() {
    for dlc in 0..=u8::MAX {
        for length in 0..=20 {
            let payload = vec![7; length];
            let fits = match dlc {
                0..=8 => length == usize::from(dlc),
                9..=15 => length == 8,
                _ => false,
            };
            for id in [DATA, CONFIRMATION, ABORT, PLAIN] {
                let due = match dlc {
                    16.. => Reply::DlcTooBig,
                    _ if !fits => Reply::PayloadLength,
                    1.. if id == CONFIRMATION || id == ABORT => Reply::UnwantedPayload,
                    _ => Reply::Done,
                };
                let heard = hear(&mut receiver(Fault::None), id, dlc, &payload);
                assert_eq!(heard, due, "identifier {id}, DLC {dlc}, {length} bytes");
                let heard = hear(&mut receiver(Fault::None), id + 536_870_912, dlc, &payload);
                assert_eq!(heard, Reply::IdentifierTooBig, "identifier {id}, too big, DLC {dlc}, {length} bytes");
            }
        }
    }
}

#[test]
fn dlc_8_to_15_with_the_same_bytes_are_duplicates() {
    let (bytes, others) = ([1, 2, 3, 4, 5, 6, 7, 8], [1, 2, 3, 4, 5, 6, 7, 9]);
    for first in 8..=15 {
        for second in 8..=15 {
            let mut node = receiver(Fault::None);
            assert_eq!(hear(&mut node, DATA, first, &bytes), Reply::Done);
            assert_eq!(hear(&mut node, DATA, second, &bytes), Reply::Done, "DLC {first}, then {second}");
            assert_eq!(hear(&mut node, DATA, second, &others), Reply::Clash, "DLC {first}, then {second}");
            assert_eq!(hear(&mut node, CONFIRMATION, 0, &[]), Reply::Done);
            let happened: Vec<Happened> =
                (0..7).flat_map(|_| node.tick(&mut [0; TICK_OUTPUT]).happened).map(|(_, happened)| happened).collect();
            assert_eq!(happened, [Happened::Delivered(bytes.to_vec())], "DLC {first}, then {second}");
        }
    }
}

#[test]
fn a_plain_frame_of_dlc_15_is_delivered_with_eight_bytes() {
    let mut output = [0xee; 20];
    let heard = receiver(Fault::None).hear(PLAIN, 15, &[1, 2, 3, 4, 5, 6, 7, 8], &mut output);
    assert_eq!((heard.reply, heard.written), (Reply::Done, 16));
    let record = [14, 0, 1, 0, 6, 0, 0, 0, 1, 2, 3, 4, 5, 6, 7, 8, 0xee, 0xee, 0xee, 0xee];
    assert_eq!(output, record);
}

/// A frame with several faults is answered by the first of them, after a short output and before a stream that is not
/// the node's.
#[test]
fn the_order_of_the_faults() {
    const TOO_BIG: u32 = 536_870_912 + ABORT;
    const OTHER: u32 = ABORT + 40;
    for (fault, id, dlc, length, due) in [
        (Fault::None, TOO_BIG, 16, 1, Reply::IdentifierTooBig),
        (Fault::DlcFirst, TOO_BIG, 16, 1, Reply::DlcTooBig),
        (Fault::None, OTHER, 16, 1, Reply::DlcTooBig),
        (Fault::None, OTHER, 15, 1, Reply::PayloadLength),
        (Fault::UnwantedFirst, OTHER, 15, 1, Reply::UnwantedPayload),
        (Fault::None, OTHER, 15, 8, Reply::UnwantedPayload),
        (Fault::None, OTHER, 0, 0, Reply::NotMine),
        (Fault::MineFirst, OTHER, 15, 8, Reply::NotMine),
        (Fault::Swapped(Reply::DlcTooBig, Reply::UnwantedPayload), OTHER, 15, 8, Reply::DlcTooBig),
        (Fault::Swapped(Reply::DlcTooBig, Reply::UnwantedPayload), OTHER, 16, 8, Reply::UnwantedPayload),
        (Fault::OneFaultOfFrames, OTHER, 15, 8, Reply::BadFrame),
    ] {
        let payload = vec![0; length];
        assert_eq!(hear(&mut receiver(fault), id, dlc, &payload), due, "identifier {id}, DLC {dlc}, {length} bytes");
        let short = receiver(fault).hear(id, dlc, &payload, &mut [0; HEAR_OUTPUT - 1]);
        assert_eq!(short.reply, Reply::ShortOutput);
    }
}

/// What a mutant answers where the faultless node answers otherwise.
#[test]
fn what_the_mutants_of_the_frame_test_do() {
    let answers = |fault, dlc, length| hear(&mut receiver(fault), DATA, dlc, &vec![0; length]);
    assert_eq!(answers(Fault::Limit(Limit::DlcMost, Off::Higher), 16, 8), Reply::Done);
    assert_eq!(answers(Fault::Limit(Limit::DlcMost, Off::Lower), 15, 8), Reply::DlcTooBig);
    assert_eq!(answers(Fault::Limit(Limit::DlcBytes, Off::Higher), 9, 8), Reply::PayloadLength);
    assert_eq!(answers(Fault::Limit(Limit::DlcBytes, Off::Lower), 8, 8), Reply::PayloadLength);
    assert_eq!(answers(Fault::DlcAboveEight, 9, 8), Reply::PayloadLength);
    assert_eq!(answers(Fault::NineBytes, 9, 9), Reply::Done);
    let mut node = receiver(Fault::HeldLengthIsDlc);
    assert_eq!(hear(&mut node, DATA, 15, &[0; 8]), Reply::Done);
    assert_eq!(hear(&mut node, DATA, 9, &[0; 8]), Reply::Clash);
}
