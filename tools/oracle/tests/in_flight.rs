//! The sender's in-flight queue: the Rust's own marks, and what it makes of a TSN that is in flight already.
mod common;
use calls::Call;
use common::*;

fn sent(tsn: u32, size: u16, message: u64) -> Call {
    Call::IqPush { fields: fields(0, tsn, 0), size, message }
}

#[test]
fn marks_release_once() {
    answered(&[
        (sent(11, 100, 7), "done"),
        (sent(10, 20, 8), "done"),
        (Call::IqAcked { tsn: 11 }, "number 100"),
        (Call::IqAcked { tsn: 11 }, "number 0"),
        (Call::IqRetransmit {}, "done"),
        (Call::IqState {}, "held 2 20 | - 10 0 0 53 20 R 8 | - 11 0 0 53 0 A 7"),
        (Call::IqAbandon { message: 7 }, "number 0"),
        (Call::IqAbandon { message: 8 }, "number 20"),
        (Call::IqGet { tsn: 11 }, "sent - 11 0 0 53 0 AX 7"),
        (Call::IqPop { tsn: 11 }, "none"),
        (Call::IqPop { tsn: 10 }, "sent - 10 0 0 53 0 X 8"),
        (Call::IqPopUpTo { tsn: 11 }, "done"),
        (Call::IqIsEmpty {}, "yes"),
    ]);
}

#[test]
fn a_tsn_in_flight_already_is_taken_and_miscounted() {
    answered(&[
        (sent(1, 1, 0), "done"),
        (sent(1, 1, 0), "done"),
        (Call::IqNumBytes {}, "number 2"),
        (Call::IqLen {}, "number 1"),
        (Call::IqPop { tsn: 1 }, "sent - 1 0 0 53 1 - 0"),
        (Call::IqNumBytes {}, "number 1"),
        (Call::IqLen {}, "number 0"),
    ]);
}

#[test]
fn a_thousand_and_twenty_fifth_is_taken() {
    let mut list: Vec<(Call, &str)> = (0..1_025).map(|tsn| (sent(tsn, 0, 0), "done")).collect();
    list.push((Call::IqLen {}, "number 1025"));
    answered(&list);
}
