//! Document 02's FORWARD TSN: the Rust's own chunk, and its queues' own skips in the document's order.
mod common;
use calls::{B, Call, E, U};
use common::*;

const CHUNK: &str = "c0 00 00 10 00 00 00 0a 00 01 00 05 00 02 ff ff";

fn applied(part: &str, cumulative: u32, point: u32) -> Call {
    Call::RqApplyForward { part: if part.is_empty() { vec![] } else { hex(part) }, cumulative, point }
}

#[test]
fn read_and_written() {
    let written = |room, streams, ssns| Call::FwdMarshal { room, fill: 0xee, point: 10, streams, ssns };
    answered(&[
        (Call::FwdUnmarshal { raw: hex(CHUNK) }, "forward 10 2"),
        (Call::FwdStreams { raw: hex(CHUNK) }, "part 000100050002ffff"),
        (Call::FwdStreams { raw: hex("c0 ff 00 08 00 00 00 0a") }, "part -"),
        (written(17, vec![1, 2], vec![5, 65_535]), "wrote 16 c00000100000000a000100050002ffffee"),
        (written(15, vec![1, 2], vec![5, 65_535]), "no such answer"),
        (written(16, vec![1, 2], vec![5]), "no such call"),
        (Call::FwdStreamAt { part: vec![0, 1, 0, 5], index: 0 }, "no such call"),
    ]);
}

#[test]
fn refusals_of_the_reader() {
    let chunk = |typ, length, size| {
        let mut raw = vec![typ, 0, 0, length];
        raw.resize(size, 0);
        raw
    };
    answered(&[
        (Call::FwdUnmarshal { raw: vec![192, 0, 0] }, "refused 1"),
        (Call::FwdUnmarshal { raw: chunk(192, 9, 8) }, "refused 2"),
        (Call::FwdUnmarshal { raw: chunk(3, 8, 8) }, "refused 3"),
        (Call::FwdUnmarshal { raw: chunk(192, 7, 8) }, "refused 12"),
        (Call::FwdStreams { raw: chunk(192, 4, 8) }, "refused 12"),
        (Call::FwdUnmarshal { raw: chunk(192, 10, 12) }, "refused 12"),
        (Call::FwdStreams { raw: chunk(192, 15, 16) }, "refused 12"),
        (Call::FwdUnmarshal { raw: chunk(192, 12, 12) }, "forward 0 1"),
    ]);
}

#[test]
fn applied_to_a_stream() {
    let one = [(push(B, 1, 0, 1), "no"), (push(U | B, 2, 0, 1), "no"), (push(B | E, 4, 2, 1), "yes")];
    let held = "queue 0 0 65536 3 | u UB 2 0 0 53 61 | o B 1 0 0 53 61 | o BE 4 0 2 53 61";
    for (call, after) in [
        (applied("00 00 00 01", 3, 3), held),
        (applied("00 00 00 01", 3, 2), held),
        (applied("00 00 00 01", 0, 3), "queue 0 2 65536 1 | o BE 4 0 2 53 61"),
        (applied("00 01 00 01", 0, 1), held),
        (applied("00 01 00 01 00 00 00", 0, 2), "queue 0 0 65536 2 | o B 1 0 0 53 61 | o BE 4 0 2 53 61"),
        (applied("", 0, 2), "queue 0 0 65536 2 | o B 1 0 0 53 61 | o BE 4 0 2 53 61"),
    ] {
        let list = [&one[..], &[(call, "done"), (Call::RqState {}, after)]].concat();
        answered(&list);
    }
}

#[test]
fn applied_to_the_tsn_queue() {
    answered(&[
        (queued(5, 0), "yes"),
        (queued(7, 0), "yes"),
        (Call::PqApplyForward { cumulative: 6, point: 6 }, "done"),
        (Call::PqLen {}, "number 2"),
        (Call::PqApplyForward { cumulative: 0, point: 6 }, "done"),
        (Call::PqState {}, "held 1 0 | BE 7 0 0 53 0"),
    ]);
}
