//! Document 01's bench sheet, as far as the Rust has the calls for it.
mod common;
use calls::{B, Call, Data, E, Fields, U};
use common::*;

#[test]
fn p1_order_at_the_wrap_but_no_distance() {
    answered(&[
        (Call::Sna32 { a: 5, b: 3 }, "no no yes yes"),
        (Call::Sna32 { a: 4294967295, b: 0 }, "yes yes no no"),
        (Call::Sna16 { a: 65535, b: 0 }, "yes yes no no"),
        (Call::TsnDistance { a: 5, b: 3 }, "no such call"),
        (Call::SsnDistance { a: 5, b: 3 }, "no such call"),
    ]);
}

#[test]
fn p2_p3_data() {
    let raw = hex("00 03 00 13 00 00 00 0a 00 02 00 05 00 00 00 33 61 62 63");
    let seven = hex("00 03 00 11 00 00 00 0a 00 02 00 05 00 00 00 07 61");
    let abc = |room, identifier| Call::DataMarshal {
        room,
        fill: 0xee,
        fields: Fields { flags: B | E, tsn: 10, stream: 2, ssn: 5, identifier },
        data: Data { size: 3, seed: 0x61 },
    };
    answered(&[
        (abc(19, 51), "wrote 19 000300130000000a0002000500000033616263"),
        (abc(21, 7), "wrote 19 000300130000000a000200050000003a616263eeee"),
        (abc(18, 51), "no such answer"),
        (Call::Header { raw: raw.clone() }, "header 0 3 19"),
        (Call::DataUnmarshal { raw: raw.clone() }, "data BE 10 2 5 51"),
        (Call::DataUserData { raw }, "part 616263"),
        (Call::DataUnmarshal { raw: seven }, "data BE 10 2 5 58"),
    ]);
}

#[test]
fn p4_and_the_refusals_of_the_readers() {
    let chunk = |typ, length, size| {
        let mut raw = vec![typ, 0, 0, length];
        raw.resize(size, 0);
        raw
    };
    answered(&[
        (Call::DataUnmarshal { raw: chunk(0, 15, 15) }, "refused 4"),
        (Call::DataUserData { raw: chunk(0, 15, 15) }, "refused 4"),
        (Call::DataUnmarshal { raw: chunk(0, 17, 17) }, "data - 0 0 0 58"),
        (Call::Header { raw: vec![0, 0, 0] }, "refused 1"),
        (Call::Header { raw: chunk(0, 3, 4) }, "refused 2"),
        (Call::Header { raw: chunk(0, 5, 4) }, "refused 2"),
        (Call::DataUnmarshal { raw: chunk(3, 16, 16) }, "refused 3"),
        (Call::SackUnmarshal { raw: chunk(0, 16, 16) }, "refused 3"),
        (Call::SackUnmarshal { raw: chunk(3, 15, 15) }, "refused 5"),
        (Call::SackDuplicates { raw: hex("03 00 00 10 00 00 00 00 00 00 00 00 00 00 00 01") }, "refused 5"),
    ]);
}

#[test]
fn p5_sack() {
    let raw = hex("03 00 00 1c 00 00 00 64 00 00 05 dc 00 02 00 01 00 02 00 03 00 05 00 05 00 00 00 62");
    let sack = |ends| Call::SackMarshal { room: 28, fill: 0, cumulative: 100, window: 1500, starts: vec![2, 5], ends, duplicates: vec![98] };
    answered(&[
        (sack(vec![3, 5]), "wrote 28 0300001c00000064000005dc00020001000200030005000500000062"),
        (sack(vec![3]), "no such call"),
        (Call::SackUnmarshal { raw: raw.clone() }, "sack 100 1500 2 1"),
        (Call::SackBlocks { raw: raw.clone() }, "part 0002000300050005"),
        (Call::SackDuplicates { raw }, "part 00000062"),
        (Call::SackBlockAt { part: vec![0, 2, 0, 3], index: 0 }, "no such call"),
    ]);
}

#[test]
fn p6_p7_p8_gap_reports() {
    let report = |cumulative| Call::PqGapAckBlocks { cumulative, starts: 3, ends: 2, fill: 9 };
    answered(&[
        (queued(105, 100), "yes"),
        (queued(102, 100), "yes"),
        (queued(103, 100), "yes"),
        (report(100), "blocks 2 starts 2 5 9 ends 3 5"),
        (Call::PqGapAckBlocks { cumulative: 100, starts: 2, ends: 1, fill: 9 }, "no such answer"),
        (Call::PqNew {}, "done"),
        (queued(2, 4294967294), "yes"),
        (queued(0, 4294967294), "yes"),
        (queued(4294967295, 4294967294), "yes"),
        (report(4294967294), "blocks 2 starts 1 4 9 ends 2 4"),
        (Call::PqNew {}, "done"),
        (queued(65534, 0), "yes"),
        (queued(65535, 0), "yes"),
        (queued(65536, 0), "yes"),
        (report(0), "blocks 1 starts 65534 9 9 ends 65535 9"),
    ]);
}

#[test]
fn the_tsn_queue_as_document_01_says() {
    let zeros = format!("log 2 102 99{}", " 0".repeat(62));
    let chunk = |tsn, size| Call::PqPush { fields: Fields { flags: B | E, tsn, stream: 7, ssn: 1, identifier: 51 }, size, cumulative: 100 };
    answered(&[
        (Call::PqLastTsn {}, "none"),
        (chunk(105, 500), "yes"),
        (chunk(102, 65535), "yes"),
        (chunk(102, 1), "no"),
        (chunk(99, 1), "no"),
        (Call::PqCanPush { tsn: 105, cumulative: 100 }, "no"),
        (Call::PqCanPush { tsn: 106, cumulative: 100 }, "yes"),
        (Call::PqState {}, "held 2 66035 | BE 102 7 1 51 65535 | BE 105 7 1 51 500"),
        (Call::PqPopDuplicates {}, &zeros),
        (Call::PqContainsStream { stream: 7 }, "yes"),
        (Call::PqPop { tsn: 105 }, "none"),
        (Call::PqPop { tsn: 102 }, "chunk BE 102 7 1 51 65535"),
        (Call::PqGet { tsn: 105 }, "chunk BE 105 7 1 51 500"),
        (Call::PqLastTsn {}, "tsn 105"),
        (Call::PqLen {}, "number 1"),
        (Call::PqPopUpTo { tsn: 105 }, "done"),
        (Call::PqNumBytes {}, "number 0"),
        (Call::PqIsEmpty {}, "yes"),
        (Call::PqForge { field: 0, index: 0, value: 9 }, "no such call"),
        (Call::PqWhole {}, "no such call"),
    ]);
}

#[test]
fn p9_p10_sizes() {
    answered(&[
        (Call::RqNew { stream: 0, maximum: 10 }, "done"),
        (push(U | B, 1, 0, 6), "no"),
        (push(U | E, 2, 0, 5), "refused 6"),
        (push(U | E, 2, 0, 4), "yes"),
        (Call::RqState {}, "queue 0 0 10 10 | f UB 1 0 0 53 616263646566 | f UE 2 0 0 53 61626364"),
        (Call::RqNew { stream: 0, maximum: 10 }, "done"),
        (Call::RqForwardOrdered { ssn: 4 }, "done"),
        (push(B | E, 1, 4, 11), "refused 6"),
        (push(B | E, 1, 4, 10), "no"),
        (Call::RqState {}, "queue 0 5 10 0"),
    ]);
}

#[test]
fn p11_one_message_of_three_fragments() {
    answered(&[
        (push(B, 1, 0, 1), "no"),
        (push(E, 3, 0, 1), "no"),
        (push(B | E, 2, 0, 2), "yes"),
        (push(U | E, 9, 3, 0), "no"),
        (Call::RqState {}, "queue 0 0 65536 4 | u UE 9 0 3 53 - | o B 1 0 0 53 61 | o BE 2 0 0 53 6162 | o E 3 0 0 53 61"),
        (read(3), "no such answer"),
        (Call::MLen {}, "nothing in hand"),
        (Call::RqNumBytes {}, "number 4"),
        (read(6), "message 0 53 4 616162610000"),
        (read(1), "none 00"),
        (Call::RqForwardUnordered { tsn: 9 }, "done"),
        (Call::RqState {}, "queue 0 1 65536 0"),
    ]);
}

#[test]
fn p12_pieces_and_a_whole_read() {
    let piece = |most| Call::MNext { most };
    answered(&[
        (piece(4), "nothing in hand"),
        (push(B | E, 1, 0, 10), "yes"),
        (push(B | E, 2, 1, 0), "yes"),
        (push(B | E, 3, 2, 6), "yes"),
        (read(10), "message 0 53 10 6162636465666768696a"),
        (piece(4), "piece 0 4 61626364"),
        (piece(0), "piece 4 0 -"),
        (piece(4), "piece 4 4 65666768"),
        (piece(4), "piece 8 2 696a"),
        (piece(4), "none"),
        (read(0), "message 1 53 0 -"),
        (Call::MIsEmpty {}, "yes"),
        (piece(0), "piece 0 0 -"),
        (piece(0), "none"),
        (read(6), "message 2 53 6 616263646566"),
        (Call::MRead { room: 4, fill: 0 }, "refused 7 61626364"),
        (Call::MRead { room: 7, fill: 9 }, "number 6 61626364656609"),
        (Call::MForge { field: 0, value: 0 }, "no such call"),
    ]);
}
