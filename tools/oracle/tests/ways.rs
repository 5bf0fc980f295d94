//! The ways of the Rust that documents 01 and 02 turn away from, each as the fewest calls that show it, with the Rust's own answers.
mod common;
use calls::{B, Call, Data, E, Fields, U};
use common::*;

#[test]
fn an_ordered_duplicate_is_counted_for_good() {
    answered(&[
        (push(B, 1, 0, 2), "no"),
        (push(B, 1, 0, 2), "no"),
        (Call::RqState {}, "queue 0 0 65536 4 | o B 1 0 0 53 6162"),
        (push(E, 2, 0, 0), "yes"),
        (read(2), "message 0 53 2 6162"),
        (Call::RqState {}, "queue 0 1 65536 2"),
    ]);
}

#[test]
fn an_unordered_duplicate_is_held_twice_and_given_twice() {
    answered(&[
        (push(U | B, 1, 0, 2), "no"),
        (push(U | B, 1, 0, 2), "no"),
        (Call::RqState {}, "queue 0 0 65536 4 | u UB 1 0 0 53 6162 | u UB 1 0 0 53 6162"),
        (push(U | E, 2, 0, 1), "yes"),
        (push(U | E, 2, 0, 1), "yes"),
        (read(3), "message 0 53 3 616261"),
        (read(3), "message 0 53 3 616261"),
    ]);
}

#[test]
fn half_way_round_is_after_both_ways() {
    answered(&[(Call::Sna32 { a: 0, b: 1 << 31 }, "no no yes yes"), (Call::Sna32 { a: 1 << 31, b: 0 }, "no no yes yes")]);
    answered(&[(Call::Sna16 { a: 0, b: 1 << 15 }, "no no yes yes"), (Call::Sna16 { a: 1 << 15, b: 0 }, "no no yes yes")]);
}

#[test]
fn before_and_the_same_tell_earlier_same_later_and_opposite() {
    let tsns = [(5, 3, "later"), (u32::MAX, 0, "earlier"), (7, 7, "same"), (0, (1 << 31) - 1, "earlier"), (0, 1 << 31, "opposite"), (1 << 31, 0, "opposite"), (0, (1 << 31) + 1, "later")];
    tsns.iter().for_each(|(a, b, order)| answered(&[(Call::TsnCompare { a: *a, b: *b }, *order)]));
    let ssns = [(5, 3, "later"), (u16::MAX, 0, "earlier"), (7, 7, "same"), (0, (1 << 15) - 1, "earlier"), (0, 1 << 15, "opposite"), (1 << 15, 0, "opposite"), (0, (1 << 15) + 1, "later")];
    ssns.iter().for_each(|(a, b, order)| answered(&[(Call::SsnCompare { a: *a, b: *b }, *order)]));
}

#[test]
fn an_opposite_tsn_is_stored_and_logged_where_it_is_held() {
    let push = |tsn, cumulative| Call::PqPush { fields: fields(B | E, tsn, 0), size: 0, cumulative };
    answered(&[
        (Call::PqCanPush { tsn: 1 << 31, cumulative: 0 }, "yes"),
        (push(1 << 31, 0), "yes"),
        (Call::PqState {}, "held 1 0 | BE 2147483648 0 0 53 0"),
        (Call::PqPopUpTo { tsn: 0 }, "done"),
        (Call::PqLen {}, "number 1"),
        (push(1 << 31, 0), "no"),
        (Call::PqPopDuplicates {}, &format!("log 1 2147483648{}", " 0".repeat(63))),
    ]);
}

#[test]
fn a_complete_set_half_way_round_is_not_given() {
    answered(&[(push(B | E, 1, 32768, 1), "yes"), (Call::RqIsReadable {}, "no"), (read(1), "none 00")]);
}

#[test]
fn sets_half_way_round_stay_in_order_of_arrival() {
    answered(&[
        (push(B | E, 1, 32768, 1), "yes"),
        (push(B | E, 2, 0, 1), "yes"),
        (Call::RqState {}, "queue 0 0 65536 2 | o BE 1 0 32768 53 61 | o BE 2 0 0 53 61"),
        (read(1), "none 00"),
    ]);
}

#[test]
fn an_ssn_half_way_round_is_after_that_of_a_bounded_skip() {
    let ask = |ssn, peer| Call::RqApplicableForward { ssn, tsn: 0, peer };
    answered(&[(ask(32_768, 0), "number 32768"), (ask(32_767, 0), "none"), (ask(32_769, 0), "number 32769")]);
    answered(&[(push(B, 1, 32_768, 1), "no"), (ask(0, 9), "number 0"), (ask(1, 9), "number 1")]);
}

#[test]
fn an_unordered_skip_keeps_what_is_half_way_round() {
    answered(&[
        (push(U | B, 1 << 31, 0, 1), "no"),
        (Call::RqForwardUnordered { tsn: 0 }, "done"),
        (Call::RqState {}, "queue 0 0 65536 1 | u UB 2147483648 0 0 53 61"),
    ]);
}

#[test]
fn lengths_are_cut_to_16_bits() {
    let mut oracle = oracle::Oracle::new();
    let data = |size| Call::DataMarshal { room: 65_536, fill: 0, fields: fields(B | E, 1, 0), data: Data { size, seed: 0 } };
    assert!(answer(&mut oracle, &data(65_519)).starts_with("wrote 65535 0003ffff00000001"));
    assert!(answer(&mut oracle, &data(65_520)).starts_with("wrote 65536 0003000000000001"));
    let sack = |n| Call::SackMarshal { room: 65_540, fill: 0, cumulative: 1, window: 2, starts: vec![0; n], ends: vec![0; n], duplicates: vec![] };
    assert!(answer(&mut oracle, &sack(16_379)).starts_with("wrote 65532 0300fffc0000000100000002"));
    assert!(answer(&mut oracle, &sack(16_380)).starts_with("wrote 65536 030000000000000100000002"));
    assert!(answer(&mut oracle, &sack(16_381)).starts_with("wrote 65540 030000040000000100000002"));
    let forward = |n| Call::FwdMarshal { room: 65_540, fill: 0, point: 1, streams: vec![0; n], ssns: vec![0; n] };
    assert!(answer(&mut oracle, &forward(16_381)).starts_with("wrote 65532 c000fffc00000001"));
    assert!(answer(&mut oracle, &forward(16_382)).starts_with("wrote 65536 c000000000000001"));
}

#[test]
fn an_identifier_without_a_name_is_read_and_written_as_58() {
    let raw = |identifier: u8| [&hex("00 03 00 11 00 00 00 01 00 00 00 00 00 00 00")[..], &[identifier, 0x61]].concat();
    let written = |identifier| Call::DataMarshal { room: 17, fill: 0, fields: Fields { identifier, ..fields(B | E, 1, 0) }, data: Data { size: 1, seed: 0x61 } };
    answered(&[
        (Call::DataUnmarshal { raw: raw(7) }, "data BE 1 0 0 58"),
        (Call::DataUnmarshal { raw: raw(57) }, "data BE 1 0 0 57"),
        (written(7), "wrote 17 0003001100000001000000000000003a61"),
        (written(u32::MAX), "wrote 17 0003001100000001000000000000003a61"),
        (written(57), "wrote 17 0003001100000001000000000000003961"),
    ]);
}

#[test]
fn an_identifier_without_a_name_comes_out_of_the_queues_as_58() {
    let fields = Fields { identifier: 7, ..fields(B | E, 1, 0) };
    answered(&[
        (Call::PqPush { fields, size: 1, cumulative: 0 }, "yes"),
        (Call::PqGet { tsn: 1 }, "chunk BE 1 0 0 58 1"),
        (Call::PqPop { tsn: 1 }, "chunk BE 1 0 0 58 1"),
        (Call::RqPush { fields, data: Data { size: 1, seed: 0x61 } }, "yes"),
        (read(1), "message 0 58 1 61"),
    ]);
}

#[test]
fn data_without_data_is_read_and_written() {
    let raw = hex("00 03 00 10 00 00 00 0a 00 02 00 05 00 00 00 33");
    let fields = Fields { flags: B | E, tsn: 10, stream: 2, ssn: 5, identifier: 51 };
    let written = |room| Call::DataMarshal { room, fill: 0xee, fields, data: Data::default() };
    answered(&[
        (Call::DataUnmarshal { raw: raw.clone() }, "data BE 10 2 5 51"),
        (Call::DataUserData { raw }, "part -"),
        (written(16), "wrote 16 000300100000000a0002000500000033"),
        (written(17), "wrote 16 000300100000000a0002000500000033ee"),
    ]);
}

#[test]
fn up_to_three_bytes_after_the_length_must_be_0() {
    let data = |after: &[u8]| [&hex("00 00 00 11 00 00 00 01 00 00 00 00 00 00 00 33 61")[..], after].concat();
    answered(&[
        (Call::Header { raw: hex("00 00 00 04 01") }, "error ErrChunkHeaderPaddingNonZero"),
        (Call::DataUnmarshal { raw: data(&[0, 0, 1]) }, "error ErrChunkHeaderPaddingNonZero"),
        (Call::DataUnmarshal { raw: data(&[0, 0, 0]) }, "data - 1 0 0 51"),
        (Call::DataUnmarshal { raw: data(&[0, 0, 0, 1]) }, "data - 1 0 0 51"),
        (Call::FwdUnmarshal { raw: hex("c0 00 00 08 00 00 00 01 01") }, "error ErrChunkHeaderPaddingNonZero"),
    ]);
}

#[test]
fn a_piece_of_the_largest_size_panics_and_moves_nothing() {
    answered(&[
        (push(B | E, 1, 0, 1), "yes"),
        (read(1), "message 0 53 1 61"),
        (Call::MNext { most: u64::MAX }, "panic capacity overflow"),
        (Call::MNext { most: 1 << 31 }, "no such answer"),
        (Call::MNext { most: 1 << 30 }, "piece 0 1 61"),
    ]);
}

#[test]
fn no_limit_of_held_tsns_or_fragments() {
    let mut oracle = oracle::Oracle::new();
    (1..=1_025).for_each(|tsn| assert_eq!(answer(&mut oracle, &queued(tsn, 0)), "yes"));
    assert_eq!(answer(&mut oracle, &Call::PqLen {}), "number 1025");
    (1..=65).for_each(|tsn| assert_eq!(answer(&mut oracle, &queued(tsn, 0)), "no"));
    assert_eq!(answer(&mut oracle, &Call::PqPopDuplicates {}), "no such answer");
    (1..=513).for_each(|i| assert_eq!(answer(&mut oracle, &push(U, 2 * i, 0, 300)), "no"));
    assert_eq!(answer(&mut oracle, &Call::RqNumBytes {}), "number 153900");
}
