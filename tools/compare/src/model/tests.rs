//! Document 01's bench sheet, and the run-only cases.
use super::Model;
use calls::{Answers, B, Call, Data, E, Fields, U};

fn line(model: &mut Model, call: Call) -> String {
    let mut line = Vec::new();
    model.answer(&call, &mut line);
    String::from_utf8(line).unwrap()
}

fn alone(call: Call) -> String {
    line(&mut Model::new(), call)
}

fn hex(text: &str) -> Vec<u8> {
    text.split(' ').map(|byte| u8::from_str_radix(byte, 16).unwrap()).collect()
}

/// An answer's bytes, two digits each, with spaces.
fn spaced(digits: &str) -> String {
    digits.as_bytes().chunks(2).map(|byte| std::str::from_utf8(byte).unwrap().to_uppercase()).collect::<Vec<_>>().join(" ")
}

fn push(flags: u8, tsn: u32, ssn: u16, size: u32) -> Call {
    Call::RqPush { fields: Fields { flags, tsn, stream: 0, ssn, identifier: 51 }, data: Data { size, seed: b'a' } }
}

/// A TSN queue that holds these, and its report: blocks, starts, ends.
fn report(tsns: &[u32], cumulative: u32) -> String {
    let mut model = Model::new();
    for tsn in tsns {
        let fields = Fields { tsn: *tsn, ..Fields::default() };
        assert_eq!(line(&mut model, Call::PqPush { fields, size: 1, cumulative }), "yes");
    }
    line(&mut model, Call::PqGapAckBlocks { cumulative, starts: 2, ends: 2, fill: 0 })
}

#[test]
fn p1_distances() {
    assert_eq!(alone(Call::TsnDistance { a: 5, b: 3 }), "-2");
    assert_eq!(alone(Call::TsnDistance { a: 4294967295, b: 0 }), "1");
    assert_eq!(alone(Call::TsnDistance { a: 0, b: 2147483648 }), "-2147483648");
    assert_eq!(alone(Call::Sna32 { a: 0, b: 2147483648 }), "no no no no");
    assert_eq!(alone(Call::Sna16 { a: 32768, b: 0 }), "no no no no");
}

#[test]
fn four_answers_of_a_comparison() {
    let tsns = [(5, 3), (u32::MAX, 0), (7, 7), (0, (1 << 31) - 1), (0, 1 << 31), (1 << 31, 0), (0, (1 << 31) + 1)];
    assert_eq!(tsns.map(|(a, b)| alone(Call::TsnCompare { a, b })), ["later", "earlier", "same", "earlier", "opposite", "opposite", "later"]);
    let ssns = [(5, 3), (u16::MAX, 0), (7, 7), (0, (1 << 15) - 1), (0, 1 << 15), (1 << 15, 0), (0, (1 << 15) + 1)];
    assert_eq!(ssns.map(|(a, b)| alone(Call::SsnCompare { a, b })), ["later", "earlier", "same", "earlier", "opposite", "opposite", "later"]);
}

#[test]
fn an_opposite_tsn_is_refused_before_the_duplicate_test_and_not_logged() {
    let mut model = Model::new();
    let push = |model: &mut Model, tsn, cumulative| line(model, Call::PqPush { fields: Fields { tsn, ..Fields::default() }, size: 1, cumulative });
    assert_eq!([push(&mut model, 1 << 31, 0), push(&mut model, 1 << 31, 1), push(&mut model, 1 << 31, 0)], ["refused 17", "yes", "refused 17"]);
    assert_eq!((model.tsns.count, model.tsns.dups), (1, 0));
    assert_eq!([line(&mut model, Call::PqCanPush { tsn: 1, cumulative: 1 + (1 << 31) }), line(&mut model, Call::PqCanPush { tsn: 1 << 31, cumulative: 0 })], ["yes", "no"]);
    assert_eq!([line(&mut model, Call::PqPopUpTo { tsn: 0 }), line(&mut model, Call::PqLen {})], ["done", "number 1"]);
}

const P2: &str = "00 03 00 13 00 00 00 0A 00 02 00 05 00 00 00 33 61 62 63";

#[test]
fn p2_data() {
    let fields = Fields { flags: B | E, tsn: 10, stream: 2, ssn: 5, identifier: 51 };
    let written = alone(Call::DataMarshal { room: 19, fill: 0, fields, data: Data { size: 3, seed: b'a' } });
    assert_eq!(spaced(written.strip_prefix("wrote 19 ").unwrap()), P2);
    assert_eq!(alone(Call::DataUnmarshal { raw: hex(P2) }), "data BE 10 2 5 51");
    assert_eq!(alone(Call::DataUserData { raw: hex(P2) }), "part 616263");
}

#[test]
fn p3_identifier_as_sent() {
    let raw = hex("00 00 00 11 00 00 00 01 00 00 00 00 00 00 00 07 61");
    assert_eq!(alone(Call::DataUnmarshal { raw }), "data - 1 0 0 7");
    let written = alone(Call::DataMarshal { room: 17, fill: 0, fields: Fields { identifier: 7, ..Fields::default() }, data: Data { size: 1, seed: b'a' } });
    assert!(written.ends_with("0000000761"), "{written}");
}

#[test]
fn identifiers_stay_through_the_queues() {
    for identifier in [0, 7, 49, 50, 58, 59, 65_587, 1_280_262_468, u32::MAX] {
        let fields = Fields { flags: B | E, tsn: 1, identifier, ..Fields::default() };
        let mut model = Model::new();
        assert_eq!(line(&mut model, Call::PqPush { fields, size: 1, cumulative: 0 }), "yes");
        assert_eq!(line(&mut model, Call::PqPop { tsn: 1 }), format!("chunk BE 1 0 0 {identifier} 1"));
        assert_eq!(line(&mut model, Call::RqPush { fields, data: Data { size: 1, seed: b'a' } }), "yes");
        assert_eq!(line(&mut model, Call::RqState {}), format!("queue 0 0 65536 1 | o BE 1 0 0 {identifier} 61"));
        assert_eq!(line(&mut model, Call::RqRead { room: 1, fill: 0 }), format!("message 0 {identifier} 1 61"));
    }
}

#[test]
fn p4_short_data() {
    assert_eq!(alone(Call::DataUnmarshal { raw: hex("00 00 00 0F 00 00 00 01 00 00 00 00 00 00 00") }), "refused 4");
    assert_eq!(alone(Call::DataUnmarshal { raw: hex("00 00 00 10 00 00 00 01 00 00 00 00 00 00 00 33") }), "refused 15");
}

#[test]
fn data_without_data_is_refused() {
    let read = |kind, length: u8, lent| {
        let mut raw = vec![kind, 0, 0, length];
        raw.resize(lent, 0);
        [alone(Call::DataUnmarshal { raw: raw.clone() }), alone(Call::DataUserData { raw })]
    };
    assert_eq!([read(0, 16, 16), read(0, 16, 17)], [["refused 15", "refused 15"]; 2]);
    assert_eq!([read(0, 16, 15), read(3, 16, 16), read(0, 15, 16)], [["refused 2"; 2], ["refused 3"; 2], ["refused 4"; 2]]);
    assert_eq!(read(0, 17, 17), ["data - 0 0 0 0", "part 00"]);
    let written = |room, size| alone(Call::DataMarshal { room, fill: 0xEE, fields: Fields::default(), data: Data { size, seed: 7 } });
    assert_eq!([written(0, 0), written(3, 0), written(17, 0)], ["refused 15 -".into(), "refused 15 eeeeee".into(), format!("refused 15 {}", "ee".repeat(17))]);
    assert_eq!([written(17, 1), written(0, 1)], ["wrote 17 0000001100000000000000000000000007", "refused 10 -"]);
}

const P5: &str = "03 00 00 1C 00 00 00 64 00 00 05 DC 00 02 00 01 00 02 00 03 00 05 00 05 00 00 00 62";

#[test]
fn p5_sack() {
    let call = Call::SackMarshal { room: 28, fill: 0, cumulative: 100, window: 1500, starts: vec![2, 5], ends: vec![3, 5], duplicates: vec![98] };
    assert_eq!(spaced(alone(call).strip_prefix("wrote 28 ").unwrap()), P5);
    assert_eq!(alone(Call::SackUnmarshal { raw: hex(P5) }), "sack 100 1500 2 1");
    assert_eq!(alone(Call::SackBlocks { raw: hex(P5) }), "part 0002000300050005");
    assert_eq!(alone(Call::SackDuplicates { raw: hex(P5) }), "part 00000062");
    assert_eq!(alone(Call::SackBlockAt { part: hex("00 02 00 03 00 05 00 05"), index: 1 }), "block 5 5");
    assert_eq!(alone(Call::SackDuplicateAt { part: hex("00 00 00 62"), index: 1 }), "refused 11");
}

#[test]
fn p6_to_p8_gap_reports() {
    assert_eq!(report(&[102, 103, 105], 100), "blocks 2 starts 2 5 ends 3 5");
    assert_eq!(report(&[4294967295, 0, 2], 4294967294), "blocks 2 starts 1 4 ends 2 4");
    assert_eq!(report(&[65534, 65535, 65536], 0), "blocks 1 starts 65534 0 ends 65535 0");
}

#[test]
fn p9_unordered_size() {
    for (size, answer) in [(5, "refused 6"), (4, "yes")] {
        let mut model = Model::new();
        line(&mut model, Call::RqNew { stream: 0, maximum: 10 });
        assert_eq!(line(&mut model, push(U | B, 1, 0, 6)), "no");
        assert_eq!(line(&mut model, push(U | E, 2, 0, size)), answer);
    }
}

#[test]
fn p10_size_before_old_ssn() {
    let mut model = Model::new();
    line(&mut model, Call::RqNew { stream: 0, maximum: 10 });
    line(&mut model, Call::RqForwardOrdered { ssn: 4 });
    assert_eq!(model.reassembly.expected, 5);
    assert_eq!(line(&mut model, push(B | E, 1, 4, 11)), "refused 6");
    assert_eq!(line(&mut model, push(B | E, 1, 4, 10)), "no");
}

#[test]
fn p11_inner_flags() {
    let mut model = Model::new();
    assert_eq!(line(&mut model, push(B, 1, 0, 1)), "no");
    assert_eq!(line(&mut model, push(E, 3, 0, 1)), "no");
    assert_eq!(line(&mut model, push(B | E, 2, 0, 1)), "yes");
    assert_eq!(line(&mut model, Call::RqRead { room: 3, fill: 0 }), "message 0 51 3 616161");
}

#[test]
fn p12_pieces() {
    let mut model = Model::new();
    line(&mut model, push(B | E, 1, 0, 10));
    line(&mut model, push(B | E, 2, 1, 0));
    line(&mut model, Call::RqRead { room: 10, fill: 0 });
    for answer in ["piece 0 4 61626364", "piece 4 4 65666768", "piece 8 2 696a", "none"] {
        assert_eq!(line(&mut model, Call::MNext { most: 4 }), answer);
    }
    line(&mut model, Call::RqRead { room: 0, fill: 0 });
    assert_eq!(line(&mut model, Call::MNext { most: 4 }), "piece 0 0 -");
    assert_eq!(line(&mut model, Call::MNext { most: 4 }), "none");
}

#[test]
fn the_512th_fragment_is_stored_and_the_513th_is_not() {
    let mut model = Model::new();
    for tsn in 1..=512 {
        assert_eq!(line(&mut model, push(B, 2 * tsn, 0, 1)), "no");
    }
    assert_eq!(line(&mut model, push(B, 2000, 0, 1)), "refused 8");
    assert_eq!(line(&mut model, Call::RqNumBytes {}), "number 512");
}

#[test]
fn a_whole_read_into_four_bytes() {
    let mut model = Model::new();
    line(&mut model, push(B | E, 1, 0, 6));
    line(&mut model, Call::RqRead { room: 6, fill: 0 });
    assert_eq!(line(&mut model, Call::MRead { room: 4, fill: 0 }), "refused 7 61626364");
    assert_eq!(line(&mut model, Call::MRead { room: 7, fill: 0 }), "number 6 61626364656600");
}

#[test]
fn what_is_dropped_stays_behind_what_is_held() {
    let mut model = Model::new();
    for tsn in 1..=2 {
        let fields = Fields { tsn, ..Fields::default() };
        line(&mut model, Call::PqPush { fields, size: 3, cumulative: 0 });
    }
    line(&mut model, Call::PqPop { tsn: 1 });
    assert_eq!((model.tsns.count, model.tsns.rows[0].tsn, model.tsns.rows[1].tsn), (1, 2, 2));
}

#[test]
fn an_unsound_queue_is_refused() {
    let mut model = Model::new();
    line(&mut model, Call::PqForge { field: 2, index: 0, value: 65 });
    assert!(line(&mut model, Call::PqPopDuplicates {}).starts_with("refused 0 0 0"));
    line(&mut model, Call::RqForge { field: 9, index: 0, value: 65_535 });
    assert_eq!(line(&mut model, push(B, 1, 0, 1)), "refused 0");
}

const FORWARD: &str = "C0 00 00 10 00 00 00 0A 00 01 00 05 00 02 FF FF";

#[test]
fn forward_tsn_is_read_and_written() {
    let written = |room, streams, ssns| alone(Call::FwdMarshal { room, fill: 0, point: 10, streams, ssns });
    assert_eq!(spaced(written(16, vec![1, 2], vec![5, 65_535]).strip_prefix("wrote 16 ").unwrap()), FORWARD);
    assert_eq!(written(9, vec![], vec![]), "wrote 8 c00000080000000a00");
    assert_eq!(written(3, vec![1, 2], vec![5]), "refused 9 000000");
    assert_eq!(written(15, vec![1, 2], vec![5, 6]), format!("refused 10 {}", "00".repeat(15)));
    assert!(written(65_532, vec![1; 16_381], vec![2; 16_381]).starts_with("wrote 65532 c000fffc0000000a00010002"));
    assert_eq!(written(0, vec![1; 16_382], vec![2; 16_382]), "refused 9 -");
    assert_eq!(alone(Call::FwdUnmarshal { raw: hex(FORWARD) }), "forward 10 2");
    assert_eq!(alone(Call::FwdStreams { raw: hex(FORWARD) }), "part 000100050002ffff");
    assert_eq!(alone(Call::FwdStreams { raw: hex("C0 FF 00 08 00 00 00 0A 01") }), "part -");
    let pair = |index| alone(Call::FwdStreamAt { part: hex("00 01 00 05 00 02 FF FF 00 03 00"), index });
    assert_eq!([pair(1), pair(2), pair(u64::MAX)], ["stream 2 65535", "refused 11", "refused 11"]);
}

#[test]
fn forward_tsn_refusals() {
    let read = |kind, length: u8, lent| {
        let mut raw = vec![kind, 0, 0, length];
        raw.resize(lent, 0);
        let answers = [alone(Call::FwdUnmarshal { raw: raw.clone() }), alone(Call::FwdStreams { raw })];
        assert!(answers[0] == answers[1] || answers[0].starts_with("forward"), "{answers:?}");
        answers[0].clone()
    };
    assert_eq!(alone(Call::FwdUnmarshal { raw: vec![192, 0, 0] }), "refused 1");
    assert_eq!([read(192, 3, 9), read(192, 9, 8), read(0, 7, 8)], ["refused 2", "refused 2", "refused 3"]);
    assert_eq!([4, 7, 9, 10, 11, 13].map(|length| read(192, length, 16)), ["refused 12"; 6]);
    assert_eq!([8, 12, 16].map(|length| read(192, length, 16)), ["forward 0 0", "forward 0 1", "forward 0 2"]);
}

/// Ordered SSNs 0 and 1 incomplete and 2 complete, a loose unordered fragment with TSN 7; after a chunk: the expected SSN, and the TSNs that are held.
fn applied(part: &str, cumulative: u32, point: u32) -> (u16, Vec<u32>) {
    let mut model = Model::new();
    for call in [push(B, 1, 0, 1), push(B, 3, 1, 1), push(B | E, 5, 2, 1), push(U | B, 7, 0, 1)] {
        line(&mut model, call);
    }
    let part = if part.is_empty() { vec![] } else { hex(part) };
    assert_eq!(line(&mut model, Call::RqApplyForward { part, cumulative, point }), "done");
    (model.reassembly.expected, model.reassembly.held().iter().map(|row| row.tsn).collect())
}

#[test]
fn forward_tsn_skips_in_its_stream() {
    assert_eq!(applied("00 00 00 01", 0, 7), (2, vec![5]));
    assert_eq!(applied("00 00 00 01", 0, 6), (2, vec![7, 5]));
    assert_eq!(applied("00 01 00 01", 0, 7), (0, vec![1, 3, 5]));
    assert_eq!(applied("00 01 00 01 00 00 00 00", 0, 6), (1, vec![7, 3, 5]));
    assert_eq!(applied("00 00 00", 0, 7), (0, vec![1, 3, 5]));
    assert_eq!(applied("", 0, 7), (0, vec![1, 3, 5]));
    // One after the other they go further round than the last alone.
    assert_eq!(applied("00 00 4E 20 00 00 AF C8", 0, 6).0, 45_001);
    assert_eq!(applied("00 00 AF C8 00 00 4E 20", 0, 6).0, 20_001);
}

#[test]
fn an_old_point_changes_nothing_and_one_half_way_does() {
    for cumulative in [7, 8, 7 + (1 << 31) - 1] {
        assert_eq!(applied("00 00 00 01", cumulative, 7), (0, vec![7, 1, 3, 5]));
    }
    assert_eq!(applied("00 00 00 01", 7 + (1 << 31), 7), (2, vec![5]));
    let mut model = Model::new();
    for tsn in [4, 6] {
        line(&mut model, Call::PqPush { fields: Fields { tsn, ..Fields::default() }, size: 3, cumulative: 0 });
    }
    for (cumulative, point, left) in [(6, 6, 2), (7, 6, 2), (4, 5, 1), (u32::MAX, 6, 0)] {
        assert_eq!(line(&mut model, Call::PqApplyForward { cumulative, point }), "done");
        assert_eq!(model.tsns.count, left);
    }
}

#[test]
fn an_unsound_queue_refuses_an_old_point_too() {
    let mut model = Model::new();
    line(&mut model, Call::PqForge { field: 0, index: 0, value: 1_025 });
    line(&mut model, Call::RqForge { field: 3, index: 0, value: 513 });
    assert_eq!(line(&mut model, Call::PqApplyForward { cumulative: 1, point: 0 }), "refused 0");
    assert_eq!(line(&mut model, Call::RqApplyForward { part: vec![], cumulative: 1, point: 0 }), "refused 0");
}
