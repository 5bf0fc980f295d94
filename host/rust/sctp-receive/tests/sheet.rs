//! Document 01's bench sheet, through the archive, and each refusal of each call beside the case that is let in.
use sctp_receive::serial::*;
use sctp_receive::*;

fn data(tsn: u32, flags: &str) -> ChunkPayloadData {
    ChunkPayloadData {
        unordered: flags.contains('U'),
        beginning_fragment: flags.contains('B'),
        ending_fragment: flags.contains('E'),
        tsn,
        ..ChunkPayloadData::default()
    }
}

/// The gap report, as pairs.
fn report(q: &PayloadQueue, cumulative: u32) -> Vec<(u16, u16)> {
    let (mut starts, mut ends) = ([0; TSNS], [0; TSNS]);
    let n = q.get_gap_ack_blocks(cumulative, &mut starts, &mut ends).unwrap();
    starts.into_iter().zip(ends).take(n).collect()
}

const P2: [u8; 19] = [0, 3, 0, 0x13, 0, 0, 0, 0x0A, 0, 2, 0, 5, 0, 0, 0, 0x33, 0x61, 0x62, 0x63];
const P5: [u8; 28] = [3, 0, 0, 0x1C, 0, 0, 0, 0x64, 0, 0, 5, 0xDC, 0, 2, 0, 1, 0, 2, 0, 3, 0, 5, 0, 5, 0, 0, 0, 0x62];

#[test]
fn p1_order() {
    // 5 to 3 is -2, 4294967295 to 0 is 1, 0 to 2147483648 is the lowest: neither is before the other
    assert!(sna32lt(3, 5) && sna32gt(5, 3) && !sna32lt(5, 3) && !sna32gte(3, 5) && sna32lte(3, 5));
    assert!(sna32lt(u32::MAX, 0) && sna32gte(0, u32::MAX) && sna32eq(7, 7) && !sna32eq(7, 8) && sna32lte(7, 7));
    assert!(!sna32lt(0, 1 << 31) && !sna32lt(1 << 31, 0) && !sna32gt(0, 1 << 31) && !sna32lte(0, 1 << 31));
    assert!(sna16lt(u16::MAX, 0) && sna16gt(0, u16::MAX) && sna16lte(4, 4) && sna16gte(4, 4) && sna16eq(4, 4));
    assert!(!sna16lt(0, 1 << 15) && !sna16lt(1 << 15, 0) && !sna16eq(4, 5) && !sna16gte(4, 5) && !sna16lte(5, 4));
}

#[test]
fn four_answers_of_a_comparison() {
    use Order::{Earlier, Later, Opposite, Same};
    let tsns = [(5, 3), (u32::MAX, 0), (7, 7), (0, (1 << 31) - 1), (0, 1 << 31), (1 << 31, 0), (0, (1 << 31) + 1)];
    assert_eq!(tsns.map(|(a, b)| tsn_compare(a, b)), [Later, Earlier, Same, Earlier, Opposite, Opposite, Later]);
    let ssns = [(5, 3), (u16::MAX, 0), (7, 7), (0, (1 << 15) - 1), (0, 1 << 15), (1 << 15, 0), (0, (1 << 15) + 1)];
    assert_eq!(ssns.map(|(a, b)| ssn_compare(a, b)), [Later, Earlier, Same, Earlier, Opposite, Opposite, Later]);
    for (a, b) in (0..=u16::MAX).flat_map(|b| [(0, b), (40_000, b), (b, 65_535)]) {
        let (order, back) = (ssn_compare(a, b), ssn_compare(b, a));
        assert_eq!((order == Earlier, order == Same, order == Later), (sna16lt(a, b), sna16eq(a, b), sna16gt(a, b)), "{a} {b}");
        assert_eq!(back, [Later, Same, Earlier, Opposite][order as usize], "{a} {b}");
        let (high, low) = ((a as u32) << 16, (b as u32) << 16);
        assert_eq!(tsn_compare(high, low), order, "{high} {low}");
    }
}

#[test]
fn an_opposite_tsn_is_refused_and_not_logged() {
    let mut queue = PayloadQueue::new();
    let chunk = |tsn| ChunkPayloadData { tsn, ..ChunkPayloadData::default() };
    assert!(queue.can_push(1 << 31, 0));
    assert_eq!(queue.push(&chunk(1 << 31), 1, 0), Err(Error::OppositeTsn));
    assert_eq!((queue.push(&chunk(1 << 31), 1, 1), queue.push(&chunk(1 << 31), 1, 0)), (Ok(true), Err(Error::OppositeTsn)));
    queue.pop_up_to(0);
    assert_eq!((queue.len(), queue.pop_duplicates().count), (1, 0));
}

#[test]
fn p2_data() {
    let fields = ChunkPayloadData {
        stream_identifier: 2,
        stream_sequence_number: 5,
        payload_type: PayloadProtocolIdentifier::String as u32,
        ..data(10, "BE")
    };
    assert_eq!(ChunkPayloadData::unmarshal(&P2), Ok(fields));
    let user = ChunkPayloadData::user_data(&P2).unwrap();
    assert_eq!((user, user.as_ptr()), (&b"abc"[..], P2[16..].as_ptr()));
    let mut out = [9; 21];
    assert_eq!(fields.marshal_to(&mut out, b"abc"), Ok(19));
    assert_eq!((&out[..19], &out[19..]), (&P2[..], &[9, 9][..]));
    assert_eq!(ChunkHeader::unmarshal(&P2), Ok(ChunkHeader { typ: 0, flags: 3, length: 19 }));
}

#[test]
fn p3_identifier() {
    let mut raw = P2;
    raw[15] = 7;
    let read = ChunkPayloadData::unmarshal(&raw).unwrap();
    assert_eq!((read.payload_type, read.payload_name()), (7, PayloadProtocolIdentifier::Unknown));
    let mut again = [9; 19];
    assert_eq!((read.marshal_to(&mut again, b"abc"), again), (Ok(19), raw));
}

#[test]
fn identifiers_stay_as_they_were_sent() {
    for number in [0, 7, 49, 50, 51, 53, 56, 57, 58, 59, 65_587, 0x4C4F_4144, u32::MAX] {
        let chunk = ChunkPayloadData { payload_type: number, ..data(1, "BE") };
        let mut raw = [0; 17];
        assert_eq!((chunk.marshal_to(&mut raw, b"a"), ChunkPayloadData::unmarshal(&raw)), (Ok(17), Ok(chunk)));
        assert_eq!(raw[12..16], number.to_be_bytes());
        let mut tsns = PayloadQueue::new();
        assert_eq!(
            (tsns.push(&chunk, 1, 0), tsns.get(1), tsns.pop(1)),
            (Ok(true), Some(Queued { chunk, size: 1 }), Some(Queued { chunk, size: 1 }))
        );
        let mut stream = ReassemblyQueue::new(0, 10);
        let mut buffer = [0; 1];
        assert_eq!(stream.push(&chunk, b"a"), Ok(true));
        let message = stream.read(&mut buffer).unwrap().unwrap();
        assert_eq!((message.ppi(), message.payload_name()), (number, chunk.payload_name()));
        let named = [50, 51, 53, 56, 57].contains(&number);
        assert_eq!(message.payload_name() as u32, if named { number } else { 58 });
    }
}

#[test]
fn p4_and_what_readers_refuse() {
    let with = |typ, length| {
        let mut raw = P2;
        (raw[0], raw[3]) = (typ, length);
        raw
    };
    for (raw, header, of_data, sack) in [
        (&P2[..3], Err(Error::NoHeader), Err(Error::NoHeader), Error::NoHeader),
        (&with(0, 3)[..], Err(Error::BadLength), Err(Error::BadLength), Error::BadLength),
        (&with(0, 20)[..], Err(Error::BadLength), Err(Error::BadLength), Error::BadLength),
        (&with(3, 15)[..], Ok(()), Err(Error::ChunkTypeNotAskedFor), Error::SackTooSmall),
        (&with(0, 15)[..], Ok(()), Err(Error::ChunkPayloadSmall), Error::ChunkTypeNotAskedFor),
        (&with(0, 16)[..], Ok(()), Err(Error::NoUserData), Error::ChunkTypeNotAskedFor),
        (&with(0, 17)[..], Ok(()), Ok(()), Error::ChunkTypeNotAskedFor),
        (&P5[..27], Err(Error::BadLength), Err(Error::BadLength), Error::BadLength),
    ] {
        assert_eq!(ChunkHeader::unmarshal(raw).map(|_| ()), header);
        assert_eq!(ChunkPayloadData::unmarshal(raw).map(|_| ()), of_data);
        assert_eq!(ChunkPayloadData::user_data(raw).map(|_| ()), of_data);
        assert_eq!(ChunkSelectiveAck::unmarshal(raw), Err(sack));
        assert_eq!(ChunkSelectiveAck::gap_ack_blocks(raw), Err(sack));
        assert_eq!(ChunkSelectiveAck::duplicate_tsns(raw), Err(sack));
    }
    assert_eq!(ChunkPayloadData::user_data(&with(0, 17)), Ok(&b"a"[..]));
    let mut lists = P5;
    lists[13] = 3;
    assert_eq!(ChunkSelectiveAck::unmarshal(&lists), Err(Error::SackTooSmall));
    assert_eq!(ChunkHeader::unmarshal(&[]), Err(Error::NoHeader));
}

#[test]
fn p5_sack() {
    let mut out = [9; 30];
    assert_eq!(ChunkSelectiveAck::marshal_to(&mut out, 100, 1500, &[2, 5], &[3, 5], &[98]), Ok(28));
    assert_eq!((&out[..28], &out[28..]), (&P5[..], &[9, 9][..]));
    let s = ChunkSelectiveAck::unmarshal(&P5).unwrap();
    assert_eq!((s.cumulative_tsn_ack, s.advertised_receiver_window_credit, s.gap_ack_blocks, s.duplicate_tsns), (100, 1500, 2, 1));
    let blocks = ChunkSelectiveAck::gap_ack_blocks(&P5).unwrap();
    assert_eq!((blocks.0.as_ptr(), blocks.0.len()), (P5[16..].as_ptr(), 8));
    assert_eq!(blocks.iter().map(|b| (b.start, b.end)).collect::<Vec<_>>(), [(2, 3), (5, 5)]);
    assert_eq!(blocks.at(2), Err(Error::PastTheList));
    let tsns = ChunkSelectiveAck::duplicate_tsns(&P5).unwrap();
    assert_eq!((tsns.0.as_ptr(), tsns.iter().collect::<Vec<_>>()), (P5[24..].as_ptr(), vec![98]));
    assert_eq!(tsns.at(1), Err(Error::PastTheList));
    assert_eq!(tsns.at(usize::MAX), Err(Error::PastTheList));
}

#[test]
fn what_writers_refuse() {
    let (fields, mut out) = (data(1, "BE"), vec![7; 65_535]);
    assert_eq!(fields.marshal_to(&mut out, &vec![1; 65_520]), Err(Error::TooLong));
    assert_eq!(fields.marshal_to(&mut out[..18], b"abc"), Err(Error::NoRoom));
    assert_eq!(ChunkSelectiveAck::marshal_to(&mut out, 1, 2, &[1], &[], &[]), Err(Error::TooLong));
    assert_eq!(ChunkSelectiveAck::marshal_to(&mut out, 1, 2, &[], &[], &vec![0; 16_380]), Err(Error::TooLong));
    assert_eq!(ChunkSelectiveAck::marshal_to(&mut out[..19], 1, 2, &[1], &[1], &[]), Err(Error::NoRoom));
    assert!(out.iter().all(|b| *b == 7));
    assert_eq!(fields.marshal_to(&mut out, &vec![1; 65_519]), Ok(65_535));
}

#[test]
fn p6_to_p8_gap_reports() {
    for (tsns, cumulative, blocks) in [
        ([102, 103, 105], 100, &[(2, 3), (5, 5)][..]),
        ([u32::MAX, 0, 2], u32::MAX - 1, &[(1, 2), (4, 4)]),
        ([65534, 65535, 65536], 0, &[(65534, 65535)]),
    ] {
        for turn in 0..3 {
            let mut q = PayloadQueue::new();
            for i in 0..3 {
                assert_eq!(q.push(&data(tsns[(i + turn) % 3], "B"), 1, cumulative), Ok(true));
            }
            assert_eq!(report(&q, cumulative), blocks);
            let (mut short, mut long) = ([8; 1], [8; 3]);
            let no_room = if blocks.len() > 1 { Err(Error::NoRoom) } else { Ok(1) };
            assert_eq!(q.get_gap_ack_blocks(cumulative, &mut short, &mut long), no_room);
            assert_eq!(no_room.is_ok(), short != [8; 1]);
        }
    }
}

#[test]
fn tsn_queue() {
    let mut q = PayloadQueue::default();
    let held = |tsn| ChunkPayloadData { stream_identifier: 3, immediate_sack: true, ..data(tsn, "UBE") };
    assert!(q.is_empty() && q.can_push(5, 4) && !q.can_push(4, 4) && q.get_last_tsn_received().is_none());
    assert_eq!((q.push(&held(7), 100, 4), q.push(&held(5), 20, 4)), (Ok(true), Ok(true)));
    assert_eq!((q.push(&held(7), 1, 4), q.push(&held(3), 1, 4)), (Ok(false), Ok(false)));
    assert_eq!((q.len(), q.get_num_bytes(), q.get_last_tsn_received()), (2, 120, Some(7)));
    assert!(!q.is_empty() && !q.can_push(7, 4) && q.contains_stream(3) && !q.contains_stream(7));
    assert_eq!((q.get(7), q.get(6)), (Some(Queued { chunk: held(7), size: 100 }), None));
    let log = q.pop_duplicates();
    assert_eq!((log.as_slice(), log.count, log.tsns[2..].iter().sum::<u32>()), (&[7, 3][..], 2, 0));
    assert_eq!(q.pop_duplicates().as_slice(), []);
    assert_eq!((q.pop(7), q.pop(5)), (None, Some(Queued { chunk: held(5), size: 20 })));
    q.pop_up_to(7);
    assert!(q.is_empty() && q.get_num_bytes() == 0);
    for tsn in 1..=1024 {
        assert_eq!(q.push(&held(tsn), 1, 0), Ok(true));
    }
    assert_eq!((q.push(&held(1025), 1, 0), q.push(&held(1024), 1, 0), q.len()), (Err(Error::Full), Ok(false), 1024));
    for _ in 0..70 {
        assert_eq!(q.push(&held(9), 1, 0), Ok(false));
    }
    assert_eq!(q.pop_duplicates().count, LOG);
}

#[test]
fn p9_to_p11_reassembly() {
    let mut q = ReassemblyQueue::new(0, 10);
    assert_eq!(q.push(&data(1, "UB"), &[0; 6]), Ok(false));
    assert_eq!(q.push(&data(2, "UE"), &[0; 5]), Err(Error::InboundPacketTooLarge));
    assert_eq!((q.get_num_bytes(), q.push(&data(2, "UE"), &[0; 4])), (6, Ok(true)));

    let mut q = ReassemblyQueue::new(0, 10);
    q.forward_tsn_for_ordered(4);
    let fourth = ChunkPayloadData { stream_sequence_number: 4, ..data(9, "BE") };
    assert_eq!((q.push(&fourth, &[0; 11]), q.push(&fourth, &[0; 10])), (Err(Error::InboundPacketTooLarge), Ok(false)));

    let mut q = ReassemblyQueue::new(0, 10);
    assert_eq!((q.push(&data(1, "B"), b"a"), q.push(&data(3, "E"), b"c"), q.push(&data(2, "BE"), b"b")), (Ok(false), Ok(false), Ok(true)));
    let (mut buffer, mut out) = ([9; 5], [8; 5]);
    assert!(q.is_readable());
    assert_eq!(q.read(&mut buffer[..2]), Err(Error::NoRoom));
    let m = q.read(&mut buffer).unwrap().unwrap();
    assert_eq!((m.len(), m.is_empty(), m.ssn(), m.ppi()), (3, false, 0, 0));
    assert_eq!((m.read(&mut out), &out), (Ok(3), b"abc\x08\x08"));
    assert_eq!((buffer, q.is_readable(), q.get_num_bytes()), (*b"abc\x09\x09", false, 0));
    assert_eq!(q.read(&mut buffer), Ok(None));
}

#[test]
fn p12_pieces() {
    let mut q = ReassemblyQueue::new(0, 100);
    let mut buffer = [0; 16];
    assert_eq!(q.push(&data(1, "UBE"), b"0123456789"), Ok(true));
    let mut m = q.read(&mut buffer).unwrap().unwrap();
    assert_eq!((m.next(0), m.next(4), m.next(4)), (Some(&b""[..]), Some(&b"0123"[..]), Some(&b"4567"[..])));
    assert_eq!((m.next(0), m.next(usize::MAX), m.next(4), m.next(0)), (Some(&b""[..]), Some(&b"89"[..]), None, None));
    assert_eq!(q.push(&data(2, "UBE"), b""), Ok(true));
    let mut m = q.read(&mut buffer[..0]).unwrap().unwrap();
    assert!(m.is_empty());
    assert_eq!((m.next(0), m.next(0), m.next(4)), (Some(&b""[..]), None, None));
}

#[test]
fn run_only() {
    let mut q = ReassemblyQueue::new(0, 1000);
    for tsn in 0..512 {
        assert_eq!(q.push(&data(3 * tsn, "U"), b"x"), Ok(false));
    }
    assert_eq!(q.push(&data(1999, "U"), b"x"), Err(Error::Full));
    q.forward_tsn_for_unordered(300);
    assert_eq!((q.get_num_bytes(), q.push(&data(1999, "UBE"), b"abcdef")), (411, Ok(true)));
    let (mut buffer, mut out) = ([0; 8], [7; 4]);
    let m = q.read(&mut buffer).unwrap().unwrap();
    assert_eq!((m.read(&mut out), &out), (Err(Error::ShortBuffer), b"abcd"));

    let mut q = ReassemblyQueue::new(0, 72_000);
    assert_eq!(q.push(&data(1, "UB"), &[0; 65_535]), Ok(false));
    assert_eq!((q.push(&data(2, "U"), &[0; 2]), q.push(&data(2, "U"), &[0; 1])), (Err(Error::Full), Ok(false)));
}

#[test]
fn errors_have_the_documents_numbers() {
    let numbers: Vec<i32> = Error::ALL.iter().map(|e| *e as i32).collect();
    assert_eq!(numbers, (0..=18).collect::<Vec<_>>());
    assert!(Error::ALL.iter().all(|e| !e.to_string().is_empty()));
}
