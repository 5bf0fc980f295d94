//! Document 02's FORWARD TSN, through the archive: read, written, applied, and each refusal beside the case that is let in.
use sctp_receive::*;

/// Up to TSN 100; stream 3 up to SSN 7, stream 0 up to SSN 65,535.
const CHUNK: [u8; 16] = [192, 0, 0, 16, 0, 0, 0, 100, 0, 3, 0, 7, 0, 0, 0xFF, 0xFF];

fn data(tsn: u32, ssn: u16, flags: &str) -> ChunkPayloadData {
    ChunkPayloadData {
        unordered: flags.contains('U'),
        beginning_fragment: flags.contains('B'),
        ending_fragment: flags.contains('E'),
        tsn,
        stream_identifier: 3,
        stream_sequence_number: ssn,
        ..ChunkPayloadData::default()
    }
}

#[test]
fn read_and_written() {
    let mut out = [9; 18];
    assert_eq!(ChunkForwardTsn::marshal_to(&mut out, 100, &[3, 0], &[7, 65_535]), Ok(16));
    assert_eq!((&out[..16], &out[16..]), (&CHUNK[..], &[9, 9][..]));
    out[1] = 0xFF; // flags are ignored, and so are bytes past the length
    assert_eq!(ChunkForwardTsn::unmarshal(&out), Ok(ChunkForwardTsn { new_cumulative_tsn: 100, streams: 2 }));
    let pairs = ChunkForwardTsn::streams(&out).unwrap();
    assert_eq!((pairs.0.as_ptr(), pairs.0.len()), (out[8..].as_ptr(), 8));
    assert_eq!(pairs.iter().map(|p| (p.identifier, p.sequence)).collect::<Vec<_>>(), [(3, 7), (0, 65_535)]);
    assert_eq!((pairs.at(2), pairs.at(usize::MAX)), (Err(Error::PastTheList), Err(Error::PastTheList)));
}

#[test]
fn what_readers_refuse() {
    for (length, kind, lent, wanted) in [
        (16, 192, 3, Err(Error::NoHeader)),
        (3, 192, 16, Err(Error::BadLength)),
        (17, 192, 16, Err(Error::BadLength)),
        (4, 193, 16, Err(Error::ChunkTypeNotAskedFor)),
        (4, 192, 16, Err(Error::ChunkTooShort)),
        (7, 192, 16, Err(Error::ChunkTooShort)),
        (8, 192, 8, Ok(0)),
        (9, 192, 16, Err(Error::ChunkTooShort)),
        (14, 192, 16, Err(Error::ChunkTooShort)),
        (12, 192, 16, Ok(1)),
        (16, 192, 16, Ok(2)),
    ] {
        let mut raw = CHUNK;
        (raw[0], raw[3]) = (kind, length);
        assert_eq!(ChunkForwardTsn::unmarshal(&raw[..lent]).map(|f| f.streams), wanted, "length {length}");
        assert_eq!(ChunkForwardTsn::streams(&raw[..lent]).map(|p| p.0.len()), wanted.map(|n| 4 * usize::from(n)), "length {length}");
    }
}

#[test]
fn what_the_writer_refuses() {
    let (mut out, many) = (vec![7; 65_536], vec![5; 16_382]);
    assert_eq!(ChunkForwardTsn::marshal_to(&mut out, 1, &many, &many), Err(Error::TooLong));
    assert_eq!(ChunkForwardTsn::marshal_to(&mut out, 1, &[1], &[]), Err(Error::TooLong));
    assert_eq!(ChunkForwardTsn::marshal_to(&mut out[..11], 1, &[1], &[1]), Err(Error::NoRoom));
    assert!(out.iter().all(|b| *b == 7));
    assert_eq!(ChunkForwardTsn::marshal_to(&mut out, 1, &many[1..], &many[1..]), Ok(65_532));
    assert_eq!(ChunkForwardTsn::unmarshal(&out), Ok(ChunkForwardTsn { new_cumulative_tsn: 1, streams: 16_381 }));
}

#[test]
fn applied_to_a_stream() {
    let mut q = ReassemblyQueue::new(3, 100);
    for chunk in [data(90, 6, "B"), data(95, 8, "B"), data(96, 7, "BE"), data(99, 0, "UB"), data(103, 0, "UB")] {
        assert_eq!(q.push(&chunk, b"abc"), Ok(chunk.ending_fragment));
    }
    let pairs = ChunkForwardTsn::streams(&CHUNK).unwrap();
    q.apply_forward_tsn(100, 100, pairs); // an old point changes nothing
    q.apply_forward_tsn(101, 100, pairs);
    assert_eq!(q.get_num_bytes(), 15);
    q.apply_forward_tsn(99, 100, ForwardTsnStreams(&CHUNK[12..])); // no pair names the stream: the unordered skip alone
    assert_eq!(q.get_num_bytes(), 12);
    q.apply_forward_tsn(99, 100, pairs); // the incomplete set 6 goes, the complete set 7 stays
    assert_eq!((q.get_num_bytes(), q.is_readable()), (9, true));
    assert_eq!(q.read(&mut [0; 4]).unwrap().unwrap().ssn(), 7);
    assert_eq!(q.push(&data(97, 8, "E"), b"d"), Ok(false)); // 96 is missing in set 8
    assert_eq!((q.push(&data(96, 8, ""), b""), q.is_readable()), (Ok(true), true)); // and 8 is expected
}

#[test]
fn applied_to_the_tsn_queue() {
    let mut q = PayloadQueue::new();
    for tsn in [98, 100, 101] {
        assert_eq!(q.push(&data(tsn, 0, "B"), 10, 96), Ok(true));
    }
    assert_eq!(q.push(&data(100, 0, "B"), 10, 96), Ok(false));
    q.apply_forward_tsn(100, 100);
    q.apply_forward_tsn(101, 100);
    assert_eq!((q.len(), q.get_num_bytes()), (3, 30));
    q.apply_forward_tsn(96, 100);
    assert_eq!((q.len(), q.get_num_bytes(), q.get_last_tsn_received()), (1, 10, Some(101)));
    assert_eq!(q.pop_duplicates().as_slice(), [100]); // the log stays
}

#[test]
fn held_over_a_stream_reset() {
    let mut q = ReassemblyQueue::new(3, 1_000);
    // SSN 0 lacks TSN 11, SSN 1 is complete up to TSN 14, SSN 2 lacks TSN 16
    for (tsn, ssn, flags) in [(10, 0, "B"), (12, 0, "E"), (13, 1, "B"), (14, 1, "E"), (15, 2, "B")] {
        assert_eq!(q.push(&data(tsn, ssn, flags), b"ab"), Ok(tsn == 14));
    }
    // SSN 2 is held with a TSN up to 15; with 14 the sets that may end a part are those up to SSN 1; with 9 and a point at 10 there is none
    let applies = |q: &ReassemblyQueue, point, peer| q.applicable_forward_tsn_for_ordered_bounded(2, point, peer);
    assert_eq!([applies(&q, 10, 15), applies(&q, 10, 14), applies(&q, 10, 9), applies(&q, 11, 9)], [Some(2), Some(1), None, Some(0)]);
    assert_eq!(applies(&q, 16, 9), Some(2));
    // the point 13 reaches SSN 0 and not SSN 1, whose last TSN is 14
    q.forward_tsn_for_ordered_bounded(2, 13);
    assert_eq!((q.get_num_bytes(), q.is_readable()), (6, true));
    q.forward_tsn_for_ordered_bounded(2, 15);
    assert_eq!(q.get_num_bytes(), 6);
    q.forward_tsn_for_ordered_bounded(2, 16);
    assert_eq!((q.get_num_bytes(), q.is_readable()), (4, true));
    assert_eq!(applies(&q, 0, 0), Some(2));
}
