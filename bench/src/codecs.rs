//! Rows of DATA and SACK. Packets have none: nearly all of a packet's time is its checksum, for which sctp-proto has crc 3 go through 16 bytes at a time. Debian's crc is 1.8, of
//! another interface, and the stand-in, which goes through one at a time, would be no fair side of a row.
use crate::chunk::Chunk;
use crate::chunk::chunk_payload_data::ChunkPayloadData;
use crate::chunk::chunk_selective_ack::{ChunkSelectiveAck, GapAckBlock};
use crate::time::{Row, side};
use bytes::{Bytes, BytesMut};
use sctp_receive::{ChunkPayloadData as Fields, ChunkSelectiveAck as Sack};
use std::hint::black_box;

const PER: usize = 64;
const ROOM: usize = 2000;

fn data() -> (Fields, ChunkPayloadData) {
    let f = Fields {
        beginning_fragment: true,
        ending_fragment: true,
        tsn: 10,
        stream_identifier: 2,
        stream_sequence_number: 5,
        payload_type: 51,
        ..Fields::default()
    };
    let chunk = ChunkPayloadData {
        beginning_fragment: true,
        ending_fragment: true,
        tsn: 10,
        stream_identifier: 2,
        stream_sequence_number: 5,
        payload_type: 51.into(),
        user_data: (0..1000u32).map(|i| (i % 251) as u8).collect::<Vec<_>>().into(),
        ..Default::default()
    };
    (f, chunk)
}

/// The Rust reads from a `Bytes` that the packet's reader has; the chunk that it makes, with its two slices, is let go of inside. Ours gives fields and place in two calls.
fn data_read() -> Row {
    let (f, chunk) = data();
    // The chunk stands in a packet's bytes, which are counted already.
    let raw = Bytes::from([&[0; 12][..], &chunk.marshal().unwrap()].concat()).slice(12..);
    let read = ChunkPayloadData::unmarshal(&raw).unwrap();
    assert_eq!((Fields::unmarshal(&raw), Fields::user_data(&raw)), (Ok(f), Ok(&read.user_data[..])));
    let numbers = (f.tsn, f.stream_identifier, f.stream_sequence_number, f.payload_type);
    assert_eq!((read.tsn, read.stream_identifier, read.stream_sequence_number, read.payload_type as u32), numbers);
    let ours = side(raw.clone(), |_| {}, |raw| {
        for _ in 0..PER {
            let raw = black_box(&raw[..]);
            _ = black_box((Fields::unmarshal(raw), Fields::user_data(raw)));
        }
    });
    let rust = side(raw, |_| {}, |raw| (0..PER).for_each(|_| _ = black_box(ChunkPayloadData::unmarshal(black_box(raw)))));
    Row { name: "DATA of 1,000 bytes read".into(), per: PER, ours, rust }
}

/// The Rust writes into a buffer that is there already and has room, as if behind other chunks of a packet; it is emptied before each chunk, which clears no byte.
fn data_written() -> Row {
    let (f, chunk) = data();
    let mut out = vec![0; ROOM];
    let n = f.marshal_to(&mut out, &chunk.user_data).unwrap();
    assert_eq!(chunk.marshal().unwrap(), out[..n]);
    let user = chunk.user_data.clone();
    let ours = side((out, user), |_| {}, move |(out, user)| {
        for _ in 0..PER {
            _ = black_box(black_box(&f).marshal_to(out, black_box(&user[..])));
            black_box(&out);
        }
    });
    let rust = side((BytesMut::with_capacity(ROOM), chunk), |_| {}, written);
    Row { name: "DATA of 1,000 bytes written".into(), per: PER, ours, rust }
}

fn written<C: Chunk>((out, chunk): &mut (BytesMut, C)) {
    for _ in 0..PER {
        out.clear();
        black_box(black_box(&*chunk).marshal_to(out).is_ok());
        black_box(&out);
    }
}

/// 200 blocks, as a gap report has them.
fn sack() -> (Vec<u16>, Vec<u16>, ChunkSelectiveAck) {
    let starts: Vec<u16> = (0..200).map(|i| 3 * i + 2).collect();
    let ends: Vec<u16> = starts.iter().map(|start| start + 1).collect();
    let gap_ack_blocks = starts.iter().zip(&ends).map(|(&start, &end)| GapAckBlock { start, end }).collect();
    let chunk = ChunkSelectiveAck { cumulative_tsn_ack: 100, advertised_receiver_window_credit: 1500, gap_ack_blocks, duplicate_tsn: Vec::new() };
    (starts, ends, chunk)
}

/// All blocks of a chunk by look-up, as a sum that no block can be left out of.
fn looked_up(raw: &[u8]) -> (u32, usize) {
    let fields = Sack::unmarshal(raw).unwrap();
    let blocks = Sack::gap_ack_blocks(raw).unwrap();
    (fields.cumulative_tsn_ack, blocks.iter().map(|b| b.start as usize + b.end as usize).sum())
}

fn unmarshalled(raw: &Bytes) -> (u32, usize) {
    let sack = ChunkSelectiveAck::unmarshal(raw).unwrap();
    (sack.cumulative_tsn_ack, sack.gap_ack_blocks.iter().map(|b| b.start as usize + b.end as usize).sum())
}

/// Every block is looked at: ours by one call each, the Rust's from the vector that its reader makes, which is let go of inside.
fn sack_read() -> Row {
    let (starts, ends, chunk) = sack();
    let raw = Bytes::from([&[0; 12][..], &chunk.marshal().unwrap()].concat()).slice(12..);
    assert_eq!(looked_up(&raw), unmarshalled(&raw));
    let blocks = Sack::gap_ack_blocks(&raw).unwrap();
    assert_eq!(blocks.iter().map(|b| (b.start, b.end)).collect::<Vec<_>>(), starts.into_iter().zip(ends).collect::<Vec<_>>());
    let ours = side(raw.clone(), |_| {}, |raw| (0..PER).for_each(|_| _ = black_box(looked_up(black_box(&raw[..])))));
    let rust = side(raw, |_| {}, |raw| (0..PER).for_each(|_| _ = black_box(unmarshalled(black_box(raw)))));
    Row { name: "SACK of 200 blocks read, every block looked at".into(), per: PER, ours, rust }
}

/// The lists come from a gap report, so both sides have theirs. The Rust's buffer as in `data_written`.
fn sack_written() -> Row {
    let (starts, ends, chunk) = sack();
    let mut out = vec![0; ROOM];
    let n = Sack::marshal_to(&mut out, 100, 1500, &starts, &ends, &[]).unwrap();
    assert_eq!(chunk.marshal().unwrap(), out[..n]);
    let ours = side((out, starts, ends), |_| {}, |(out, starts, ends)| {
        for _ in 0..PER {
            _ = black_box(Sack::marshal_to(out, 100, 1500, black_box(&starts[..]), black_box(&ends[..]), &[]));
            black_box(&out);
        }
    });
    let rust = side((BytesMut::with_capacity(ROOM), chunk), |_| {}, written);
    Row { name: "SACK of 200 blocks written".into(), per: PER, ours, rust }
}

pub fn rows(rows: &mut Vec<Row>) {
    rows.extend([data_read(), data_written(), sack_read(), sack_written()]);
}
