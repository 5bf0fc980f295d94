//! Rows of the TSN queue.
use crate::chunk::chunk_payload_data::ChunkPayloadData;
use crate::queue::payload_queue::PayloadQueue;
use crate::time::{Row, side};
use bytes::Bytes;
use sctp_receive::{ChunkPayloadData as Fields, PayloadQueue as TsnQueue, Queued, TSNS};
use std::hint::black_box;

/// Data bytes of each chunk: the Rust holds a slice of a packet, ours its length.
const SIZE: u16 = 1000;
/// The cumulative TSN where it does not move.
const CUMULATIVE: u32 = 1000;
/// Calls of one timed piece of work, where each is short.
const PER: usize = 64;

fn fields(tsn: u32) -> Fields {
    Fields { beginning_fragment: true, ending_fragment: true, tsn, stream_identifier: 2, payload_type: 53, ..Fields::default() }
}

fn packet() -> Bytes {
    Bytes::from(vec![7; SIZE as usize + 28])
}

/// The chunk of these fields, its data a slice of a packet.
fn chunk(f: &Fields, packet: &Bytes) -> ChunkPayloadData {
    ChunkPayloadData {
        beginning_fragment: f.beginning_fragment,
        ending_fragment: f.ending_fragment,
        tsn: f.tsn,
        stream_identifier: f.stream_identifier,
        payload_type: f.payload_type.into(),
        user_data: packet.slice(28..),
        ..Default::default()
    }
}

/// Both queues with these TSNs held.
struct Pair {
    ours: TsnQueue,
    rust: PayloadQueue,
    packet: Bytes,
}

fn held(tsns: impl Iterator<Item = u32>, cumulative: u32) -> Pair {
    let mut pair = Pair { ours: TsnQueue::new(), rust: PayloadQueue::new(), packet: packet() };
    for f in tsns.map(fields) {
        let pushed = (pair.ours.push(&f, SIZE, cumulative), pair.rust.push(chunk(&f, &pair.packet), cumulative));
        assert_eq!(pushed, (Ok(true), true));
    }
    pair
}

/// Ours and the Rust's report, the Rust's as two lists.
fn reports(pair: &Pair, cumulative: u32) -> [(Vec<u16>, Vec<u16>); 2] {
    let (mut starts, mut ends) = (vec![0; TSNS], vec![0; TSNS]);
    let n = pair.ours.get_gap_ack_blocks(cumulative, &mut starts, &mut ends).expect("room");
    starts.truncate(n);
    ends.truncate(n);
    [(starts, ends), pair.rust.get_gap_ack_blocks(cumulative).iter().map(|b| (b.start, b.end)).unzip()]
}

fn same(pair: &Pair, cumulative: u32) {
    let [ours, rust] = reports(pair, cumulative);
    assert_eq!(ours, rust);
}

/// Ours writes to two lists that a caller has; the Rust's vector is made and let go of inside, as a sender of SACKs does.
pub fn report(name: String, n: u32, step: u32) -> Row {
    let pair = held((1..=n).map(|i| CUMULATIVE + step * i), CUMULATIVE);
    same(&pair, CUMULATIVE);
    let ours = side(
        (pair.ours, [0; TSNS], [0; TSNS]),
        |_| {},
        |(q, starts, ends)| {
            for _ in 0..PER {
                _ = black_box(black_box(&*q).get_gap_ack_blocks(black_box(CUMULATIVE), starts, ends));
                black_box((&starts, &ends));
            }
        },
    );
    let rust = side(
        pair.rust,
        |_| {},
        |q| {
            for _ in 0..PER {
                black_box(black_box(&*q).get_gap_ack_blocks(black_box(CUMULATIVE)));
            }
        },
    );
    Row { name, per: PER, ours, rust }
}

/// The fields of the next calls, and where they go on from.
struct Coming {
    fields: Vec<Fields>,
    next: u32,
}

impl Coming {
    fn ready(&mut self) {
        self.fields.clear();
        self.fields.extend((0..PER as u32).map(|i| fields(self.next.wrapping_add(i))));
        self.next = self.next.wrapping_add(PER as u32);
    }
}

/// The Rust's chunk, as ours would give it.
fn popped(chunk: ChunkPayloadData) -> Queued {
    let f = Fields {
        unordered: chunk.unordered,
        beginning_fragment: chunk.beginning_fragment,
        ending_fragment: chunk.ending_fragment,
        immediate_sack: chunk.immediate_sack,
        tsn: chunk.tsn,
        stream_identifier: chunk.stream_identifier,
        stream_sequence_number: chunk.stream_sequence_number,
        payload_type: chunk.payload_type as u32,
    };
    Queued { chunk: f, size: chunk.user_data.len() as u16 }
}

/// A chunk is pushed behind `n` others, and the first one popped. The Rust's chunks are made outside, moved in, and let go of inside once they are popped.
pub fn push_pop(name: String, n: u32) -> Row {
    let mut pair = held(1..=n, 0);
    for i in 1..=300 {
        let f = fields(n + i);
        assert!(pair.ours.push(&f, SIZE, i - 1) == Ok(true) && pair.rust.push(chunk(&f, &pair.packet), i - 1));
        same(&pair, i - 1);
        let first = pair.ours.pop(i);
        assert!(first.is_some() && first == pair.rust.pop(i).map(popped));
    }
    let coming = || Coming { fields: Vec::new(), next: n + 301 };
    let ours = side(
        (pair.ours, coming()),
        |(_, coming)| coming.ready(),
        move |(q, coming)| {
            for f in &coming.fields {
                let first = f.tsn.wrapping_sub(n);
                _ = black_box(q.push(black_box(f), SIZE, first.wrapping_sub(1)));
                black_box(q.pop(first));
            }
        },
    );
    let packet = pair.packet;
    let rust = side(
        (pair.rust, coming(), Vec::new()),
        move |(_, coming, chunks)| {
            coming.ready();
            chunks.extend(coming.fields.iter().map(|f| chunk(f, &packet)));
        },
        move |(q, _, chunks)| {
            for chunk in chunks.drain(..) {
                let first = chunk.tsn.wrapping_sub(n);
                black_box(q.push(black_box(chunk), first.wrapping_sub(1)));
                black_box(q.pop(first));
            }
        },
    );
    Row { name, per: PER, ours, rust }
}

/// A chunk is pushed ahead of 255 others, and popped. The Rust's chunks are made outside.
fn push_front() -> Row {
    let front = CUMULATIVE + 1;
    let mut pair = held((1..256).map(|i| front + i), CUMULATIVE);
    let f = fields(front);
    assert!(pair.ours.push(&f, SIZE, CUMULATIVE) == Ok(true) && pair.rust.push(chunk(&f, &pair.packet), CUMULATIVE));
    same(&pair, CUMULATIVE);
    assert_eq!(pair.ours.pop(front), pair.rust.pop(front).map(popped));
    same(&pair, CUMULATIVE);
    let ours = side(
        pair.ours,
        |_| {},
        move |q| {
            for _ in 0..PER {
                _ = black_box(q.push(black_box(&f), SIZE, CUMULATIVE));
                black_box(q.pop(front));
            }
        },
    );
    let packet = pair.packet;
    let rust = side(
        (pair.rust, Vec::new()),
        move |(_, chunks)| chunks.extend((0..PER).map(|_| chunk(&f, &packet))),
        move |(q, chunks)| {
            for chunk in chunks.drain(..) {
                black_box(q.push(black_box(chunk), CUMULATIVE));
                black_box(q.pop(front));
            }
        },
    );
    Row { name: "push at the front, pop it: 255 held".into(), per: PER, ours, rust }
}

/// 64 held TSNs are pushed again, and the log is popped. The Rust's chunks are made outside, and let go of by its push; its log is a vector of its own.
fn duplicates() -> Row {
    const N: u32 = 128;
    let again = |i: usize| fields(CUMULATIVE + 1 + 2 * i as u32);
    let mut pair = held((1..=N).map(|i| CUMULATIVE + i), CUMULATIVE);
    for f in (0..64).map(again) {
        assert!(pair.ours.push(&f, SIZE, CUMULATIVE) == Ok(false) && !pair.rust.push(chunk(&f, &pair.packet), CUMULATIVE));
    }
    assert_eq!(pair.rust.pop_duplicates(), pair.ours.pop_duplicates().as_slice());
    same(&pair, CUMULATIVE);
    let coming: Vec<_> = (0..64).map(again).collect();
    let packet = pair.packet;
    let ours = side(
        (pair.ours, coming.clone()),
        |_| {},
        |(q, coming)| {
            for f in coming {
                _ = black_box(q.push(black_box(f), SIZE, CUMULATIVE));
            }
            black_box(q.pop_duplicates());
        },
    );
    let rust = side(
        (pair.rust, Vec::new()),
        move |(_, chunks)| chunks.extend(coming.iter().map(|f| chunk(f, &packet))),
        |(q, chunks)| {
            for chunk in chunks.drain(..) {
                black_box(q.push(black_box(chunk), CUMULATIVE));
            }
            black_box(q.pop_duplicates());
        },
    );
    Row { name: "64 duplicates pushed, log popped: 128 held".into(), per: 1, ours, rust }
}

/// Half of 256 TSNs is dropped from each of four queues, which are filled outside.
fn pop_up_to() -> Row {
    const N: u32 = 256;
    const QUEUES: usize = 4;
    const TO: u32 = CUMULATIVE + N / 2;
    let full = || held((1..=N).map(|i| CUMULATIVE + i), CUMULATIVE);
    let mut pair = full();
    pair.ours.pop_up_to(TO);
    pair.rust.pop_up_to(TO);
    same(&pair, CUMULATIVE);
    let ours = side(
        Vec::new(),
        move |queues| {
            queues.clear();
            queues.extend((0..QUEUES).map(|_| full().ours));
        },
        |queues| queues.iter_mut().for_each(|q| q.pop_up_to(black_box(TO))),
    );
    let rust = side(
        Vec::new(),
        move |queues| {
            queues.clear();
            queues.extend((0..QUEUES).map(|_| full().rust));
        },
        |queues: &mut Vec<PayloadQueue>| queues.iter_mut().for_each(|q| q.pop_up_to(black_box(TO))),
    );
    Row { name: "pop_up_to half of 256".into(), per: QUEUES, ours, rust }
}

pub fn rows(rows: &mut Vec<Row>) {
    rows.push(report("gap report: 256 adjacent".into(), 256, 1));
    rows.push(report("gap report: 256, every second missing".into(), 256, 2));
    rows.push(report("gap report: 1,024 adjacent".into(), 1024, 1));
    rows.push(report("gap report: 1,024, every second missing".into(), 1024, 2));
    for n in [3, 128, 255, 1000] {
        rows.push(push_pop(format!("push at the end, pop the first: {n} held"), n));
    }
    rows.push(push_front());
    rows.push(duplicates());
    rows.push(pop_up_to());
}
