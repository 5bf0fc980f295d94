//! Rows of reassembly. Ours takes a message right into the caller's buffer; the Rust hands out its chunks and `Chunks::read` copies them there, so both end with
//! the same bytes in the same place. The Rust's chunks are made outside and moved in; its vectors and reference counts are let go of inside, with the message.
use crate::chunk::chunk_payload_data::ChunkPayloadData;
use crate::queue::reassembly_queue::ReassemblyQueue;
use crate::time::{Row, side};
use bytes::Bytes;
use sctp_receive::{ChunkPayloadData as Fields, ReassemblyQueue as Reassembly};
use std::hint::black_box;

const STREAM: u16 = 2;
const MOST: u32 = 65_536;
const BUFFER: usize = 72_000;

/// How one message arrives: which fragments, in which order.
#[derive(Clone)]
struct Plan {
    unordered: bool,
    size: usize,
    /// Of how many fragments the message is, and their places in order of arrival.
    order: Vec<u32>,
}

impl Plan {
    fn single(size: usize) -> Plan {
        Plan { unordered: false, size, order: vec![0] }
    }

    /// The fragments of the message with this number.
    fn fields(&self, number: u32) -> impl Iterator<Item = Fields> {
        let n = self.order.len() as u32;
        self.order.iter().map(move |&place| Fields {
            unordered: self.unordered,
            beginning_fragment: place == 0,
            ending_fragment: place == n - 1,
            tsn: (number.wrapping_mul(n)).wrapping_add(place),
            stream_identifier: STREAM,
            stream_sequence_number: number as u16,
            payload_type: 53,
            ..Fields::default()
        })
    }
}

/// Bytes that differ from place to place, so that a fragment out of its place shows.
fn packet() -> Bytes {
    (0..1600u32).map(|i| (i * 7 % 251) as u8).collect::<Vec<_>>().into()
}

/// Where a fragment's data stand in the packet: a place that depends on its TSN.
fn place(f: &Fields, size: usize) -> std::ops::Range<usize> {
    let start = f.tsn as usize % 100;
    start..start + size
}

fn chunk(f: &Fields, packet: &Bytes, size: usize) -> ChunkPayloadData {
    ChunkPayloadData {
        unordered: f.unordered,
        beginning_fragment: f.beginning_fragment,
        ending_fragment: f.ending_fragment,
        tsn: f.tsn,
        stream_identifier: f.stream_identifier,
        stream_sequence_number: f.stream_sequence_number,
        payload_type: f.payload_type.into(),
        user_data: packet.slice(place(f, size)),
        ..Default::default()
    }
}

/// SSN, payload identifier and size of a message.
type Told = (u16, u32, usize);

/// Both queues, what a caller lends, and which message comes next.
struct Ours {
    queue: Reassembly,
    packet: Bytes,
    coming: Vec<Fields>,
    next: u32,
    buffer: Vec<u8>,
}

struct Rust {
    queue: ReassemblyQueue,
    packet: Bytes,
    coming: Vec<ChunkPayloadData>,
    next: u32,
    buffer: Vec<u8>,
}

impl Ours {
    fn new() -> Self {
        Ours { queue: Reassembly::new(STREAM, MOST), packet: packet(), coming: Vec::new(), next: 0, buffer: vec![0; BUFFER] }
    }

    fn ready(&mut self, plan: &Plan, messages: u32) {
        self.coming.clear();
        for _ in 0..messages {
            self.coming.extend(plan.fields(self.next));
            self.next = self.next.wrapping_add(1);
        }
    }

    /// Pushes what is coming, from its place in the packet.
    fn push(&mut self, i: usize, size: usize) -> bool {
        let f = black_box(&self.coming[i]);
        black_box(self.queue.push(f, &self.packet[place(f, size)])).expect("no refusal")
    }

    /// Takes the next message to the front of the buffer, if there is one.
    fn take(&mut self) -> bool {
        let found = black_box(self.queue.read(&mut self.buffer)).expect("room").is_some();
        black_box(&self.buffer);
        found
    }

    /// The same, and what it is.
    fn told(&mut self) -> Option<Told> {
        let message = self.queue.read(&mut self.buffer).expect("room")?;
        Some((message.ssn(), message.ppi(), message.len()))
    }
}

impl Rust {
    fn new() -> Self {
        Rust { queue: ReassemblyQueue::new(STREAM, MOST), packet: packet(), coming: Vec::new(), next: 0, buffer: vec![0; BUFFER] }
    }

    fn ready(&mut self, plan: &Plan, messages: u32) {
        for _ in 0..messages {
            self.coming.extend(plan.fields(self.next).map(|f| chunk(&f, &self.packet, plan.size)));
            self.next = self.next.wrapping_add(1);
        }
    }

    fn take(&mut self) -> bool {
        let message = black_box(self.queue.read());
        let found = message.is_some_and(|message| message.read(&mut self.buffer).is_ok());
        black_box(&self.buffer);
        found
    }

    fn told(&mut self) -> Option<Told> {
        let message = self.queue.read()?;
        Some((message.ssn, message.ppi as u32, message.read(&mut self.buffer).expect("room")))
    }
}

/// Both take a message, and it is the same one.
fn same_taken(ours: &mut Ours, rust: &mut Rust) {
    let told = ours.told();
    assert!(told.is_some());
    assert_eq!(told, rust.told());
    assert_eq!(ours.buffer, rust.buffer);
}

/// Both sides do `messages` of the plan, each pushed and taken, and must give the same answers and bytes.
fn same(plan: &Plan, messages: u32) {
    let (mut ours, mut rust) = (Ours::new(), Rust::new());
    ours.ready(plan, messages);
    rust.ready(plan, messages);
    let n = plan.order.len();
    for (i, chunk) in std::mem::take(&mut rust.coming).into_iter().enumerate() {
        let done = ours.push(i, plan.size);
        assert_eq!(rust.queue.push(chunk), Ok(done));
        assert_eq!(done, i % n == n - 1);
        if done {
            same_taken(&mut ours, &mut rust);
        }
    }
}

/// Messages of a plan, each pushed fragment by fragment, taken and copied.
fn arrivals(name: String, plan: Plan, messages: u32) -> Row {
    same(&plan, 70);
    let n = plan.order.len();
    let plans = [plan.clone(), plan.clone()];
    let [of_ours, of_rust] = plans;
    let ours = side(
        Ours::new(),
        move |s| s.ready(&of_ours, messages),
        move |s| {
            for i in 0..s.coming.len() {
                s.push(i, plan.size);
                if i % n == n - 1 {
                    s.take();
                }
            }
        },
    );
    let rust = side(
        Rust::new(),
        move |s| s.ready(&of_rust, messages),
        move |s| {
            let mut coming = std::mem::take(&mut s.coming);
            for (i, chunk) in coming.drain(..).enumerate() {
                black_box(s.queue.push(black_box(chunk)).is_ok());
                if i % n == n - 1 {
                    s.take();
                }
            }
            s.coming = coming;
        },
    );
    Row { name, per: messages as usize, ours, rust }
}

/// Fills both queues with `messages` of the plan.
fn fill(plan: &Plan, messages: u32, ours: &mut Ours, rust: &mut Rust) {
    ours.ready(plan, messages);
    rust.ready(plan, messages);
    for (i, chunk) in rust.coming.drain(..).enumerate() {
        assert_eq!(rust.queue.push(chunk), Ok(ours.push(i, plan.size)));
    }
}

/// A queue that holds `messages` of the plan, filled outside, is emptied take by take.
fn drained(name: String, plan: Plan, messages: u32) -> Row {
    let (mut ours, mut rust) = (Ours::new(), Rust::new());
    fill(&plan, messages, &mut ours, &mut rust);
    for _ in 0..messages {
        same_taken(&mut ours, &mut rust);
    }
    assert_eq!((ours.told(), rust.told()), (None, None));
    let [of_ours, of_rust] = [plan.clone(), plan];
    let ours = side(
        ours,
        move |s| {
            s.ready(&of_ours, messages);
            (0..s.coming.len()).for_each(|i| assert!(s.push(i, of_ours.size) | (messages == 1)));
        },
        |s| while s.take() {},
    );
    let rust = side(
        rust,
        move |s| {
            s.ready(&of_rust, messages);
            s.coming.drain(..).for_each(|chunk| assert!(s.queue.push(chunk).is_ok()));
        },
        |s| while s.take() {},
    );
    Row { name, per: 1, ours, rust }
}

/// One message of 125 bytes is pushed behind `n - 1` others, and the first one taken and copied.
pub fn push_take(name: String, n: u32) -> Row {
    const PER: u32 = 64;
    const SIZE: usize = 125;
    let plan = Plan::single(SIZE);
    let (mut ours, mut rust) = (Ours::new(), Rust::new());
    fill(&plan, n - 1, &mut ours, &mut rust);
    for _ in 0..600 {
        fill(&plan, 1, &mut ours, &mut rust);
        same_taken(&mut ours, &mut rust);
    }
    let [of_ours, of_rust] = [plan.clone(), plan];
    let ours = side(
        ours,
        move |s| s.ready(&of_ours, PER),
        |s| {
            for i in 0..s.coming.len() {
                s.push(i, SIZE);
                s.take();
            }
        },
    );
    let rust = side(
        rust,
        move |s| s.ready(&of_rust, PER),
        |s| {
            let mut coming = std::mem::take(&mut s.coming);
            for chunk in coming.drain(..) {
                black_box(s.queue.push(black_box(chunk)).is_ok());
                s.take();
            }
            s.coming = coming;
        },
    );
    Row { name, per: PER as usize, ours, rust }
}

/// The numbers below n in an order that looks random, always the same one.
fn shuffled(n: u32) -> Vec<u32> {
    let mut order: Vec<u32> = (0..n).collect();
    let mut x = 1u32;
    for i in (1..order.len()).rev() {
        x = x.wrapping_mul(1_664_525).wrapping_add(1_013_904_223);
        order.swap(i, x as usize / 65_536 % (i + 1));
    }
    order
}

pub fn rows(rows: &mut Vec<Row>) {
    for size in [100, 1000, 1400] {
        rows.push(arrivals(format!("ordered chunk of {size} bytes: pushed, taken, copied"), Plan::single(size), 64));
    }
    for unordered in [false, true] {
        for (how, order) in [("in order", (0..64).collect()), ("in reverse", (0..64).rev().collect()), ("shuffled", shuffled(64))] {
            let kind = if unordered { "unordered" } else { "ordered" };
            rows.push(arrivals(format!("64 fragments of 500 bytes, {kind}, {how}: pushed, taken, copied"), Plan { unordered, size: 500, order }, 1));
        }
    }
    let whole = |n, size| Plan { unordered: false, size, order: (0..n).collect() };
    rows.push(drained("one message of 128 fragments of 256 bytes: taken, copied".into(), whole(128, 256), 1));
    rows.push(drained("128 messages of 256 bytes: all taken, copied".into(), Plan::single(256), 128));
    rows.push(drained("full pool, one message of 512 fragments: taken, copied".into(), whole(512, 128), 1));
    rows.push(drained("full pool, 512 messages of 128 bytes: all taken, copied".into(), Plan::single(128), 512));
}
