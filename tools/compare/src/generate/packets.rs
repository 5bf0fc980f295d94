//! Packets that are good, packets that are damaged, with their checksum put right or not; places in them and outside; chunks to be written.
use super::Maker;
use super::codec::{entries, fields, room, shorts, words};
use crate::domain::packets::parted;
use crate::model::fault::Wrong;
use crate::model::{codec, forward, packets};
use crate::rng::Rng;
use calls::{BYTES_MOST, Call};

pub fn run(m: &mut Maker) {
    for _ in 0..m.rng.within(5, 25) {
        match m.rng.below(12) {
            0 => sum(m),
            1..9 => read(m),
            _ => write(m),
        }
    }
}

/// A call that is inside, or that a difference explains.
pub fn put(m: &mut Maker, call: Call) {
    if parted(&call).is_some() { m.put(call) } else { _ = m.call(call) }
}

/// Mostly short; about 64 bytes, and seldom long.
fn sum(m: &mut Maker) {
    let rng = &mut m.rng;
    let n = match rng.below(400) {
        0 => rng.within(65_500, BYTES_MOST as u64),
        1..20 => rng.within(100, 1_600),
        20..150 => rng.within(56, 72),
        _ => rng.below(30),
    };
    let one = rng.byte();
    let raw = (0..n).map(|_| if one < 64 { one } else { rng.byte() }).collect();
    m.call(Call::Crc32c { raw });
}

/// A chunk that the Rust reads too; outside the domain, and now and then inside, one of any type.
fn chunk(m: &mut Maker) -> Vec<u8> {
    let fields = fields(m);
    let any = m.wild(3) || m.rng.one_in(40);
    let rng = &mut m.rng;
    let bytes = |rng: &mut Rng, most| (0..rng.below(most)).map(|_| rng.byte()).collect::<Vec<u8>>();
    match rng.below(8) {
        _ if any => codec::chunk(rng.byte(), rng.byte(), &bytes(rng, 14)),
        0..2 => codec::data_chunk(&fields, &bytes(rng, 14)),
        2 => {
            let (n, x) = (entries(rng), entries(rng));
            codec::sack_chunk(rng.number() as u32, rng.number() as u32, &shorts(rng, n), &shorts(rng, n), &words(rng, x))
        }
        3 => {
            let n = entries(rng);
            forward::forward_chunk(rng.number() as u32, &shorts(rng, n), &shorts(rng, n))
        }
        4 => codec::chunk(11, 0, &[]),
        _ => codec::chunk(10, 0, &bytes(rng, 14)),
    }
}

fn chunks(m: &mut Maker) -> Vec<Vec<u8>> {
    let n = if m.rng.one_in(300) { m.rng.within(30, 400) } else { m.rng.pick(&[0, 1, 1, 2, 2, 3, 4, 6]) };
    (0..n).map(|_| chunk(m)).collect()
}

/// The chunks with their padding, which is 0 behind the last one; a fault in the packet's layout now and then.
fn body(m: &mut Maker) -> Vec<u8> {
    let chunks = chunks(m);
    let mut body = Vec::new();
    for (i, chunk) in chunks.iter().enumerate() {
        body.extend(chunk);
        let filler = if i + 1 < chunks.len() && m.rng.one_in(3) { m.rng.byte() } else { 0 };
        body.resize(body.len().next_multiple_of(4), filler);
    }
    if m.rng.one_in(12) {
        // Without the padding of the last chunk, or with some of it.
        let (last, over) = (chunks.last().map_or(0, Vec::len), m.rng.below(3) as usize);
        let end = body.len() - last.next_multiple_of(4) + (last + over).min(last.next_multiple_of(4));
        body.truncate(end);
    }
    if m.wild(4) || m.rng.one_in(60) {
        fault(&mut m.rng, &mut body);
    }
    body
}

/// Bytes behind the last chunk, a cut, a length beside itself, or a byte changed.
fn fault(rng: &mut Rng, body: &mut Vec<u8>) {
    let n = body.len();
    match rng.below(4) {
        0 => body.extend((0..rng.within(1, 5)).map(|_| rng.byte())),
        1 => body.truncate(rng.below(n as u64 + 1) as usize),
        2 if n >= 4 => {
            let low = 4 * rng.below(n as u64 / 4) as usize + 3;
            body[low] = rng.pick(&[0, 1, 2, 3, 4, 5, body[low].wrapping_add(1), body[low].wrapping_sub(1)]);
        }
        _ if n > 0 => body[rng.below(n as u64) as usize] = rng.byte(),
        _ => {}
    }
}

/// A packet whose checksum is right; some that are cut, some with another checksum, some that are no packets.
fn packet(m: &mut Maker) -> Vec<u8> {
    let body = body(m);
    let rng = &mut m.rng;
    let (source, destination, tag) = (rng.number() as u16, rng.number() as u16, rng.number() as u32);
    let mut raw = packets::packet(source, destination, tag, &body, Wrong::default());
    match rng.below(16) {
        0 => raw.truncate(rng.below(raw.len() as u64) as usize),
        1 => raw.truncate(rng.within(10, 13) as usize),
        2 => raw[8..12].reverse(),
        3 => {
            let at = if rng.one_in(2) { 8 + rng.below(4) } else { rng.below(raw.len() as u64) };
            let other = rng.byte() | 1;
            raw[at as usize] ^= rng.pick(&[1, 128, other]);
        }
        4 => raw = (0..rng.below(40)).map(|_| rng.byte()).collect(),
        _ => {}
    }
    raw.truncate(BYTES_MOST);
    raw
}

/// One to three calls on the same bytes.
fn read(m: &mut Maker) {
    let raw = packet(m);
    for _ in 0..m.rng.within(1, 3) {
        let place = place(&mut m.rng, &raw);
        let raw = raw.clone();
        let call = match m.rng.below(5) {
            0 => Call::Packet { raw },
            1 => Call::PacketChunk { raw, place },
            2 => Call::PacketBytes { raw, place },
            3 => Call::PacketWalk { raw },
            _ => Call::Crc32c { raw },
        };
        put(m, call);
    }
}

/// Mostly where a chunk stands; beside it, at the first place and at the end, and far away.
fn place(rng: &mut Rng, raw: &[u8]) -> u64 {
    let (chunks, last, _) = packets::walk(raw, Wrong::default());
    let some = if chunks.is_empty() { last } else { chunks[rng.below(chunks.len() as u64) as usize].0 } as u64;
    let (end, far) = (raw.len() as u64, rng.number());
    let beside = some.wrapping_add(rng.below(5)).wrapping_sub(2);
    rng.pick(&[some, some, some, some, beside, beside, last as u64, end, end + 1, end.wrapping_sub(1 + far % 4), 12, 11, far % 12, 0, far, u64::MAX, (1 << 32) + some])
}

/// Chunks back to back; now and then one that is bad.
fn write(m: &mut Maker) {
    let mut chunks = chunks(m).concat();
    if m.wild(3) {
        fault(&mut m.rng, &mut chunks);
    }
    chunks.truncate(BYTES_MOST);
    let bytes = packets::padded(&chunks, Wrong::default()).map_or(chunks.len(), |body| body.len());
    let room = if m.wild(8) { m.rng.below(16) as u32 } else { room(m, 12 + bytes as u64) };
    let rng = &mut m.rng;
    let call = Call::PacketMarshal { room, fill: rng.byte(), source: rng.number() as u16, destination: rng.number() as u16, tag: rng.number() as u32, chunks };
    m.call(call);
}
