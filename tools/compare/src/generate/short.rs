//! Short inputs, all of them, and each length about a boundary: a fixed list, of which every batch has its part.
use super::Maker;
use super::codec::{READERS, reading};
use super::packets::put;
use crate::Mode;
use crate::domain;
use crate::model::fault::Wrong;
use crate::model::forward::PAIRS;
use crate::model::packets;
use crate::rng::Rng;
use calls::{Call, Data, Fields};

/// Bytes that matter.
const BYTES: [u8; 13] = [0, 1, 2, 3, 4, 5, 15, 16, 17, 127, 128, 254, 255];

/// Raws of no byte, of one and of two, over all values; of three and of four over the bytes that matter. Each by the reading calls.
const UP_TO_TWO: u64 = READERS * (1 + 256 + 65_536);
const THREE: u64 = READERS * 13 * 13 * 13;
const FOUR: u64 = READERS * 13 * 13 * 13 * 13;
/// 0 to 40 bytes lent, a length of 0 to 44, five types.
const LENGTHS: u64 = READERS * 41 * 45 * 5;
/// A SACK of 16 to 48 bytes with 0 to 8 blocks and duplicates.
const SACKS: u64 = READERS * 33 * 9 * 9;
/// Two numbers against every number of 16 bits.
const SSNS: u64 = 2 * 65_536;
/// DATA of 0 to 40 bytes into 0 to 60; SACK of 0 to 6 blocks and duplicates into 0 to 70; FORWARD TSN of 0 to 6 pairs into 0 to 40.
const WRITTEN: u64 = 41 * 61 + 7 * 7 * 71 + 7 * 41;
/// Chunks and lists about their greatest length.
const LONG: u64 = READERS * 41 + 21 * 3 + 5 * 3 + 5;

/// Sums of 0 to 300 bytes; packets of 0 to 40 bytes whose checksum is right, and with one bit wrong in each byte.
const SUMS: u64 = 301 + 41 * 41;
/// Packets of 0 to 26 bytes, places 0 to 28, a length of 0 to 15 at the place: the chunk there, and its bytes.
const PLACES: u64 = 2 * 27 * 29 * 16;
/// Walks over 0 to 18 bytes behind the common header, with lengths of 0 to 11 and 0 to 8.
const WALKS: u64 = 19 * 12 * 9;
/// Packets of 0 to 12 lent bytes, with lengths of 0 to 9 and 0 to 9, into 0 to 29.
const PACKETS: u64 = 13 * 10 * 10 * 30;

pub const COUNT: u64 = UP_TO_TWO + THREE + FOUR + LENGTHS + SACKS + SSNS + WRITTEN + LONG + SUMS + PLACES + WALKS + PACKETS;

/// The k-th short input, in an order that mixes them; the list starts again behind its end. In mode `in` what is outside the domain is left out, but for
/// numbers half way apart, which difference 8 explains, lists that are too long, which 3 does, DATA without data, which 6 does, and identifiers without a name,
/// which 5 does, and packets, which 19, 20 and 22 do.
pub fn item(m: &mut Maker, k: u64) {
    let call = numbered((k % COUNT).wrapping_mul(1_000_003) % COUNT, m.mode);
    match call {
        Call::Sna16 { .. } => m.put(call),
        Call::FwdMarshal { ref streams, .. } if streams.len() > PAIRS => m.put(call),
        Call::SackMarshal { ref starts, ref duplicates, .. } if starts.len() + duplicates.len() > 16_379 => m.put(call),
        Call::Packet { .. } | Call::PacketWalk { .. } => put(m, call),
        _ if domain::without_data(&call) || domain::folded(&call) => m.put(call),
        _ => _ = m.call(call),
    }
}

fn numbered(mut k: u64, mode: Mode) -> Call {
    let parts: [(u64, fn(u64, Mode) -> Call); 12] = [
        (UP_TO_TWO, |k, _| reading(k % READERS, up_to_two(k / READERS))),
        (THREE, |k, _| reading(k % READERS, some_bytes(k / READERS, 3))),
        (FOUR, |k, mode| reading(k % READERS, padded(some_bytes(k / READERS, 4), mode))),
        (LENGTHS, |k, mode| reading(k % READERS, padded(lengths(k / READERS), mode))),
        (SACKS, |k, mode| reading(k % READERS, padded(sack(k / READERS), mode))),
        (SSNS, |k, _| Call::Sna16 { a: if k < 65_536 { 0 } else { 40_000 }, b: k as u16 }),
        (WRITTEN, |k, _| written(k)),
        (LONG, long),
        (SUMS, |k, _| summed(k)),
        (PLACES, |k, _| at_a_place(k)),
        (WALKS, |k, _| walked(k)),
        (PACKETS, |k, _| packet_of(k)),
    ];
    for (size, part) in parts {
        if k < size {
            return part(k, mode);
        }
        k -= size;
    }
    unreachable!("above the count")
}

fn up_to_two(k: u64) -> Vec<u8> {
    match k {
        0 => vec![],
        1..257 => vec![(k - 1) as u8],
        _ => vec![((k - 257) >> 8) as u8, (k - 257) as u8],
    }
}

fn some_bytes(mut k: u64, n: usize) -> Vec<u8> {
    let mut raw = Vec::new();
    for _ in 0..n {
        raw.push(BYTES[(k % 13) as usize]);
        k /= 13;
    }
    raw
}

/// In mode `in` padding is 0.
fn padded(mut raw: Vec<u8>, mode: Mode) -> Vec<u8> {
    let (end, padding) = (raw.len(), domain::padding(&raw).len());
    if mode == Mode::In {
        raw[end - padding..].fill(0);
    }
    raw
}

fn lengths(k: u64) -> Vec<u8> {
    let (lent, length, kind) = (k % 41, k / 41 % 45, k / (41 * 45));
    let mut rng = Rng::new(k);
    let mut raw = vec![[0, 3, 192, 1, 255][kind as usize], rng.byte(), 0, length as u8];
    raw.extend((4..44).map(|_| rng.byte()));
    for high in [12, 14] {
        (raw[high], raw[high + 1]) = (0, rng.below(4) as u8);
    }
    // An identifier about those that have names.
    if kind == 0 && lent % 2 == 0 {
        (raw[13], raw[15]) = (0, 50 + rng.below(9) as u8);
    }
    raw.truncate(lent as usize);
    raw
}

fn sack(k: u64) -> Vec<u8> {
    let (lent, n, x) = (16 + k % 33, k / 33 % 9, k / (33 * 9));
    let mut rng = Rng::new(k);
    let mut raw = vec![3, 0, 0, lent as u8];
    raw.extend((4..12).map(|_| rng.byte()));
    raw.extend([0, n as u8, 0, x as u8]);
    raw.extend((16..lent).map(|_| rng.byte()));
    raw
}

fn written(k: u64) -> Call {
    let fields = Fields { flags: k as u8, tsn: k as u32, stream: 1, ssn: 2, identifier: 50 + (k % 9) as u32 };
    match k.checked_sub(41 * 61) {
        None => Call::DataMarshal { room: (k / 41) as u32, fill: 0xEE, fields, data: Data { size: (k % 41) as u32, seed: 1 } },
        Some(k) if k < 7 * 7 * 71 => sack_of(k % 7, k / 7 % 7, (k / 49) as u32),
        Some(k) => forward_of(k % 7, (k / 7 % 41) as u32),
    }
}

fn sack_of(n: u64, x: u64, room: u32) -> Call {
    let starts: Vec<u16> = (0..n).map(|i| (2 * i + 1) as u16).collect();
    let ends = starts.iter().map(|s| s.wrapping_add(1)).collect();
    Call::SackMarshal { room, fill: 0xEE, cumulative: 7, window: 8, starts, ends, duplicates: (0..x as u32).collect() }
}

fn forward_of(n: u64, room: u32) -> Call {
    let streams: Vec<u16> = (0..n).map(|i| (i % 3) as u16).collect();
    Call::FwdMarshal { room, fill: 0xEE, point: 7, streams, ssns: (0..n as u16).collect() }
}

/// Raws of 65,515 to 65,555 bytes, DATA of 65,515 to 65,535, SACKs of 16,377 to 16,381 entries, FORWARD TSNs of 16,379 to 16,383 pairs.
fn long(k: u64, mode: Mode) -> Call {
    let mut rng = Rng::new(k);
    if k < READERS * 41 {
        let lent = 65_515 + (k / READERS) as usize;
        let (which, length) = (k % READERS, (lent as u64 - rng.below(4)).min(65_535) as u16);
        let mut raw = vec![[0, 0, 0, 3, 3, 3, 192, 192][which as usize], rng.byte()];
        raw.extend(length.to_be_bytes());
        raw.extend((4..lent).map(|i| i as u8));
        let blocks = 16_370 + rng.below(12);
        (raw[12], raw[13], raw[14], raw[15]) = ((blocks >> 8) as u8, blocks as u8, 0, rng.below(3) as u8);
        return reading(which, padded(raw, mode));
    }
    let k = k - READERS * 41;
    if k < 21 * 3 {
        let size = 65_515 + (k / 3) as u32;
        let room = [0, 16 + size, 65_600][(k % 3) as usize].min(65_600);
        return Call::DataMarshal { room, fill: 0xEE, fields: Fields { identifier: 51, ..Fields::default() }, data: Data { size, seed: 1 } };
    }
    let k = k - 21 * 3;
    if k >= 5 * 3 {
        return forward_of(16_379 + k - 5 * 3, 65_600);
    }
    let entries = 16_377 + k / 3;
    let n = [0, entries, entries / 2][(k % 3) as usize];
    sack_of(n, entries - n, 65_600)
}

/// A packet of that many bytes, its checksum right where it has one.
fn packet(rng: &mut Rng, lent: u64) -> Vec<u8> {
    let body: Vec<u8> = (12..lent).map(|_| rng.byte()).collect();
    let mut raw = packets::packet(rng.number() as u16, rng.number() as u16, rng.number() as u32, &body, Wrong::default());
    raw.truncate(lent as usize);
    raw
}

fn summed(k: u64) -> Call {
    let mut rng = Rng::new(k);
    let Some(k) = k.checked_sub(301) else { return Call::Crc32c { raw: (0..k).map(|_| rng.byte()).collect() } };
    let (lent, wrong) = (k % 41, k / 41);
    let mut raw = packet(&mut rng, lent);
    // The first chunk has a good header, of COOKIE ACK, where that fits.
    if let Some(first) = raw.get_mut(12..16) {
        first.copy_from_slice(&[11, 0, 0, 4]);
        raw = packets::packet(1, 2, 3, &raw[12..], Wrong::default());
    }
    if let Some(byte) = wrong.checked_sub(1).and_then(|at| raw.get_mut(at as usize)) {
        *byte ^= 1 << (k % 8);
    }
    Call::Packet { raw }
}

/// Bytes with these lengths of chunks, the first one's at a place and the second's behind the first chunk and this much more.
fn laid(rng: &mut Rng, lent: usize, first: (usize, u64), second: Option<(u64, usize)>) -> Vec<u8> {
    let mut raw: Vec<u8> = (0..lent + 4).map(|_| rng.byte()).collect();
    let mut lay = |place: usize, length: u64| {
        if let Some(header) = raw.get_mut(place..place + 4) {
            header.copy_from_slice(&[10, 0, 0, length as u8]);
        }
    };
    lay(first.0, first.1);
    if let Some((length, behind)) = second {
        lay(behind, length);
    }
    raw.truncate(lent);
    raw
}

fn at_a_place(k: u64) -> Call {
    let (which, lent, place, length) = (k % 2, k / 2 % 27, k / (2 * 27) % 29, k / (2 * 27 * 29));
    let raw = laid(&mut Rng::new(k), lent as usize, (place as usize, length), None);
    if which == 0 { Call::PacketChunk { raw, place } } else { Call::PacketBytes { raw, place } }
}

fn walked(k: u64) -> Call {
    let (left, first, second) = (k % 19, k / 19 % 12, k / (19 * 12));
    let rounded = first.next_multiple_of(4) as usize;
    let mut raw = laid(&mut Rng::new(k), 12 + left as usize, (12, first), Some((second, 12 + rounded)));
    // Padding is 0, and the checksum right.
    for (place, length) in [(12, first as usize), (12 + rounded, second as usize)] {
        let (from, to) = ((place + length).min(raw.len()), (place + length.next_multiple_of(4)).min(raw.len()));
        raw[from..to].fill(0);
    }
    Call::PacketWalk { raw: packets::packet(1, 2, 3, &raw[12..], Wrong::default()) }
}

fn packet_of(k: u64) -> Call {
    let (lent, first, second, room) = (k % 13, k / 13 % 10, k / 130 % 10, k / 1_300);
    let chunks = laid(&mut Rng::new(k), lent as usize, (0, first), Some((second, first.max(4) as usize)));
    Call::PacketMarshal { room: room as u32, fill: 0xEE, source: 1, destination: 2, tag: 3, chunks }
}
