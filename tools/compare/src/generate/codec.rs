//! Chunks that are good, and chunks that are damaged; fields to be written; numbers that wrap.
use super::{Maker, unnamed};
use crate::Mode;
use crate::domain;
use crate::model::codec;
use crate::model::forward::{self, PAIRS};
use crate::rng::Rng;
use calls::{BYTES_MOST, Call, Data, Fields, LIST_MOST};

pub fn run(m: &mut Maker) {
    for _ in 0..m.rng.within(10, 60) {
        match m.rng.below(15) {
            0..9 => read(m),
            9..11 => write_data(m),
            11..13 => write_sack(m),
            13 => write_forward(m),
            _ => look_up(m),
        }
    }
}

/// Pairs of numbers about each distance that matters. Half way is difference 8, of which mode `in` has a few.
pub fn serials(m: &mut Maker) {
    for _ in 0..m.rng.within(10, 60) {
        let near = m.rng.pick(&[0, 0, 1, 2, u64::MAX, u64::MAX - 1]);
        let any = m.rng.number();
        let far = m.rng.pick(&[0, 1 << 31, 1 << 15, any]);
        let (a, b) = (m.rng.number(), near.wrapping_add(far));
        let a = m.rng.pick(&[a, a % 3, 0u64.wrapping_sub(a % 3)]);
        let (a32, b32, a16, b16) = (a as u32, a.wrapping_add(b) as u32, a as u16, a.wrapping_add(b) as u16);
        let call = match m.rng.below(6) {
            0 => Call::Sna32 { a: a32, b: b32 },
            1 => Call::Sna16 { a: a16, b: b16 },
            2 => Call::TsnDistance { a: a32, b: b32 },
            3 => Call::SsnDistance { a: a16, b: b16 },
            4 => Call::TsnCompare { a: a32, b: b32 },
            _ => Call::SsnCompare { a: a16, b: b16 },
        };
        match call {
            Call::Sna32 { .. } | Call::Sna16 { .. } if m.rng.one_in(9) => m.put(call),
            _ => _ = m.call(call),
        }
    }
}

/// Fields to be written. An identifier without a name is difference 5, of which mode `in` has a few.
pub fn fields(m: &mut Maker) -> Fields {
    let identifier = if m.rng.one_in(9) { unnamed(&mut m.rng) } else { m.identifier() };
    let rng = &mut m.rng;
    Fields {
        flags: rng.byte(),
        tsn: rng.number() as u32,
        stream: rng.number() as u16,
        ssn: rng.number() as u16,
        identifier,
    }
}

/// Mostly short; now and then none or one, or long, seldom as long as can be.
fn size(rng: &mut Rng) -> u64 {
    match rng.below(2_000) {
        0 => rng.within(65_500, 65_519),
        1..40 => rng.within(21, 300),
        40..240 => rng.below(2),
        _ => rng.below(21),
    }
}

pub fn entries(rng: &mut Rng) -> usize {
    match rng.below(1_000) {
        0..10 => rng.within(7, 120) as usize,
        _ => rng.below(6) as usize,
    }
}

pub fn shorts(rng: &mut Rng, n: usize) -> Vec<u16> {
    (0..n).map(|_| rng.number() as u16).collect()
}

pub fn words(rng: &mut Rng, n: usize) -> Vec<u32> {
    (0..n).map(|_| rng.number() as u32).collect()
}

/// A chunk of some kind, good or damaged.
fn chunk(m: &mut Maker) -> Vec<u8> {
    let fields = fields(m);
    let rng = &mut m.rng;
    let mut raw = match rng.below(10) {
        0..3 => {
            let data = Data { size: size(rng) as u32, seed: rng.byte() };
            codec::data_chunk(&fields, &data.bytes())
        }
        3..6 => {
            let (n, x) = (entries(rng), entries(rng));
            codec::sack_chunk(rng.number() as u32, rng.number() as u32, &shorts(rng, n), &shorts(rng, n), &words(rng, x))
        }
        6 | 7 => {
            let n = entries(rng);
            forward::forward_chunk(rng.number() as u32, &shorts(rng, n), &shorts(rng, n))
        }
        8 => {
            let n = rng.below(30) as usize;
            let value: Vec<u8> = (0..n).map(|_| rng.byte()).collect();
            codec::chunk(rng.pick(&[0, 0, 1, 3, 3, 192, 255]), rng.byte(), &value)
        }
        _ => (0..rng.below(30)).map(|_| rng.byte()).collect(),
    };
    if let Some(flags) = raw.get_mut(1).filter(|_| rng.one_in(4)) {
        *flags = rng.byte();
    }
    for _ in 0..rng.pick(&[0, 0, 1, 1, 2]) {
        damage(rng, &mut raw);
    }
    raw.truncate(BYTES_MOST);
    raw
}

/// One byte changed, cut, extended, or a length or a count beside itself.
fn damage(rng: &mut Rng, raw: &mut Vec<u8>) {
    let n = raw.len() as u64;
    if n == 0 {
        return raw.push(rng.byte());
    }
    let at = if rng.one_in(2) { rng.below(n.min(20)) } else { rng.below(n) } as usize;
    match rng.below(6) {
        0 => raw[at] = rng.byte(),
        1 => raw[at] = raw[at].wrapping_add(rng.pick(&[1, 255])),
        2 => raw.truncate(at),
        3 => raw.extend((0..rng.within(1, 7)).map(|_| 0)),
        4 => raw.extend((0..rng.within(1, 7)).map(|i| i as u8)),
        _ => {
            let low = rng.pick(&[3, 3, 13, 15]).min(n as usize - 1);
            raw[low] = raw[low].wrapping_add(rng.pick(&[1, 2, 3, 4, 252, 253, 254, 255]));
        }
    }
}

/// One to three reading calls on the same bytes. In mode `in` the padding is 0, but for a few that difference 9 explains; DATA without data is difference 6, an identifier without a name 5.
fn read(m: &mut Maker) {
    let mut raw = chunk(m);
    let padding = domain::padding(&raw).len();
    if m.mode == Mode::In && !m.rng.one_in(50) {
        let end = raw.len();
        raw[end - padding..].fill(0);
    }
    for _ in 0..m.rng.within(1, 3) {
        let call = reading(m.rng.below(READERS), raw.clone());
        m.put(call);
    }
}

/// How many calls read a chunk.
pub const READERS: u64 = 8;

/// The calls that read a chunk.
pub fn reading(which: u64, raw: Vec<u8>) -> Call {
    match which {
        0 => Call::Header { raw },
        1 => Call::DataUnmarshal { raw },
        2 => Call::DataUserData { raw },
        3 => Call::SackUnmarshal { raw },
        4 => Call::SackBlocks { raw },
        5 => Call::SackDuplicates { raw },
        6 => Call::FwdUnmarshal { raw },
        _ => Call::FwdStreams { raw },
    }
}

/// Room for so many bytes: as much, or more; outside the domain less too.
pub fn room(m: &mut Maker, bytes: u64) -> u32 {
    let room = match m.rng.below(6) {
        0..3 => bytes,
        3..5 => bytes + m.rng.below(9),
        _ if m.mode == Mode::Out => m.rng.below(bytes + 1).max(bytes.saturating_sub(3)),
        _ => bytes + m.rng.below(60),
    };
    room.min(BYTES_MOST as u64) as u32
}

fn write_data(m: &mut Maker) {
    // Too long for a length of 16 bits: difference 3. No data: difference 6. An identifier without a name: difference 5.
    let too_long = m.rng.one_in(if m.mode == Mode::Out { 60 } else { 3_000 });
    let n = if too_long { m.rng.within(65_520, 65_600) } else { size(&mut m.rng) };
    let room = if too_long { m.rng.pick(&[0, 0, 0, 30, BYTES_MOST as u32]) } else { room(m, 16 + n) };
    let call = Call::DataMarshal { room, fill: m.rng.byte(), fields: fields(m), data: Data { size: n as u32, seed: m.rng.byte() } };
    m.put(call);
}

fn write_sack(m: &mut Maker) {
    let (n, x) = (entries(&mut m.rng), entries(&mut m.rng));
    let other = if m.wild(8) { n + m.rng.within(1, 2) as usize } else { n };
    let (starts, ends) = if m.rng.one_in(2) { (n, other) } else { (other, n) };
    let room = room(m, 16 + 4 * (n + x) as u64);
    let rng = &mut m.rng;
    let call = Call::SackMarshal {
        room,
        fill: rng.byte(),
        cumulative: rng.number() as u32,
        window: rng.number() as u32,
        starts: shorts(rng, starts),
        ends: shorts(rng, ends),
        duplicates: words(rng, x),
    };
    m.call(call);
}

fn write_forward(m: &mut Maker) {
    // Too long for a length of 16 bits: difference 3.
    let too_long = m.rng.one_in(2_000);
    let n = if too_long { m.rng.within(PAIRS as u64 + 1, LIST_MOST as u64) as usize } else { entries(&mut m.rng) };
    let other = if m.wild(8) { n.abs_diff(1) } else { n };
    let (streams, ssns) = if m.rng.one_in(2) { (n, other) } else { (other, n) };
    let room = if too_long { m.rng.pick(&[0, 0, 0, 30, BYTES_MOST as u32]) } else { room(m, 8 + 4 * n as u64) };
    let rng = &mut m.rng;
    let (streams, ssns) = (shorts(rng, streams), shorts(rng, ssns));
    let call = Call::FwdMarshal { room, fill: rng.byte(), point: rng.number() as u32, streams, ssns };
    m.put(call);
}

fn look_up(m: &mut Maker) {
    let part: Vec<u8> = (0..m.rng.below(20)).map(|_| m.rng.byte()).collect();
    let count = part.len() as u64 / 4;
    let any = m.rng.number();
    let index = m.rng.pick(&[0, count / 2, count.wrapping_sub(1), count.wrapping_sub(1), count, count + 1, any, u64::MAX, 1 << 62]);
    let call = match m.rng.below(3) {
        0 => Call::SackBlockAt { part, index },
        1 => Call::SackDuplicateAt { part, index },
        _ => Call::FwdStreamAt { part, index },
    };
    m.call(call);
}
