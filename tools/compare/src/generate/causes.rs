//! ERROR and ABORT chunks: flat and nested, good and damaged; lists that fit, just fit and are too short.
use super::Maker;
use crate::domain::causes::parted;
use crate::model::causes::{self, ABORT, ERROR, cause};
use crate::model::codec;
use crate::model::fault::Wrong;
use crate::rng::Rng;
use calls::Call;

pub fn run(m: &mut Maker) {
    for _ in 0..m.rng.within(5, 20) {
        let kind = m.rng.pick(&[ERROR, ABORT]);
        let raw = if m.rng.one_in(400) { long(&mut m.rng, kind) } else { chunk(m, kind) };
        let call = lent(&mut m.rng, kind, raw);
        if parted(&call).is_some() { m.put(call) } else { _ = m.call(call) }
    }
}

/// Lists that have room, mostly; that just have it; one of which lacks a place; and none at all.
fn lent(rng: &mut Rng, kind: u8, raw: Vec<u8>) -> Call {
    let asked = if rng.one_in(20) { 15 - kind } else { kind };
    let n = causes::causes(asked, &raw, Wrong::default()).map_or(0, |causes| causes.len()) as u16;
    let mut rooms = [(); 4].map(|()| if n > 100 || rng.one_in(3) { n } else { n + rng.below(5) as u16 });
    match rng.below(12) {
        0 => rooms[rng.below(4) as usize] = n.saturating_sub(1),
        1 => rooms = [0; 4],
        _ => {}
    }
    let [codes, depths, starts, sizes] = rooms;
    let fill = rng.number() as u16;
    match asked {
        ERROR => Call::ErrorUnmarshal { raw, codes, depths, starts, sizes, fill },
        _ => Call::AbortUnmarshal { raw, codes, depths, starts, sizes, fill },
    }
}

fn chunk(m: &mut Maker, kind: u8) -> Vec<u8> {
    // Inside the domain mostly causes of whole words that hold nothing.
    let flat = m.mode == crate::Mode::In && !m.rng.one_in(8);
    let rng = &mut m.rng;
    let value = list(rng, if flat { 0 } else { 4 }, flat);
    let mut raw = codec::chunk(kind, rng.byte(), &value);
    if rng.one_in(4) {
        fault(rng, &mut raw);
    }
    if rng.one_in(6) {
        // Bytes past the length, which the Rust wants to be 0.
        let n = rng.below(9) as usize;
        let byte = if flat { 0 } else { rng.byte() };
        raw.resize(raw.len() + n, byte);
    }
    raw
}

/// Causes one behind the other, with their padding; the last one mostly without.
fn list(rng: &mut Rng, deep: u64, flat: bool) -> Vec<u8> {
    let mut bytes = Vec::new();
    let n = rng.pick(&[0, 1, 1, 2, 2, 3, 5]);
    for i in 0..n {
        let holds = !flat && rng.one_in(2);
        let value = if holds { held(rng, deep) } else { value(rng, flat && i + 1 < n) };
        let code = if holds { 6 } else { rng.pick(&[1, 2, 4, 5, 7, 12, 13, 13, 65_535]) };
        let code = if value.is_empty() && rng.one_in(3) { 6 } else { code };
        bytes.extend(cause(code, &value));
        if i + 1 < n || rng.one_in(4) {
            let filler = if rng.one_in(3) { rng.byte() } else { 0 };
            bytes.resize(bytes.len().next_multiple_of(4), filler);
        }
    }
    bytes
}

fn value(rng: &mut Rng, whole: bool) -> Vec<u8> {
    let n = rng.below(10);
    let n = if whole { n / 4 * 4 } else { n };
    (0..n).map(|_| rng.byte()).collect()
}

/// A chunk and a few bytes past it, or too few bytes for one.
fn held(rng: &mut Rng, deep: u64) -> Vec<u8> {
    if deep == 0 || rng.one_in(6) {
        return (0..rng.below(6)).map(|_| rng.byte()).collect();
    }
    let kind = rng.pick(&[ERROR, ERROR, ABORT, ABORT, 0, 3, 7, 10]);
    let mut value = codec::chunk(kind, rng.byte(), &list(rng, deep - 1, false));
    if rng.one_in(3) {
        value.extend((0..rng.below(9)).map(|_| rng.byte()));
    }
    value
}

/// A length beside itself, a byte changed, or a cut with the length put right.
fn fault(rng: &mut Rng, raw: &mut Vec<u8>) {
    let n = raw.len() as u64;
    match rng.below(4) {
        0 if n > 4 => {
            let low = 4 * rng.below(n / 4) as usize + 3;
            raw[low] = rng.pick(&[0, 1, 2, 3, 4, 5, 8, raw[low].wrapping_add(1), raw[low].wrapping_sub(1)]);
        }
        1 => raw.truncate(rng.below(n) as usize),
        2 => {
            raw.truncate(rng.within(4, n) as usize);
            let length = (raw.len() as u16).to_be_bytes();
            raw[2..4].copy_from_slice(&length);
        }
        _ => raw[rng.below(n) as usize] = rng.byte(),
    }
}

/// Many causes, or a nesting as deep as its length lets it be.
fn long(rng: &mut Rng, kind: u8) -> Vec<u8> {
    let left = rng.pick(&[800, 8_000, 65_535]) - rng.below(9) as u16;
    if rng.one_in(2) {
        return codec::chunk(kind, 0, &cause(rng.pick(&[1, 6]), &[]).repeat((left as usize).min(40_000) / 4 - 1));
    }
    let mut raw = Vec::new();
    for left in (8..=left).rev().step_by(8) {
        raw.extend([[kind, 0], left.to_be_bytes(), [0, 6], (left - 4).to_be_bytes()].concat());
    }
    let rest = left as usize - raw.len();
    let end = if rng.one_in(2) { [kind, 0, 0, 4] } else { [kind, 0, 0, rest as u8] };
    raw.extend(end.into_iter().chain([0; 3]).take(rest));
    raw
}
