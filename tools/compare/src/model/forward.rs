//! FORWARD TSN: document 02's M-100 and RFC 3758, sections 3.2 and 3.6. A refusal is `Err` with its number.
use super::codec::{chunk, entry, header_of, number, write};
use super::fault::{Fault, Wrong};
use super::fragments::Reassembly;
use super::serial::Serial;
use super::tsns::Tsns;

pub const TYPE: u8 = 192;
/// The most pairs for which the length fits 16 bits.
pub const PAIRS: usize = 16_381;

/// The new cumulative TSN, and the part of the chunk that its pairs are. 12: length below 8, or not 8 plus a multiple of 4.
pub fn forward(raw: &[u8], wrong: Wrong) -> Result<(u32, &[u8]), u8> {
    let header = header_of(TYPE, raw, wrong)?;
    if header.length < 8 {
        return Err(12);
    }
    let over = header.length % 4;
    if over != 0 && !wrong.is(Fault::PairsCutOff) {
        return Err(12);
    }
    Ok((number(&raw[4..8]), &raw[8..header.length - over]))
}

/// Stream and SSN of a pair. 11: the index is at or past the count of whole pairs.
pub fn stream_at(part: &[u8], index: u64, wrong: Wrong) -> Result<(u16, u16), u8> {
    entry(part, index, wrong).map(pair)
}

fn pair(bytes: &[u8]) -> (u16, u16) {
    (number(&bytes[..2]) as u16, number(&bytes[2..4]) as u16)
}

/// The chunk, with flags 0.
pub fn forward_chunk(point: u32, streams: &[u16], ssns: &[u16]) -> Vec<u8> {
    let mut value = point.to_be_bytes().to_vec();
    value.extend(part_of(streams.iter().copied().zip(ssns.iter().copied())));
    chunk(TYPE, 0, &value)
}

/// The bytes of these pairs.
pub fn part_of(pairs: impl IntoIterator<Item = (u16, u16)>) -> Vec<u8> {
    pairs.into_iter().flat_map(|(stream, ssn)| [stream.to_be_bytes(), ssn.to_be_bytes()].concat()).collect()
}

/// 9: more than 16,381 pairs, or unequal lists; 10: the buffer is too short.
pub fn write_forward(out: &mut [u8], point: u32, streams: &[u16], ssns: &[u16], wrong: Wrong) -> Result<usize, u8> {
    if streams.len() > PAIRS && !wrong.is(Fault::LengthsCut) || streams.len() != ssns.len() {
        return Err(9);
    }
    write(out, &forward_chunk(point, streams, ssns))
}

/// The SSNs of the pairs that name a stream, in chunk order. What stands behind the last whole pair is none.
pub fn ssns_of(stream: u16, part: &[u8], wrong: Wrong) -> Vec<u16> {
    let mut part = part.to_vec();
    if wrong.is(Fault::HalfPairTaken) {
        part.resize(part.len().next_multiple_of(4), 0);
    }
    let naming = part.chunks_exact(4).map(pair).filter(|(named, _)| *named == stream || wrong.is(Fault::EveryPairTaken));
    let mut ssns: Vec<u16> = naming.map(|(_, ssn)| ssn).collect();
    if wrong.is(Fault::PairsReversed) {
        ssns.reverse();
    }
    ssns
}

/// "A new point at or before the cumulative TSN given changes nothing."
pub fn is_old(serial: Serial, cumulative: u32, point: u32) -> bool {
    if serial.wrong.is(Fault::PointAtCumulative) { serial.tsn_before(point, cumulative) } else { serial.tsn_at_or_before(point, cumulative) }
}

/// "The ordered skip for each pair naming it, in chunk order, then one unordered skip."
pub fn apply_to_stream(queue: &mut Reassembly, part: &[u8], cumulative: u32, point: u32) -> Result<(), u8> {
    queue.sound()?;
    if is_old(queue.serial, cumulative, point) {
        return Ok(());
    }
    for ssn in ssns_of(queue.stream, part, queue.serial.wrong) {
        queue.forward_ordered(ssn)?;
    }
    queue.forward_unordered(point)
}

/// "The TSN queue drops up to the new point."
pub fn apply_to_tsns(queue: &mut Tsns, cumulative: u32, point: u32) -> Result<(), u8> {
    queue.sound()?;
    if is_old(queue.serial, cumulative, point) { Ok(()) } else { queue.pop_up_to(point) }
}
