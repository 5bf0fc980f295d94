//! Whole packets: document 02's M-103, RFC 4960 sections 3.1 and 6.8, and its Appendix B. A refusal is `Err` with its number.
use super::codec::{self, number, write};
use super::fault::{Fault, Wrong};

/// The first chunk's place.
pub const FIRST: usize = 12;

/// CRC32c by long division, a bit at a time, with the generator polynomial 1EDC6F41 as Appendix B gives it, the highest power first. The register starts with all bits 1, each
/// byte goes in with its lowest bit first, and so the remainder is mirrored before it is complemented.
pub fn crc32c(bytes: &[u8], wrong: Wrong) -> u32 {
    let mut register = u32::MAX;
    for byte in bytes {
        for bit in 0..8 {
            let out = (register >> 31) as u8 ^ (byte >> bit & 1);
            register = register << 1 ^ if out == 1 { 0x1EDC_6F41 } else { 0 };
        }
    }
    let mirrored = register.reverse_bits();
    if wrong.is(Fault::SumNotTurned) { mirrored } else { !mirrored }
}

/// How the sum of a packet stands in its field: the lowest byte first.
fn field(sum: u32, wrong: Wrong) -> [u8; 4] {
    if wrong.is(Fault::SumBigEndian) { sum.to_be_bytes() } else { sum.to_le_bytes() }
}

/// The field that is right: of all the packet, with zeros in the field.
fn right(raw: &[u8], wrong: Wrong) -> [u8; 4] {
    let mut summed = raw.to_vec();
    if !wrong.is(Fault::SumWithField) {
        summed[8..FIRST].fill(0);
    }
    field(crc32c(&summed, wrong), wrong)
}

/// Source port, destination port and verification tag. 13: fewer than 12 bytes; 14: wrong checksum.
pub fn header(raw: &[u8], wrong: Wrong) -> Result<(u16, u16, u32), u8> {
    if raw.len() < FIRST {
        return Err(13);
    }
    if raw[8..FIRST] != right(raw, wrong) {
        return Err(14);
    }
    Ok((number(&raw[..2]) as u16, number(&raw[2..4]) as u16, number(&raw[4..8])))
}

/// A length rounded up to 4.
fn rounded(length: usize, wrong: Wrong) -> usize {
    if wrong.is(Fault::NotRounded) { length } else { length.next_multiple_of(4) }
}

/// Where the chunk at a place ends, and the place of what follows; None at the packet's end. 11: a place below 12 or past the packet; 1: one to three bytes left; 2: a bad length.
pub fn chunk_at(raw: &[u8], place: u64, wrong: Wrong) -> Result<Option<(usize, usize)>, u8> {
    let outside = place < FIRST as u64 || place > raw.len() as u64;
    let left = raw.get(place.min(raw.len() as u64) as usize..).expect("a place inside");
    if outside && wrong.is(Fault::PlaceLast) && !left.is_empty() {
        codec::header(left, wrong)?;
    }
    if outside {
        return Err(11);
    }
    if left.is_empty() || left.len() < 4 && wrong.is(Fault::BytesLeftEnd) {
        return Ok(None);
    }
    let length = codec::header(left, wrong)?.length;
    let (end, next) = (place as usize + length, place as usize + rounded(length, wrong));
    Ok(Some((end, if wrong.is(Fault::NextPastEnd) { next } else { next.min(raw.len()) })))
}

/// The bytes of the chunk at a place; none where there is no chunk.
pub fn bytes_at(raw: &[u8], place: u64, wrong: Wrong) -> &[u8] {
    let found = chunk_at(raw, place, wrong).ok().flatten();
    found.map_or(&[], |(end, next)| &raw[place as usize..if wrong.is(Fault::BytesPadded) { next.min(raw.len()) } else { end }])
}

/// The places and sizes of the chunks, the place at which the walk ends, and why: a refusal, or the packet's end.
pub fn walk(raw: &[u8], wrong: Wrong) -> (Vec<(usize, usize)>, usize, Option<u8>) {
    let (mut chunks, mut place) = (Vec::new(), FIRST);
    loop {
        match chunk_at(raw, place as u64, wrong) {
            Ok(Some((end, next))) => {
                chunks.push((place, end - place));
                place = next;
            }
            Ok(None) => return (chunks, place, None),
            Err(number) => return (chunks, place, Some(number)),
        }
    }
}

/// The chunks that are lent back to back, each with zeros up to its length rounded up to 4. The first bad one: 1 or 2.
pub fn padded(mut lent: &[u8], wrong: Wrong) -> Result<Vec<u8>, u8> {
    let mut body = Vec::new();
    while !lent.is_empty() {
        let length = codec::header(lent, wrong)?.length;
        body.extend(&lent[..length]);
        let padding = rounded(length, wrong) - length;
        body.extend(vec![if wrong.is(Fault::PaddedWithOnes) { 255 } else { 0 }; padding]);
        lent = &lent[length..];
    }
    Ok(body)
}

/// The packet of these fields, with the checksum put last.
pub fn packet(source: u16, destination: u16, tag: u32, body: &[u8], wrong: Wrong) -> Vec<u8> {
    let mut bytes = [source.to_be_bytes(), destination.to_be_bytes()].concat();
    bytes.extend(tag.to_be_bytes());
    bytes.extend([0; 4]);
    bytes.extend(body);
    let sum = right(&bytes, wrong);
    bytes[8..FIRST].copy_from_slice(&sum);
    bytes
}

/// 1 and 2: a bad chunk is lent; 10: the buffer is too short. The answer is the packet's byte count.
pub fn write_packet(out: &mut [u8], source: u16, destination: u16, tag: u32, lent: &[u8], wrong: Wrong) -> Result<usize, u8> {
    if wrong.is(Fault::RoomBeforeChunks) && out.len() < FIRST + lent.len() {
        return Err(10);
    }
    let body = padded(lent, wrong)?;
    write(out, &packet(source, destination, tag, &body, wrong))
}
