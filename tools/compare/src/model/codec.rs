//! Header, DATA and SACK: document 01, 'Chunk layouts', and document 02's M-101 and M-104. A refusal is `Err` with its number.
use super::fault::{Fault, Wrong};
use calls::Fields;

pub struct Header {
    pub kind: u8,
    pub flags: u8,
    pub length: usize,
}

/// The fields of a SACK, and where its two lists stand in the chunk.
pub struct Sack {
    pub cumulative: u32,
    pub window: u32,
    pub blocks: std::ops::Range<usize>,
    pub duplicates: std::ops::Range<usize>,
}

/// The big-endian number in these bytes.
pub fn number(bytes: &[u8]) -> u32 {
    bytes.iter().fold(0, |n, b| n << 8 | *b as u32)
}

/// Type, flags and length. 1: fewer than 4 bytes lent; 2: length below 4 or above the bytes lent.
pub fn header(raw: &[u8], wrong: Wrong) -> Result<Header, u8> {
    if raw.len() < 4 {
        return Err(1);
    }
    let length = number(&raw[2..4]) as usize;
    if length < 4 || length > raw.len() {
        return Err(2);
    }
    if wrong.is(Fault::PaddingRefused) && raw.len() - length < 4 && raw[length..].iter().any(|b| *b != 0) {
        return Err(2);
    }
    Ok(Header { kind: raw[0], flags: raw[1], length })
}

/// The header of a chunk of this type. 3: another type.
pub fn header_of(kind: u8, raw: &[u8], wrong: Wrong) -> Result<Header, u8> {
    let header = header(raw, wrong)?;
    if header.kind == kind { Ok(header) } else { Err(3) }
}

/// The fields of a DATA chunk and its user data, from byte 16 up to the length. 4: length below 16; 15: length 16, so no data.
pub fn data(raw: &[u8], wrong: Wrong) -> Result<(Fields, &[u8]), u8> {
    let header = header_of(0, raw, wrong)?;
    if header.length < 16 {
        return Err(4);
    }
    if header.length == 16 && !wrong.is(Fault::EmptyRead) {
        return Err(if wrong.is(Fault::EmptyShort) { 4 } else { 15 });
    }
    let fields = Fields {
        flags: header.flags & 15,
        tsn: number(&raw[4..8]),
        stream: number(&raw[8..10]) as u16,
        ssn: number(&raw[10..12]) as u16,
        identifier: wrong.told(Fault::ReadFolded, number(&raw[12..16])),
    };
    Ok((fields, &raw[16..header.length]))
}

/// 5: length below 16, or below 16 + 4N + 4X.
pub fn sack(raw: &[u8], wrong: Wrong) -> Result<Sack, u8> {
    let header = header_of(3, raw, wrong)?;
    if header.length < 16 {
        return Err(5);
    }
    let (n, x) = (number(&raw[12..14]) as usize, number(&raw[14..16]) as usize);
    if header.length < 16 + 4 * n + 4 * x {
        return Err(5);
    }
    let middle = 16 + 4 * n;
    Ok(Sack { cumulative: number(&raw[4..8]), window: number(&raw[8..12]), blocks: 16..middle, duplicates: middle..middle + 4 * x })
}

/// The 4-byte entry of a list. 11: the index is at or past the count of whole entries.
pub fn entry(part: &[u8], index: u64, wrong: Wrong) -> Result<&[u8], u8> {
    let count = part.len() as u64 / 4;
    if index < count {
        return Ok(&part[4 * index as usize..][..4]);
    }
    if wrong.is(Fault::IndexAtCount) && index == count { Ok(&[0; 4]) } else { Err(11) }
}

pub fn block_at(part: &[u8], index: u64, wrong: Wrong) -> Result<(u32, u32), u8> {
    entry(part, index, wrong).map(|bytes| (number(&bytes[..2]), number(&bytes[2..])))
}

pub fn duplicate_at(part: &[u8], index: u64, wrong: Wrong) -> Result<u32, u8> {
    entry(part, index, wrong).map(number)
}

/// The bytes of a chunk: its header, which counts itself, and its value.
pub fn chunk(kind: u8, flags: u8, value: &[u8]) -> Vec<u8> {
    let length = (4 + value.len()) as u16;
    let mut bytes = vec![kind, flags];
    bytes.extend(length.to_be_bytes());
    bytes.extend(value);
    bytes
}

/// A DATA chunk. Its upper four flags are zero, and its identifier is the number as it is.
pub fn data_chunk(fields: &Fields, data: &[u8]) -> Vec<u8> {
    let mut value = fields.tsn.to_be_bytes().to_vec();
    value.extend(fields.stream.to_be_bytes());
    value.extend(fields.ssn.to_be_bytes());
    value.extend(fields.identifier.to_be_bytes());
    value.extend(data);
    chunk(0, fields.flags & 15, &value)
}

pub fn sack_chunk(cumulative: u32, window: u32, starts: &[u16], ends: &[u16], duplicates: &[u32]) -> Vec<u8> {
    let mut value = cumulative.to_be_bytes().to_vec();
    value.extend(window.to_be_bytes());
    value.extend((starts.len() as u16).to_be_bytes());
    value.extend((duplicates.len() as u16).to_be_bytes());
    for (start, end) in starts.iter().zip(ends) {
        value.extend(start.to_be_bytes());
        value.extend(end.to_be_bytes());
    }
    duplicates.iter().for_each(|tsn| value.extend(tsn.to_be_bytes()));
    chunk(3, 0, &value)
}

/// A chunk into the front of a lent buffer. 10: the buffer is too short. The answer is the chunk's byte count.
pub fn write(out: &mut [u8], chunk: &[u8]) -> Result<usize, u8> {
    out.get_mut(..chunk.len()).ok_or(10)?.copy_from_slice(chunk);
    Ok(chunk.len())
}

/// 15: no data; 9: above 65,519 data bytes.
pub fn write_data(out: &mut [u8], fields: &Fields, data: &[u8], wrong: Wrong) -> Result<usize, u8> {
    let short = wrong.is(Fault::RoomBeforeEmpty) && out.len() < 16;
    if data.is_empty() && !wrong.is(Fault::EmptyWritten) {
        return Err(if short { 10 } else { 15 });
    }
    if data.len() > 65_519 && !wrong.is(Fault::LengthsCut) {
        return Err(9);
    }
    let fields = Fields { identifier: wrong.told(Fault::WrittenFolded, fields.identifier), ..*fields };
    write(out, &data_chunk(&fields, data))
}

/// 9: N + X above 16,379, or unequal lists.
pub fn write_sack(out: &mut [u8], numbers: (u32, u32), blocks: (&[u16], &[u16]), duplicates: &[u32], wrong: Wrong) -> Result<usize, u8> {
    let (starts, ends) = blocks;
    if starts.len() + duplicates.len() > 16_379 && !wrong.is(Fault::LengthsCut) || starts.len() != ends.len() {
        return Err(9);
    }
    write(out, &sack_chunk(numbers.0, numbers.1, starts, ends, duplicates))
}
