//! ERROR and ABORT: where the Rust reads causes as the rules say, what it says where it does not, and the difference that explains it.
use super::padding_is_0;
use crate::model::causes::{self, ABORT, Cause, ERROR};
use crate::model::codec::{self, number};
use crate::model::fault::Wrong;
use calls::Call;

/// The type that a call asks for, its bytes, and the places of its shortest list.
pub fn asked(call: &Call) -> Option<(u8, &[u8], usize)> {
    let least = |rooms: [&u16; 4]| **rooms.iter().min().expect("four lists") as usize;
    match call {
        Call::ErrorUnmarshal { raw, codes, depths, starts, sizes, .. } => Some((ERROR, raw, least([codes, depths, starts, sizes]))),
        Call::AbortUnmarshal { raw, codes, depths, starts, sizes, .. } => Some((ABORT, raw, least([codes, depths, starts, sizes]))),
        _ => None,
    }
}

/// The Rust's way: causes one behind the other by their lengths, none of them followed, and fewer than 4 bytes at the end ignored. With the number of the first
/// difference on the way: 25 the rounding, 26 a value that is followed, 27 bytes that are left.
pub fn by_the_rust(kind: u8, raw: &[u8]) -> (Result<Vec<Cause>, u8>, Option<u8>) {
    let end = match codec::header_of(kind, raw, Wrong::default()) {
        Ok(header) => header.length,
        Err(k) => return (Err(k), None),
    };
    let (mut found, mut at, mut parts) = (Vec::new(), 4, None);
    while at + 4 <= end {
        let (code, size) = (number(&raw[at..at + 2]) as u16, number(&raw[at + 2..at + 4]) as usize);
        if size < 4 || end - at < size {
            return (Err(16), parts);
        }
        found.push([code, 0, at as u16 + 4, size as u16 - 4]);
        at += size;
        let followed = (code == 6 && size > 4).then_some(26);
        parts = parts.or(followed).or((!size.is_multiple_of(4) && at < end).then_some(25));
    }
    (Ok(found), parts.or((at < end).then_some(27)))
}

/// Whether a call of causes is inside.
pub fn inside(call: &Call) -> bool {
    let Some((kind, raw, room)) = asked(call) else { return false };
    let (found, parts) = by_the_rust(kind, raw);
    padding_is_0(raw) && parts.is_none() && found.map_or(0, |causes| causes.len()) <= room
}

/// The number of the difference by which the Rust answers otherwise, where both have room for their causes.
pub fn parted(call: &Call) -> Option<u8> {
    let (kind, raw, room) = asked(call)?;
    let (found, parts) = by_the_rust(kind, raw);
    let ours = causes::causes(kind, raw, Wrong::default());
    let fits = |causes: &Result<Vec<Cause>, u8>| causes.as_ref().map_or(0, Vec::len) <= room;
    (padding_is_0(raw) && fits(&found) && fits(&ours) && found != ours).then_some(parts).flatten()
}

/// Whether this line begins as the Rust's way does: the count, or the refusal.
pub fn begins(call: &Call, line: &[u8]) -> bool {
    let Some((kind, raw, _)) = asked(call) else { return false };
    let first = match by_the_rust(kind, raw).0 {
        Ok(causes) => format!("causes {} codes{}", causes.len(), causes.iter().map(|c| format!(" {}", c[0])).collect::<String>()),
        Err(k) => format!("refused {k} codes"),
    };
    line.starts_with(first.as_bytes())
}

#[cfg(test)]
mod tests {
    use super::*;
    use crate::model::causes::cause;

    fn seen(value: &[u8], room: u16) -> (bool, Option<u8>) {
        let raw = codec::chunk(ERROR, 0, value);
        let call = Call::ErrorUnmarshal { raw, codes: room, depths: room, starts: room, sizes: room, fill: 7 };
        (inside(&call), parted(&call))
    }

    #[test]
    fn where_the_rust_parts() {
        assert_eq!([seen(&[], 0), seen(&cause(1, b"abcd"), 1), seen(&cause(1, b"abc"), 1), seen(&cause(6, &[]), 1), seen(&[0, 1, 0, 3], 0)], [(true, None); 5]);
        assert_eq!(seen(&[cause(1, b"abc"), vec![0], cause(2, &[])].concat(), 9), (false, Some(25)));
        assert_eq!(seen(&cause(6, &codec::chunk(9, 0, &cause(1, &[]))), 9), (false, Some(26)));
        assert_eq!([seen(&cause(6, &codec::chunk(0, 0, &[])), 9), seen(&cause(1, &[]), 0)], [(false, None); 2]);
        assert_eq!(seen(&[cause(1, &[]), vec![0]].concat(), 9), (false, Some(27)));
    }
}
