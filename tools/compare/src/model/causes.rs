//! ERROR and ABORT: document 02's M-106, RFC 4960 sections 3.3.10 and 3.3.7. A refusal is `Err` with its number.
//! Nothing calls itself here: what is still to be read, of each list that was begun, stands on a stack.
use super::codec::{self, number};
use super::fault::{Fault, Wrong};

pub const ERROR: u8 = 9;
pub const ABORT: u8 = 6;

/// Code, depth, start of the value in the chunk, length of the value.
pub type Cause = [u16; 4];

/// What stands at a place, up to an end.
struct Left {
    at: usize,
    end: usize,
    depth: u16,
}

/// The causes of the chunk, outer before inner. 1, 2 and 3 of its header; then the first fault in reading order.
pub fn causes(kind: u8, raw: &[u8], wrong: Wrong) -> Result<Vec<Cause>, u8> {
    let header = codec::header_of(kind, raw, wrong)?;
    let mut found = Vec::new();
    let mut open = vec![Left { at: 4, end: header.length, depth: 0 }];
    while let Some(Left { at, end, depth }) = open.pop() {
        if at >= end || (end - at < 4 && wrong.is(Fault::CauseBytesLeftEnd)) {
            continue;
        }
        let size = if end - at < 4 { 0 } else { number(&raw[at + 2..at + 4]) as usize };
        if size < 4 || end - at < size {
            return Err(16);
        }
        let code = number(&raw[at..at + 2]) as u16;
        let start = if wrong.is(Fault::StartOfCause) { at } else { at + 4 };
        found.push([code, depth, start as u16, size as u16 - 4]);
        let next = if wrong.is(Fault::CausesNotRounded) { size } else { size.next_multiple_of(4) };
        let later = Left { at: at + next, end, depth };
        let held = if code == 6 { held(&raw[..at + size], at + 4, depth, wrong)? } else { None };
        if wrong.is(Fault::InnerLast) {
            open.splice(0..0, held);
            open.push(later);
        } else {
            open.push(later);
            open.extend(held);
        }
    }
    Ok(found)
}

/// The causes of the chunk in a value that goes from a place to the end of these bytes.
fn held(raw: &[u8], at: usize, depth: u16, wrong: Wrong) -> Result<Option<Left>, u8> {
    if at == raw.len() && !wrong.is(Fault::EmptyValueHolds) {
        return Ok(None);
    }
    let header = codec::header(&raw[at..], Wrong::default())?;
    let followed = (header.kind == ERROR || header.kind == ABORT && !wrong.is(Fault::AbortNotFollowed)) && !wrong.is(Fault::InnerNotFollowed);
    let end = if wrong.is(Fault::PastTheChunk) { raw.len() } else { at + header.length };
    let depth = if wrong.is(Fault::DepthNotCounted) { depth } else { depth + 1 };
    Ok(followed.then_some(Left { at: at + 4, end, depth }))
}

/// How many causes there are; they go to the front of the lists. 10: a list is too short, where nothing else is wrong.
pub fn unmarshal(kind: u8, raw: &[u8], lists: &mut [Vec<u16>; 4], wrong: Wrong) -> Result<usize, u8> {
    let found = causes(kind, raw, wrong);
    let room = lists.iter().map(Vec::len).min().expect("four lists");
    if room == 0 && raw.len() > 4 && wrong.is(Fault::RoomBeforeCauses) {
        return Err(10);
    }
    let found = found?;
    if room < found.len() {
        return Err(10);
    }
    for (i, cause) in found.iter().enumerate() {
        for (list, n) in lists.iter_mut().zip(cause) {
            list[i] = *n;
        }
    }
    Ok(found.len())
}

/// A cause of this code and value.
pub fn cause(code: u16, value: &[u8]) -> Vec<u8> {
    [&code.to_be_bytes(), &(4 + value.len() as u16).to_be_bytes(), value].concat()
}

#[cfg(test)]
mod tests {
    use super::*;

    fn read(kind: u8, raw: &[u8]) -> Result<Vec<Cause>, u8> {
        causes(kind, raw, Wrong::default())
    }

    #[test]
    fn flat_and_nested() {
        let inner = codec::chunk(ABORT, 0, &[cause(2, b"abcde"), vec![0; 3], cause(6, &[])].concat());
        let outer = [cause(6, &[&inner[..], b"past it"].concat()), vec![0], cause(1, b"7")].concat();
        assert_eq!(read(ERROR, &codec::chunk(ERROR, 0, &outer)), Ok(vec![[6, 0, 8, 27], [2, 1, 16, 5], [6, 1, 28, 0], [1, 0, 40, 1]]));
        assert_eq!(read(ABORT, &codec::chunk(ABORT, 1, &[])), Ok(vec![]));
        assert_eq!(read(ABORT, &codec::chunk(ERROR, 0, &[])), Err(3));
    }

    #[test]
    fn faults_in_reading_order() {
        let of = |value: &[u8]| read(ERROR, &codec::chunk(ERROR, 0, value));
        assert_eq!([of(&[0]), of(&[0, 1, 0]), of(&[0, 1, 0, 3]), of(&[0, 1, 0, 5])], [Err(16), Err(16), Err(16), Err(16)]);
        assert_eq!([of(&cause(6, &[9])), of(&cause(6, &[0, 0, 0, 3])), of(&cause(6, &[9, 0, 0, 5]))], [Err(1), Err(2), Err(2)]);
        assert_eq!([of(&cause(6, &[9, 0, 0, 5, 0])), of(&cause(6, &[0, 0, 0, 5, 0])), of(&cause(7, &[9]))], [Err(16), Ok(vec![[6, 0, 8, 5]]), Ok(vec![[7, 0, 8, 1]])]);
        assert_eq!(of(&[cause(6, &[9, 0, 0, 3]), vec![0, 1, 0, 2]].concat()), Err(2));
    }
}
