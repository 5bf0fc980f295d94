//! Packets: where the Rust reads, walks and writes them as the rules say, and the difference that explains where it does not.
use super::{kept, padding_is_0};
use crate::model::codec::{self, number};
use crate::model::fault::Wrong;
use crate::model::packets::{self, FIRST};
use calls::Call;

/// The chunk types that the Rust's packets can hold.
const TYPES: [u8; 15] = [0, 1, 2, 3, 4, 6, 7, 8, 9, 10, 11, 14, 130, 192, 194];

/// The length of the header that these bytes begin with, if it is good.
fn length(raw: &[u8]) -> Option<usize> {
    codec::header(raw, Wrong::default()).ok().map(|header| header.length)
}

fn is_summed(raw: &[u8]) -> bool {
    packets::header(raw, Wrong::default()).is_ok()
}

/// Whether the Rust reads this chunk and goes on by the length that its header says: it goes by the one that it would write.
fn stepped(chunk: &[u8]) -> bool {
    let length = chunk.len();
    match chunk[0] {
        0 => length >= 16,
        3 => length >= 16 && length == 16 + 4 * (number(&chunk[12..14]) + number(&chunk[14..16])) as usize,
        10 => true,
        11 => length == 4,
        192 => length >= 8 && length.is_multiple_of(4),
        _ => false,
    }
}

/// Whether the Rust writes this chunk, once it was read, as it stands.
fn rewritten(chunk: &[u8]) -> bool {
    stepped(chunk) && if chunk[0] == 0 { chunk[1] < 16 && kept(number(&chunk[12..16])) } else { chunk[1] == 0 }
}

/// The common header comes with the first chunk's in the Rust: there is none, or it has a good header, and INIT's has a tag.
fn header(raw: &[u8]) -> bool {
    let Some(first) = raw.get(FIRST..).filter(|first| is_summed(raw) && !first.is_empty()) else { return true };
    length(first).is_some_and(|length| padding_is_0(first) && (!matches!(first[0], 1 | 2) || length >= 8))
}

/// How the Rust walks a packet: as the rules say; or the number of the difference.
fn walk(raw: &[u8]) -> Result<(), Option<u8>> {
    let (chunks, last, why) = packets::walk(raw, Wrong::default());
    if !is_summed(raw) {
        return Err(None);
    }
    if let Some((place, _)) = chunks.iter().find(|(place, size)| !stepped(&raw[*place..place + size])) {
        return Err(if TYPES.contains(&raw[*place]) { None } else { Some(22) });
    }
    let padded = chunks.last().is_none_or(|(place, _)| padding_is_0(&raw[*place..]));
    match why {
        None if padded && last.is_multiple_of(4) => Ok(()),
        None if padded => Err(Some(20)),
        _ => Err(None),
    }
}

fn written(room: u32, mut lent: &[u8]) -> bool {
    let Ok(body) = packets::padded(lent, Wrong::default()) else { return false };
    let enough = room as usize >= FIRST + body.len();
    while let Some(length) = length(lent) {
        if !rewritten(&lent[..length]) {
            return false;
        }
        lent = &lent[length..];
    }
    enough
}

/// Whether a call of packets is inside.
pub fn inside(call: &Call) -> bool {
    match call {
        Call::Crc32c { .. } => true,
        Call::Packet { raw } => header(raw),
        Call::PacketWalk { raw } => walk(raw).is_ok(),
        Call::PacketMarshal { room, chunks, .. } => written(*room, chunks),
        _ => false,
    }
}

/// The number of the difference by which the Rust answers otherwise, if one explains it.
pub fn parted(call: &Call) -> Option<u8> {
    match call {
        Call::Packet { raw } if !header(raw) => Some(19),
        Call::PacketWalk { raw } => walk(raw).err().flatten(),
        _ => None,
    }
}

#[cfg(test)]
mod tests {
    use super::*;

    fn packet(body: &[u8]) -> Vec<u8> {
        packets::packet(1, 2, 3, body, Wrong::default())
    }

    fn seen(call: Call) -> (bool, Option<u8>) {
        (inside(&call), parted(&call))
    }

    #[test]
    fn common_headers() {
        let of = |raw: Vec<u8>| seen(Call::Packet { raw });
        assert_eq!([of(vec![]), of(vec![0; 12]), of(vec![0; 13]), of(packet(&[])), of(packet(&[9, 0, 0, 4]))], [(true, None); 5]);
        assert_eq!([of(packet(&[0])), of(packet(&[9, 0, 0, 3])), of(packet(&[9, 0, 0, 4, 1])), of(packet(&[1, 0, 0, 4]))], [(false, Some(19)); 4]);
    }

    #[test]
    fn walks() {
        let of = |body: &[u8]| seen(Call::PacketWalk { raw: packet(body) });
        let sack = |length, n| [&[3, 0, 0, length, 0, 0, 0, 1, 0, 0, 0, 2, 0, n, 0, 0][..], &[0, 1, 0, 1]].concat();
        assert_eq!([of(&[]), of(&[10, 0, 0, 5, 97, 0, 0, 0]), of(&[10, 0, 0, 5, 97, 1, 1, 1, 11, 0, 0, 4]), of(&sack(20, 1))], [(true, None); 4]);
        assert_eq!([of(&[10, 0, 0, 5, 97]), of(&[10, 0, 0, 6, 97, 98, 0])], [(false, Some(20)); 2]);
        assert_eq!([of(&[5, 0, 0, 4]), of(&[10, 0, 0, 4, 255, 0, 0, 4])], [(false, Some(22)); 2]);
        assert_eq!([of(&sack(20, 0)), of(&[11, 0, 0, 8, 1, 1, 1, 1]), of(&[10, 0, 0, 5, 97, 1]), of(&[10, 0, 0, 4, 1]), of(&[10, 0, 0, 3])], [(false, None); 5]);
        assert_eq!(seen(Call::PacketWalk { raw: vec![0; 12] }), (false, None));
    }

    #[test]
    fn packets_that_are_written() {
        let of = |room, chunks: &[u8]| inside(&Call::PacketMarshal { room, fill: 0, source: 1, destination: 2, tag: 3, chunks: chunks.to_vec() });
        assert!(of(12, &[]) && of(20, &[10, 0, 0, 5, 97]) && of(24, &[10, 0, 0, 5, 97, 11, 0, 0, 4]));
        assert!(!of(11, &[]) && !of(19, &[10, 0, 0, 5, 97]) && !of(40, &[10, 1, 0, 4]) && !of(40, &[5, 0, 0, 4]) && !of(40, &[10, 0, 0, 5]));
    }
}
