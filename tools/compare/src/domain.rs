//! Document 01's domain for equality: the calls on which the Rust and the rules must answer the same; document 02's calls likewise.
pub mod causes;
pub mod packets;

use crate::model::Model;
use crate::model::codec;
use crate::model::fault::Wrong;
use crate::model::forward;
use crate::model::fragments::{BYTES, FRAGMENTS, Reassembly};
use crate::model::tsns::{LOG, TSNS};
use calls::{Call, Data, Fields, U};

/// More than this the Rust's piece reader reserves at its own risk.
const PIECE_MOST: u64 = 1 << 20;

/// Whether a call, made in this state, is inside. What the Rust does not have is not: distances, lookups by index, short buffers, forging.
/// Nor is DATA without data, which document 02 refuses and the Rust takes, nor a payload identifier that the Rust folds, nor a TSN opposite to the cumulative
/// one, which document 02 refuses and the Rust stores.
pub fn inside(model: &Model, call: &Call) -> bool {
    match call {
        Call::Sna32 { a, b } => a.wrapping_sub(*b) != 1 << 31,
        Call::Sna16 { a, b } => a.wrapping_sub(*b) != 1 << 15,
        Call::DataUnmarshal { raw } | Call::DataUserData { raw } => padding_is_0(raw) && !without_data(call) && !folded(call),
        Call::Header { raw }
        | Call::SackUnmarshal { raw }
        | Call::SackBlocks { raw }
        | Call::SackDuplicates { raw }
        | Call::FwdUnmarshal { raw }
        | Call::FwdStreams { raw } => padding_is_0(raw),
        Call::DataMarshal { room, fields, data, .. } => writable(*room, *data) && kept(fields.identifier),
        Call::SackMarshal { room, starts, ends, duplicates, .. } => {
            let entries = starts.len() + duplicates.len();
            starts.len() == ends.len() && entries <= 16_379 && *room as usize >= 16 + 4 * entries
        }
        Call::FwdMarshal { room, streams, ssns, .. } => {
            streams.len() == ssns.len() && streams.len() <= forward::PAIRS && *room as usize >= 8 + 4 * streams.len()
        }
        Call::PqApplyForward { cumulative, point } => !opposite(*cumulative, *point),
        Call::RqApplyForward { part, cumulative, point } => applied(&model.reassembly, part, *cumulative, *point),
        Call::Crc32c { .. } | Call::Packet { .. } | Call::PacketChunk { .. } | Call::PacketBytes { .. } | Call::PacketWalk { .. } | Call::PacketMarshal { .. } => packets::inside(call),
        Call::ErrorUnmarshal { .. } | Call::AbortUnmarshal { .. } => causes::inside(call),
        Call::PqPush { fields, cumulative, .. } => !opposite(fields.tsn, *cumulative) && pushable(model, fields, *cumulative),
        Call::IqPush { fields, .. } => kept(fields.identifier) && model.in_flight.get(fields.tsn) == Ok(None) && sendable(model, fields.tsn),
        Call::IqPopUpTo { tsn } => one_arc(32, model.in_flight.held().iter().map(|r| r.tsn).chain([*tsn])),
        Call::IqForge { .. } | Call::IqWhole {} => false,
        Call::PqGapAckBlocks { cumulative, starts, ends, .. } => model.tsns.blocks(*cumulative).len() <= (*starts).min(*ends) as usize,
        Call::RqPush { fields, data } => kept(fields.identifier) && push(&model.reassembly, fields, *data),
        Call::RqRead { room, .. } => fits(&model.reassembly, *room),
        Call::RqForwardOrdered { ssn } => ssns(&model.reassembly, &[*ssn, ssn.wrapping_add(1)]),
        Call::RqForwardUnordered { tsn } => tsns(&model.reassembly, *tsn),
        Call::RqForwardOrderedBounded { ssn, .. } => ssns(&model.reassembly, &[*ssn, ssn.wrapping_add(1)]),
        Call::RqApplicableForward { ssn, .. } => ssns(&model.reassembly, &[*ssn]),
        Call::MNext { most } => *most <= PIECE_MOST,
        Call::TsnDistance { .. } | Call::SsnDistance { .. } | Call::SackBlockAt { .. } | Call::SackDuplicateAt { .. } | Call::FwdStreamAt { .. } => false,
        Call::PqForge { .. } | Call::PqWhole {} | Call::RqForge { .. } | Call::RqWhole {} | Call::MForge { .. } => false,
        _ => true,
    }
}

/// The 1 to 3 bytes after the length, which the Rust wants to be 0; none where there are more of them, or where the length is refused.
pub fn padding(raw: &[u8]) -> &[u8] {
    let [_, _, high, low, ..] = raw else { return &[] };
    let length = u16::from_be_bytes([*high, *low]) as usize;
    if length < 4 || length + 3 < raw.len() { &[] } else { raw.get(length..).unwrap_or(&[]) }
}

fn padding_is_0(raw: &[u8]) -> bool {
    padding(raw).iter().all(|b| *b == 0)
}

/// DATA without data that the Rust reads or writes: type 0 and length 16, or nothing to write and room for 16 bytes.
pub fn without_data(call: &Call) -> bool {
    match call {
        Call::DataUnmarshal { raw } | Call::DataUserData { raw } => raw.len() >= 16 && raw[0] == 0 && raw[2..4] == [0, 16] && padding_is_0(raw),
        Call::DataMarshal { room, data, .. } => data.size == 0 && *room >= 16,
        _ => false,
    }
}

/// The payload identifiers that the Rust keeps: the five that have names, and 58, to which it folds every other.
pub const KEPT: [u32; 6] = [50, 51, 53, 56, 57, 58];

pub fn kept(identifier: u32) -> bool {
    KEPT.contains(&identifier)
}

/// DATA that has data, and room for it.
fn writable(room: u32, data: Data) -> bool {
    (1..=65_519).contains(&data.size) && room >= 16 + data.size
}

/// DATA that is read or written with an identifier that the Rust folds.
pub fn folded(call: &Call) -> bool {
    match call {
        Call::DataUnmarshal { raw } => padding_is_0(raw) && codec::data(raw, Wrong::default()).is_ok_and(|(fields, _)| !kept(fields.identifier)),
        Call::DataMarshal { room, fields, data, .. } => writable(*room, *data) && !kept(fields.identifier),
        _ => false,
    }
}

/// Whether numbers of that width lie in one arc shorter than half the round.
pub fn one_arc(width: u32, mut numbers: impl Iterator<Item = u32>) -> bool {
    let Some(first) = numbers.next() else { return true };
    let (mut low, mut high) = (0, 0);
    for n in numbers {
        let d = crate::model::serial::distance(width, first, n);
        (low, high) = (d.min(low), d.max(high));
    }
    high - low < 1 << (width - 1)
}

/// A push of a TSN opposite to the cumulative one that is inside but for this.
pub fn opposed(model: &Model, call: &Call) -> bool {
    matches!(call, Call::PqPush { fields, cumulative, .. } if opposite(fields.tsn, *cumulative) && pushable(model, fields, *cumulative))
}

fn pushable(model: &Model, fields: &Fields, cumulative: u32) -> bool {
    kept(fields.identifier) && tsn_push(model, fields.tsn, cumulative)
}

/// "Room and log not exceeded", "held TSNs distinct and in one arc".
fn tsn_push(model: &Model, tsn: u32, cumulative: u32) -> bool {
    let queue = &model.tsns;
    if queue.turned_away(tsn, cumulative) {
        return queue.dups < LOG as u64;
    }
    queue.count < TSNS as u64 && one_arc(32, queue.held().iter().map(|r| r.tsn).chain([tsn]))
}

/// A TSN that is in flight already and is pushed again, inside but for this: difference 29.
pub fn sent_again(model: &Model, call: &Call) -> bool {
    matches!(call, Call::IqPush { fields, .. } if kept(fields.identifier) && model.in_flight.held().iter().any(|r| r.tsn == fields.tsn))
}

/// Room in the table in flight, and its TSNs in one arc.
fn sendable(model: &Model, tsn: u32) -> bool {
    let queue = &model.in_flight;
    queue.count < TSNS as u64 && one_arc(32, queue.held().iter().map(|r| r.tsn).chain([tsn]))
}

/// The held TSNs and this one lie in one arc.
fn tsns(queue: &Reassembly, tsn: u32) -> bool {
    one_arc(32, queue.held().iter().map(|r| r.tsn).chain([tsn]))
}

/// "SSNs, the expected one among them, in one arc": those of the ordered sets, and these.
fn ssns(queue: &Reassembly, more: &[u16]) -> bool {
    let ordered = &queue.held()[(queue.finished + queue.loose) as usize..];
    one_arc(16, ordered.iter().map(|r| r.ssn()).chain([queue.expected]).chain(more.iter().copied()).map(u32::from))
}

pub fn opposite(a: u32, b: u32) -> bool {
    a.wrapping_sub(b) == 1 << 31
}

/// A FORWARD TSN chunk whose point is old, or whose skips are all inside: the SSNs that become the expected one, and the point, in the arcs.
fn applied(queue: &Reassembly, part: &[u8], cumulative: u32, point: u32) -> bool {
    if opposite(cumulative, point) {
        return false;
    }
    let named = forward::ssns_of(queue.stream, part, Wrong::default());
    let numbers: Vec<u16> = named.into_iter().flat_map(|ssn| [ssn, ssn.wrapping_add(1)]).collect();
    forward::is_old(queue.serial, cumulative, point) || ssns(queue, &numbers) && tsns(queue, point)
}

/// A fragment that is not held, with room for it.
fn push(queue: &Reassembly, fields: &Fields, data: Data) -> bool {
    if fields.stream != queue.stream {
        return true;
    }
    let unheld = queue.held().iter().all(|r| r.tsn != fields.tsn);
    let room = queue.count() < FRAGMENTS as u64 && queue.bytes + data.size as u64 <= BYTES;
    let arcs = tsns(queue, fields.tsn) && (fields.flags & U != 0 || ssns(queue, &[fields.ssn]));
    data.size <= 65_519 && unheld && room && arcs
}

/// The buffer is long enough for the message that is next, if one is.
fn fits(queue: &Reassembly, room: u32) -> bool {
    let lists = queue.view();
    let Some(next) = queue.next(&lists) else { return true };
    let list = if next.finished { &lists.finished } else { &lists.ordered };
    let size: usize = list[next.fragments].iter().map(|f| f.bytes.len()).sum();
    size <= room as usize
}

#[cfg(test)]
mod tests {
    use super::*;

    #[test]
    fn arcs() {
        let arc = |numbers: &[u32]| one_arc(32, numbers.iter().copied());
        assert!(arc(&[]) && arc(&[7]) && arc(&[5, 5 + (1 << 31) - 1]) && arc(&[u32::MAX - 3, 2, 0]));
        assert!(!arc(&[5, 5 + (1 << 31)]) && !arc(&[0, 1 << 30, 1 << 31]) && !arc(&[0, 1 << 31, 7]));
        assert!(one_arc(16, [65_535, 32_766].into_iter()) && !one_arc(16, [65_535, 32_767].into_iter()));
    }

    #[test]
    fn paddings() {
        assert_eq!(padding(&[0, 0, 0, 4, 1]), &[1]);
        assert_eq!(padding(&[0, 0, 0, 4, 1, 2, 3]), &[1, 2, 3]);
        assert!(padding(&[0, 0, 0, 4, 1, 2, 3, 4]).is_empty() && padding(&[0, 0, 0, 9]).is_empty() && padding(&[0, 0, 0, 3, 1]).is_empty());
    }

    #[test]
    fn data_without_data_is_outside() {
        let read = |kind, length, lent, last| {
            let mut raw = vec![kind, 0, 0, length];
            raw.resize(lent, last);
            let call = Call::DataUnmarshal { raw };
            (without_data(&call), inside(&Model::new(), &call))
        };
        assert_eq!([read(0, 16, 16, 0), read(0, 16, 19, 0), read(0, 16, 20, 1)], [(true, false); 3]);
        assert_eq!([read(0, 15, 16, 0), read(0, 16, 15, 0), read(3, 16, 16, 0)], [(false, true); 3]);
        assert_eq!(read(0, 16, 17, 1), (false, false));
        let write = |size, room| {
            let call = Call::DataMarshal { room, fill: 0, fields: Fields { identifier: 51, ..Fields::default() }, data: Data { size, seed: 0 } };
            (without_data(&call), inside(&Model::new(), &call))
        };
        assert_eq!([write(0, 16), write(0, 15), write(1, 17), write(1, 16)], [(true, false), (false, false), (false, true), (false, false)]);
    }

    #[test]
    fn opposite_tsns_are_outside() {
        let push = |tsn, cumulative, identifier| {
            let call = Call::PqPush { fields: Fields { tsn, identifier, ..Fields::default() }, size: 0, cumulative };
            (opposed(&Model::new(), &call), inside(&Model::new(), &call))
        };
        assert_eq!([push(1 << 31, 0, 51), push(5, 5 + (1 << 31), 51)], [(true, false); 2]);
        assert_eq!([push((1 << 31) - 1, 0, 51), push((1 << 31) + 1, 0, 51), push(1 << 31, 0, 7)], [(false, true), (false, true), (false, false)]);
    }

    #[test]
    fn identifiers_that_the_rust_folds_are_outside() {
        let seen = |call: Call| (folded(&call), inside(&Model::new(), &call));
        let read = |identifier: u32, after: u8| {
            let raw = [&[0, 3, 0, 17, 0, 0, 0, 10, 0, 2, 0, 5][..], &identifier.to_be_bytes(), &[97, after]].concat();
            seen(Call::DataUnmarshal { raw })
        };
        assert_eq!(KEPT.map(|identifier| read(identifier, 0)), [(false, true); 6]);
        assert_eq!([7, 49, 52, 59, 51 + (1 << 16), u32::MAX].map(|identifier| read(identifier, 0)), [(true, false); 6]);
        assert_eq!([read(7, 1), read(51, 1)], [(false, false); 2]);
        let fields = |identifier| Fields { flags: 3, tsn: 1, stream: 0, ssn: 0, identifier };
        let data = Data { size: 1, seed: 0 };
        let write = |identifier, room| seen(Call::DataMarshal { room, fill: 0, fields: fields(identifier), data });
        assert_eq!([write(51, 17), write(7, 17), write(7, 16)], [(false, true), (true, false), (false, false)]);
        let pushed = |identifier| [seen(Call::PqPush { fields: fields(identifier), size: 1, cumulative: 0 }), seen(Call::RqPush { fields: fields(identifier), data })];
        assert_eq!([pushed(58), pushed(7)], [[(false, true); 2], [(false, false); 2]]);
    }
}
