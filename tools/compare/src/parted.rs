//! The calls of docs/DIFFERENCES.md, each as the fewest that show how ours and the Rust part. `tools/oracle/tests` has the Rust's answers to the same.
use crate::model::fault::Wrong;
use crate::model::packets;
use calls::{B, Call, Data, E, Fields, U};

fn fields(flags: u8, tsn: u32, ssn: u16) -> Fields {
    Fields { flags, tsn, stream: 0, ssn, identifier: 53 }
}

fn push(flags: u8, tsn: u32, ssn: u16, size: u32) -> Call {
    Call::RqPush { fields: fields(flags, tsn, ssn), data: Data { size, seed: b'a' } }
}

fn queued(tsn: u32, cumulative: u32) -> Call {
    Call::PqPush { fields: fields(B | E, tsn, 0), size: 0, cumulative }
}

fn read(room: u32) -> Call {
    Call::RqRead { room, fill: 0 }
}

fn fresh(calls: impl IntoIterator<Item = Call>) -> Vec<Call> {
    let start = [Call::PqNew {}, Call::RqNew { stream: 0, maximum: 65_536 }];
    start.into_iter().chain(calls).chain([Call::PqState {}, Call::RqState {}]).collect()
}

/// 1 and 2: duplicates.
fn duplicates() -> Vec<Call> {
    let ordered = fresh([push(B, 1, 0, 2), push(B, 1, 0, 2), Call::RqState {}, push(E, 2, 0, 0), read(2)]);
    let unordered = fresh([push(U | B, 1, 0, 2), push(U | B, 1, 0, 2), Call::RqState {}, push(U | E, 2, 0, 1), read(3), push(U | E, 2, 0, 1), read(3)]);
    [ordered, unordered].concat()
}

/// 5 and 18: identifiers without a name, read and written, and through both queues; beside them 58 and a name.
fn identifiers() -> Vec<Call> {
    let own = |identifier| Fields { identifier, ..fields(B | E, 1, 0) };
    let read = |identifier: u32| [&[0, 3, 0, 17, 0, 0, 0, 1, 0, 0, 0, 0][..], &identifier.to_be_bytes(), &[97]].concat();
    let data = Data { size: 1, seed: b'a' };
    let of = |identifier| {
        let alone = [Call::DataUnmarshal { raw: read(identifier) }, Call::DataMarshal { room: 18, fill: 0xEE, fields: own(identifier), data }];
        let queued = [Call::PqPush { fields: own(identifier), size: 1, cumulative: 0 }, Call::PqGet { tsn: 1 }, Call::PqPop { tsn: 1 }];
        let taken = [Call::RqPush { fields: own(identifier), data }, Call::RqState {}, self::read(1)];
        fresh(alone.into_iter().chain(queued).chain(taken))
    };
    [7, 0, 51, 58, 51 + (1 << 16), 1_280_262_468, u32::MAX].into_iter().flat_map(of).collect()
}

/// 6: DATA without data, read and written; beside it one byte less and one more.
fn without_data() -> Vec<Call> {
    let data = |length: u8| [0, 3, 0, length, 0, 0, 0, 10, 0, 2, 0, 5, 0, 0, 0, 51, 97][..length as usize].to_vec();
    let read = [15, 16, 17].into_iter().flat_map(|length| [Call::DataUnmarshal { raw: data(length) }, Call::DataUserData { raw: data(length) }]);
    let into = [(16, 0), (15, 0), (17, 1), (16, 1)].into_iter();
    let written = into.map(|(room, size)| Call::DataMarshal { room, fill: 0xEE, fields: fields(B | E, 10, 5), data: Data { size, seed: b'a' } });
    read.chain(written).collect()
}

/// 8 and 13: half way round.
fn half_way() -> Vec<Call> {
    let numbers = vec![Call::Sna32 { a: 0, b: 1 << 31 }, Call::Sna32 { a: 1 << 31, b: 0 }, Call::Sna16 { a: 0, b: 1 << 15 }, Call::Sna16 { a: 1 << 15, b: 0 }];
    let given = fresh([push(B | E, 1, 32_768, 1), Call::RqIsReadable {}, read(1)]);
    let placed = fresh([push(B | E, 1, 32_768, 1), push(B | E, 2, 0, 1), Call::RqState {}, read(1), read(1)]);
    let skipped = fresh([push(U | B, 1 << 31, 0, 1), Call::RqForwardUnordered { tsn: 0 }]);
    [numbers, given, placed, skipped].concat()
}

/// 9 and 15: bytes after the length, and pieces of the largest size.
fn bytes_and_pieces() -> Vec<Call> {
    let data = [0, 0, 0, 17, 0, 0, 0, 1, 0, 0, 0, 0, 0, 0, 0, 51, 97, 1].to_vec();
    let chunks = vec![Call::Header { raw: vec![0, 0, 0, 4, 1] }, Call::DataUnmarshal { raw: data.clone() }, Call::DataUserData { raw: data }];
    let forward = vec![Call::FwdUnmarshal { raw: [192, 0, 0, 8, 0, 0, 0, 1, 1].to_vec() }, Call::FwdStreams { raw: [192, 0, 0, 8, 0, 0, 0, 1, 0, 0, 1].to_vec() }];
    let pieces = fresh([push(B | E, 1, 0, 1), read(1), Call::MNext { most: u64::MAX }, Call::MNext { most: u64::MAX }]);
    [chunks, forward, pieces].concat()
}

/// 14: calls on which the Rust stops.
fn all_the_way_round() -> Vec<Call> {
    let mut sets: Vec<Call> = (0..18).map(|ssn| push(B | E, 2 * ssn as u32, ssn, 0)).collect();
    sets.push(Call::RqForwardOrdered { ssn: 20_000 });
    sets.extend([push(B, 40, 30_000, 0), push(B | E, 42, 40_000, 0), push(B | E, 44, 50_000, 0)]);
    sets.extend([Call::RqForwardOrdered { ssn: 45_000 }, push(B | E, 46, 9_464, 0)]);
    let mut tsns: Vec<Call> = (1..=18).map(|tsn| queued(tsn, 0)).collect();
    tsns.extend([queued(1_000_000_000, 0), queued(3_000_000_000, 2_000_000_000), queued(4_000_000_000, 2_000_000_000)]);
    tsns.extend([Call::PqPopUpTo { tsn: 2_500_000_000 }, queued(1_205_032_704, 4_000_000_000)]);
    [fresh(sets), fresh(tsns)].concat()
}

/// 24: a TSN opposite to the cumulative one, not held and held, in a queue that goes on; beside it one nearer and one farther.
fn opposite() -> Vec<Call> {
    let half = 1 << 31;
    let numbers = [(0, half), (half, 0), (0, half - 1), (0, half + 1), (3, 3)].into_iter();
    let compared = numbers.flat_map(|(a, b)| [Call::TsnCompare { a, b }, Call::SsnCompare { a: (a >> 16) as u16, b: (b >> 16) as u16 }]).collect();
    let asked = |tsn| [Call::PqCanPush { tsn, cumulative: 0 }, queued(tsn, 0), Call::PqState {}, Call::PqPopDuplicates {}];
    let unheld = fresh(asked(half));
    let held = fresh([queued(half, 1)].into_iter().chain(asked(half)).chain([Call::PqPopUpTo { tsn: 0 }]));
    let beside = fresh(asked(half - 1).into_iter().chain(asked(half + 1)));
    [compared, unheld, held, beside].concat()
}

/// 28: an SSN half way round from that of a bounded skip.
fn bounded() -> Vec<Call> {
    let ask = |ssn, peer| Call::RqApplicableForward { ssn, tsn: 0, peer };
    let expected = fresh([ask(32_768, 0), ask(32_767, 0), ask(32_769, 0)]);
    let held = fresh([push(B, 1, 32_768, 1), ask(0, 9), ask(1, 9), ask(32_768, 9)]);
    [expected, held].concat()
}

/// 19 to 22: packets that the Rust does not take whole, or steps through otherwise.
fn packets() -> Vec<Call> {
    let bodies: [&[u8]; 8] = [
        &[],
        &[0],
        &[10, 0, 0, 3],
        &[10, 0, 0, 5, 97],
        &[10, 0, 0, 5, 97, 0, 0, 0],
        &[11, 0, 0, 8, 11, 0, 0, 4],
        &[3, 0, 0, 20, 0, 0, 0, 1, 0, 0, 0, 2, 0, 0, 0, 0, 11, 0, 0, 4],
        &[255, 0, 0, 4],
    ];
    let of = |body: &&[u8]| {
        let raw = packets::packet(5_000, 5_001, 1, body, Wrong::default());
        [Call::Packet { raw: raw.clone() }, Call::PacketWalk { raw }]
    };
    bodies.iter().flat_map(of).collect()
}

/// 25 to 27: causes that the Rust does not round, follow or miss.
fn causes() -> Vec<Call> {
    let chunks: [&[u8]; 7] = [
        &[9, 0, 0, 16, 0, 12, 0, 5, 97, 0, 0, 0, 0, 1, 0, 4],
        &[9, 0, 0, 16, 0, 6, 0, 12, 6, 0, 0, 8, 0, 12, 0, 4],
        &[9, 0, 0, 5, 0],
        &[9, 0, 0, 13, 0, 12, 0, 9, 97, 98, 99, 100, 101],
        &[9, 0, 0, 12, 0, 6, 0, 8, 0, 0, 0, 3],
        &[9, 0, 0, 8, 0, 6, 0, 4],
        &[9, 0, 0, 8, 0, 1, 0, 3],
    ];
    let of = |raw: &&[u8]| {
        let abort = [&[6], &raw[1..]].concat();
        let lent = |room| (room, room, room, room, 7);
        let ((codes, depths, starts, sizes, fill), raw) = (lent(3), raw.to_vec());
        [Call::ErrorUnmarshal { raw, codes, depths, starts, sizes, fill }, Call::AbortUnmarshal { raw: abort, codes, depths, starts, sizes, fill }]
    };
    chunks.iter().flat_map(of).collect()
}

pub fn calls() -> Vec<Call> {
    [duplicates(), identifiers(), without_data(), half_way(), bytes_and_pieces(), all_the_way_round(), packets(), opposite(), causes(), bounded()].concat()
}
