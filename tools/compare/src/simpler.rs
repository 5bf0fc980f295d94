//! Calls with one operand smaller.
use calls::{Call, Data, Fields};

/// What can be made smaller in a call.
enum Operand<'a> {
    U8(&'a mut u8),
    U16(&'a mut u16),
    U32(&'a mut u32),
    U64(&'a mut u64),
    Bytes(&'a mut Vec<u8>),
}
use Operand::{Bytes, U8, U16, U32, U64};

/// The TSNs that a call names.
pub fn tsns(call: &mut Call) -> Vec<&mut u32> {
    match call {
        Call::PqCanPush { tsn, cumulative } => vec![tsn, cumulative],
        Call::PqPush { fields, cumulative, .. } => vec![&mut fields.tsn, cumulative],
        Call::RqPush { fields, .. } => vec![&mut fields.tsn],
        Call::PqPop { tsn } | Call::PqPopUpTo { tsn } | Call::PqGet { tsn } | Call::RqForwardUnordered { tsn } => vec![tsn],
        Call::PqGapAckBlocks { cumulative, .. } => vec![cumulative],
        Call::IqPush { fields, .. } => vec![&mut fields.tsn],
        Call::IqAcked { tsn } | Call::IqPop { tsn } | Call::IqPopUpTo { tsn } | Call::IqGet { tsn } => vec![tsn],
        Call::PqApplyForward { cumulative, point } | Call::RqApplyForward { cumulative, point, .. } => vec![cumulative, point],
        _ => vec![],
    }
}

fn of_fields(fields: &mut Fields) -> impl Iterator<Item = Operand<'_>> {
    [U8(&mut fields.flags), U32(&mut fields.tsn), U16(&mut fields.stream), U16(&mut fields.ssn), U32(&mut fields.identifier)].into_iter()
}

fn of_data(data: &mut Data) -> impl Iterator<Item = Operand<'_>> {
    [U32(&mut data.size), U8(&mut data.seed)].into_iter()
}

fn operands(call: &mut Call) -> Vec<Operand<'_>> {
    match call {
        Call::Header { raw }
        | Call::DataUnmarshal { raw }
        | Call::DataUserData { raw }
        | Call::SackUnmarshal { raw }
        | Call::SackBlocks { raw }
        | Call::SackDuplicates { raw }
        | Call::FwdUnmarshal { raw }
        | Call::FwdStreams { raw }
        | Call::Crc32c { raw }
        | Call::Packet { raw }
        | Call::PacketWalk { raw } => vec![Bytes(raw)],
        Call::SackBlockAt { part, index } | Call::SackDuplicateAt { part, index } | Call::FwdStreamAt { part, index } => vec![Bytes(part), U64(index)],
        Call::RqApplyForward { part, cumulative, point } => vec![Bytes(part), U32(cumulative), U32(point)],
        Call::PacketChunk { raw, place } | Call::PacketBytes { raw, place } => vec![Bytes(raw), U64(place)],
        Call::PacketMarshal { room, fill, source, destination, tag, chunks } => vec![Bytes(chunks), U16(source), U16(destination), U32(tag), U32(room), U8(fill)],
        Call::ErrorUnmarshal { raw, codes, depths, starts, sizes, fill } | Call::AbortUnmarshal { raw, codes, depths, starts, sizes, fill } => {
            vec![Bytes(raw), U16(codes), U16(depths), U16(starts), U16(sizes), U16(fill)]
        }
        Call::FwdMarshal { room, fill, point, .. } => vec![U32(room), U8(fill), U32(point)],
        Call::DataMarshal { room, fill, fields, data } => of_fields(fields).chain(of_data(data)).chain([U32(room), U8(fill)]).collect(),
        Call::SackMarshal { room, fill, cumulative, window, .. } => vec![U32(room), U8(fill), U32(cumulative), U32(window)],
        Call::PqPush { fields, size, cumulative } => of_fields(fields).chain([U16(size), U32(cumulative)]).collect(),
        Call::PqGapAckBlocks { cumulative, starts, ends, fill } => vec![U32(cumulative), U16(starts), U16(ends), U16(fill)],
        Call::RqPush { fields, data } => of_fields(fields).chain(of_data(data)).collect(),
        Call::RqRead { room, fill } | Call::MRead { room, fill } => vec![U32(room), U8(fill)],
        Call::PqContainsStream { stream } => vec![U16(stream)],
        Call::RqForwardOrdered { ssn } => vec![U16(ssn)],
        Call::RqForwardOrderedBounded { ssn, tsn } => vec![U16(ssn), U32(tsn)],
        Call::RqApplicableForward { ssn, tsn, peer } => vec![U16(ssn), U32(tsn), U32(peer)],
        Call::MNext { most } => vec![U64(most)],
        Call::PqForge { value, .. } | Call::RqForge { value, .. } | Call::MForge { value, .. } | Call::IqForge { value, .. } => vec![U64(value)],
        Call::IqPush { fields, size, message } => of_fields(fields).chain([U16(size), U64(message)]).collect(),
        Call::IqAbandon { message } => vec![U64(message)],
        Call::Sna32 { a, b } | Call::TsnDistance { a, b } | Call::TsnCompare { a, b } => vec![U32(a), U32(b)],
        Call::Sna16 { a, b } | Call::SsnDistance { a, b } | Call::SsnCompare { a, b } => vec![U16(a), U16(b)],
        _ => tsns(call).into_iter().map(U32).collect(),
    }
}

/// Smaller numbers than this: 0, half of it, and ever nearer to it up to one less.
fn less(n: u64) -> Vec<u64> {
    let nearer = (1..64).step_by(3).map(|bits| n - (n >> bits));
    [0, n / 2].into_iter().chain(nearer).chain(n.checked_sub(1)).filter(|m| *m < n).collect()
}

/// Fewer bytes, or one of the first of them 0.
fn less_bytes(raw: &[u8]) -> Vec<Vec<u8>> {
    let shorter = less(raw.len() as u64).into_iter().map(|n| raw[..n as usize].to_vec());
    let zeroed = (0..raw.len().min(24)).filter(|i| raw[*i] != 0).map(|i| {
        let mut other = raw.to_vec();
        other[i] = 0;
        other
    });
    shorter.chain(zeroed).collect()
}

/// How many ways there are to make an operand smaller, and the operand made so in the k-th way.
fn ways(operand: &Operand) -> usize {
    match operand {
        U8(n) => less(**n as u64).len(),
        U16(n) => less(**n as u64).len(),
        U32(n) => less(**n as u64).len(),
        U64(n) => less(**n).len(),
        Bytes(raw) => less_bytes(raw).len(),
    }
}

fn make(operand: Operand, k: usize) {
    match operand {
        U8(n) => *n = less(*n as u64)[k] as u8,
        U16(n) => *n = less(*n as u64)[k] as u16,
        U32(n) => *n = less(*n as u64)[k] as u32,
        U64(n) => *n = less(*n)[k],
        Bytes(raw) => *raw = less_bytes(raw).swap_remove(k),
    }
}

/// The same call with one operand smaller, in each way.
pub fn simpler(call: &Call) -> Vec<Call> {
    let counts: Vec<usize> = operands(&mut call.clone()).iter().map(ways).collect();
    let mut all = Vec::new();
    for (which, count) in counts.into_iter().enumerate() {
        for k in 0..count {
            let mut other = call.clone();
            make(operands(&mut other).swap_remove(which), k);
            all.push(other);
        }
    }
    all
}
