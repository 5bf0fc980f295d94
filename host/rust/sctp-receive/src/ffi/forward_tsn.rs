//! FORWARD TSN: read, written, and applied to a stream. The TSN queue's call needs no `unsafe`.
use super::*;

#[inline]
pub(crate) fn unmarshal(raw: &[u8], new_cumulative_tsn: &mut u32, streams: &mut u16) -> i32 {
    // SAFETY: pointer and length are one slice's.
    unsafe { sctp_receive_forward_tsn_unmarshal(raw.as_ptr(), raw.len(), new_cumulative_tsn, streams) }
}

#[inline]
pub(crate) fn streams(raw: &[u8], start: &mut usize, size: &mut usize) -> i32 {
    // SAFETY: pointer and length are one slice's.
    unsafe { sctp_receive_forward_tsn_streams(raw.as_ptr(), raw.len(), start, size) }
}

#[inline]
pub(crate) fn stream_at(part: &[u8], i: usize, identifier: &mut u16, sequence: &mut u16) -> i32 {
    // SAFETY: pointer and length are one slice's.
    unsafe { sctp_receive_forward_tsn_stream_at(part.as_ptr(), part.len(), i, identifier, sequence) }
}

#[inline]
pub(crate) fn marshal_to(out: &mut [u8], new_cumulative_tsn: u32, identifiers: &[u16], sequences: &[u16], n: &mut usize) -> i32 {
    let (out, out_len) = (out.as_mut_ptr(), out.len());
    let (identifiers, identifiers_len) = (identifiers.as_ptr(), identifiers.len());
    let (sequences, sequences_len) = (sequences.as_ptr(), sequences.len());
    // SAFETY: each pointer and the length after it are one slice's, and `out` is lent to us alone.
    unsafe {
        sctp_receive_forward_tsn_marshal_to(out, out_len, new_cumulative_tsn, identifiers, identifiers_len, sequences, sequences_len, n)
    }
}

#[inline]
pub(crate) fn apply_to_stream(
    q: &mut Numbers,
    table: &mut [u32; FRAGMENT_WORDS],
    pool: &mut [u8],
    (cumulative, point): (u32, u32),
    streams: &[u8],
) -> i32 {
    let (pool, pool_len) = (pool.as_mut_ptr(), pool.len());
    let (streams, streams_len) = (streams.as_ptr(), streams.len());
    let (si, next, max) = (&mut q.si, &mut q.next_ssn, &mut q.max_message_size);
    let (finished, unordered, ordered, n_bytes) = (&mut q.finished, &mut q.unordered, &mut q.ordered, &mut q.n_bytes);
    // SAFETY: each pointer and the length after it are one slice's, and the pool is lent to us alone.
    unsafe {
        sctp_receive_forward_tsn_apply_to_stream(
            si,
            next,
            max,
            finished,
            unordered,
            ordered,
            n_bytes,
            table,
            pool,
            pool_len,
            cumulative,
            point,
            streams,
            streams_len,
        )
    }
}
