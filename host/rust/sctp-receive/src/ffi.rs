//! The library's functions, and all of this crate's `unsafe`. tests/declarations.rs holds the declarations to the Rattle source that the library is compiled
//! from: number, order and types of their parameters.
//!
//! Each function is proved to read and write only what it is lent, for any contents, and to return. What the proofs rest on is what a Rust
//! reference gives: it is aligned and not null, what is behind it is there, and nothing else reaches what a `&mut` lends.
use crate::chunk::ChunkPayloadData;

pub(crate) mod causes;
pub(crate) mod forward_tsn;
pub(crate) mod hand;
pub(crate) mod packet;

/// TSNs that a [`PayloadQueue`](crate::PayloadQueue) holds, and an [`InFlightQueue`](crate::InFlightQueue).
pub const TSNS: usize = 1024;
/// Duplicates that it logs.
pub const LOG: usize = 64;
/// Fragments that a [`ReassemblyQueue`](crate::ReassemblyQueue) holds.
pub const FRAGMENTS: usize = 512;
/// Payload bytes that it holds.
pub const BYTES: usize = 65536;

pub(crate) const TSN_WORDS: usize = 4 * TSNS;
pub(crate) const FRAGMENT_WORDS: usize = 4 * FRAGMENTS;

// SAFETY of the block: the declarations are those of the Rattle source (tests/declarations.rs), in C's calling convention.
#[rustfmt::skip]
unsafe extern "C" {
    // `safe`: numbers and references alone, and a reference gives all that the proofs rest on.
    pub(crate) safe fn sctp_receive_sna32lt(i1: u32, i2: u32) -> bool;
    pub(crate) safe fn sctp_receive_sna32lte(i1: u32, i2: u32) -> bool;
    pub(crate) safe fn sctp_receive_sna32gt(i1: u32, i2: u32) -> bool;
    pub(crate) safe fn sctp_receive_sna32gte(i1: u32, i2: u32) -> bool;
    pub(crate) safe fn sctp_receive_sna32eq(i1: u32, i2: u32) -> bool;
    pub(crate) safe fn sctp_receive_sna16lt(i1: u16, i2: u16) -> bool;
    pub(crate) safe fn sctp_receive_sna16lte(i1: u16, i2: u16) -> bool;
    pub(crate) safe fn sctp_receive_sna16gt(i1: u16, i2: u16) -> bool;
    pub(crate) safe fn sctp_receive_sna16gte(i1: u16, i2: u16) -> bool;
    pub(crate) safe fn sctp_receive_sna16eq(i1: u16, i2: u16) -> bool;
    pub(crate) safe fn sctp_receive_tsn_compare(a: u32, b: u32) -> u8;
    pub(crate) safe fn sctp_receive_ssn_compare(a: u16, b: u16) -> u8;
    pub(crate) safe fn sctp_receive_payload_queue_new(count: &mut usize, n_bytes: &mut usize, dups: &mut usize,
        dup_tsn: &mut [u32; LOG]);
    pub(crate) safe fn sctp_receive_payload_queue_can_push(count: usize, n_bytes: usize, dups: usize, dup_tsn: &[u32; LOG],
        table: &[u32; TSN_WORDS], tsn: u32, cumulative: u32, is: &mut bool) -> i32;
    pub(crate) safe fn sctp_receive_payload_queue_push(count: &mut usize, n_bytes: &mut usize, dups: &mut usize,
        dup_tsn: &mut [u32; LOG], table: &mut [u32; TSN_WORDS], unordered: bool, beginning_fragment: bool, ending_fragment: bool,
        immediate_sack: bool, tsn: u32, stream_identifier: u16, stream_sequence_number: u16, payload_type: u32, size: u16,
        cumulative: u32, is: &mut bool) -> i32;
    pub(crate) safe fn sctp_receive_payload_queue_pop(count: &mut usize, n_bytes: &mut usize, dups: &mut usize,
        dup_tsn: &mut [u32; LOG], table: &mut [u32; TSN_WORDS], wanted: u32, found: &mut bool, unordered: &mut bool,
        beginning_fragment: &mut bool, ending_fragment: &mut bool, immediate_sack: &mut bool, tsn: &mut u32,
        stream_identifier: &mut u16, stream_sequence_number: &mut u16, payload_type: &mut u32, size: &mut u16) -> i32;
    pub(crate) safe fn sctp_receive_payload_queue_pop_up_to(count: &mut usize, n_bytes: &mut usize, dups: &mut usize,
        dup_tsn: &mut [u32; LOG], table: &mut [u32; TSN_WORDS], tsn: u32) -> i32;
    pub(crate) safe fn sctp_receive_forward_tsn_apply_to_tsns(count: &mut usize, n_bytes: &mut usize, dups: &mut usize,
        dup_tsn: &mut [u32; LOG], table: &mut [u32; TSN_WORDS], cumulative_tsn: u32, new_cumulative_tsn: u32) -> i32;
    pub(crate) safe fn sctp_receive_payload_queue_pop_duplicates(count: &mut usize, n_bytes: &mut usize, dups: &mut usize,
        dup_tsn: &mut [u32; LOG], table: &[u32; TSN_WORDS], n: &mut usize, tsns: &mut [u32; LOG]) -> i32;
    pub(crate) safe fn sctp_receive_payload_queue_get(count: usize, n_bytes: usize, dups: usize, dup_tsn: &[u32; LOG],
        table: &[u32; TSN_WORDS], wanted: u32, found: &mut bool, unordered: &mut bool, beginning_fragment: &mut bool,
        ending_fragment: &mut bool, immediate_sack: &mut bool, tsn: &mut u32, stream_identifier: &mut u16,
        stream_sequence_number: &mut u16, payload_type: &mut u32, size: &mut u16) -> i32;
    pub(crate) safe fn sctp_receive_payload_queue_get_last_tsn_received(count: usize, n_bytes: usize, dups: usize,
        dup_tsn: &[u32; LOG], table: &[u32; TSN_WORDS], found: &mut bool, tsn: &mut u32) -> i32;
    pub(crate) safe fn sctp_receive_payload_queue_get_num_bytes(count: usize, n_bytes: usize, dups: usize, dup_tsn: &[u32; LOG],
        table: &[u32; TSN_WORDS], n: &mut usize) -> i32;
    pub(crate) safe fn sctp_receive_payload_queue_len(count: usize, n_bytes: usize, dups: usize, dup_tsn: &[u32; LOG],
        table: &[u32; TSN_WORDS], n: &mut usize) -> i32;
    pub(crate) safe fn sctp_receive_payload_queue_is_empty(count: usize, n_bytes: usize, dups: usize, dup_tsn: &[u32; LOG],
        table: &[u32; TSN_WORDS], is: &mut bool) -> i32;
    pub(crate) safe fn sctp_receive_payload_queue_contains_stream(count: usize, n_bytes: usize, dups: usize, dup_tsn: &[u32; LOG],
        table: &[u32; TSN_WORDS], stream: u16, is: &mut bool) -> i32;
    pub(crate) safe fn sctp_receive_inflight_queue_new(count: &mut usize, n_bytes: &mut usize);
    pub(crate) safe fn sctp_receive_inflight_queue_push_no_check(count: &mut usize, n_bytes: &mut usize, table: &mut [u32; TSN_WORDS],
        messages: &mut [u64; TSNS], unordered: bool, beginning_fragment: bool, ending_fragment: bool, immediate_sack: bool, tsn: u32,
        stream_identifier: u16, stream_sequence_number: u16, payload_type: u32, size: u16, message: u64) -> i32;
    pub(crate) safe fn sctp_receive_inflight_queue_mark_as_acked(count: &mut usize, n_bytes: &mut usize, table: &mut [u32; TSN_WORDS],
        tsn: u32, released: &mut usize) -> i32;
    pub(crate) safe fn sctp_receive_inflight_queue_mark_all_to_retransmit(count: &mut usize, n_bytes: &mut usize,
        table: &mut [u32; TSN_WORDS]) -> i32;
    pub(crate) safe fn sctp_receive_inflight_queue_abandon_message(count: &mut usize, n_bytes: &mut usize,
        table: &mut [u32; TSN_WORDS], messages: &[u64; TSNS], message: u64, released: &mut usize) -> i32;
    pub(crate) safe fn sctp_receive_inflight_queue_pop(count: &mut usize, n_bytes: &mut usize, table: &mut [u32; TSN_WORDS],
        messages: &mut [u64; TSNS], wanted: u32, found: &mut bool, unordered: &mut bool, beginning_fragment: &mut bool,
        ending_fragment: &mut bool, immediate_sack: &mut bool, tsn: &mut u32, stream_identifier: &mut u16,
        stream_sequence_number: &mut u16, payload_type: &mut u32, size: &mut u16, acked: &mut bool, abandoned: &mut bool,
        retransmit: &mut bool, message_id: &mut u64) -> i32;
    pub(crate) safe fn sctp_receive_inflight_queue_pop_up_to(count: &mut usize, n_bytes: &mut usize, table: &mut [u32; TSN_WORDS],
        messages: &mut [u64; TSNS], tsn: u32) -> i32;
    pub(crate) safe fn sctp_receive_inflight_queue_get(count: usize, n_bytes: usize, table: &[u32; TSN_WORDS],
        messages: &[u64; TSNS], wanted: u32, found: &mut bool, unordered: &mut bool, beginning_fragment: &mut bool,
        ending_fragment: &mut bool, immediate_sack: &mut bool, tsn: &mut u32, stream_identifier: &mut u16,
        stream_sequence_number: &mut u16, payload_type: &mut u32, size: &mut u16, acked: &mut bool, abandoned: &mut bool,
        retransmit: &mut bool, message_id: &mut u64) -> i32;
    pub(crate) safe fn sctp_receive_inflight_queue_get_num_bytes(count: usize, n_bytes: usize, table: &[u32; TSN_WORDS],
        n: &mut usize) -> i32;
    pub(crate) safe fn sctp_receive_inflight_queue_len(count: usize, n_bytes: usize, table: &[u32; TSN_WORDS], n: &mut usize) -> i32;
    pub(crate) safe fn sctp_receive_inflight_queue_is_empty(count: usize, n_bytes: usize, table: &[u32; TSN_WORDS],
        is: &mut bool) -> i32;
    pub(crate) safe fn sctp_receive_reassembly_queue_new(stream: u16, most: u32, si: &mut u16, next_ssn: &mut u16,
        max_message_size: &mut u32, finished: &mut usize, unordered: &mut usize, ordered: &mut usize, n_bytes: &mut usize);

    // A slice goes as a pointer and a length, which must belong together: the functions below see to it.
    fn sctp_receive_header_unmarshal(raw: *const u8, raw_len: usize, typ: &mut u8, flags: &mut u8, size: &mut u16) -> i32;
    fn sctp_receive_data_unmarshal(raw: *const u8, raw_len: usize, unordered: &mut bool, beginning_fragment: &mut bool,
        ending_fragment: &mut bool, immediate_sack: &mut bool, tsn: &mut u32, stream_identifier: &mut u16,
        stream_sequence_number: &mut u16, payload_type: &mut u32) -> i32;
    fn sctp_receive_data_user_data(raw: *const u8, raw_len: usize, start: &mut usize, size: &mut usize) -> i32;
    fn sctp_receive_data_marshal_to(out: *mut u8, out_len: usize, unordered: bool, beginning_fragment: bool, ending_fragment: bool,
        immediate_sack: bool, tsn: u32, stream_identifier: u16, stream_sequence_number: u16, payload_type: u32, user: *const u8,
        user_len: usize, n: &mut usize) -> i32;
    fn sctp_receive_sack_unmarshal(raw: *const u8, raw_len: usize, cumulative: &mut u32, window: &mut u32, blocks: &mut u16,
        duplicates: &mut u16) -> i32;
    fn sctp_receive_sack_gap_ack_blocks(raw: *const u8, raw_len: usize, start: &mut usize, size: &mut usize) -> i32;
    fn sctp_receive_sack_duplicate_tsns(raw: *const u8, raw_len: usize, start: &mut usize, size: &mut usize) -> i32;
    fn sctp_receive_sack_gap_ack_block_at(part: *const u8, part_len: usize, i: usize, start: &mut u16, end: &mut u16) -> i32;
    fn sctp_receive_sack_duplicate_tsn_at(part: *const u8, part_len: usize, i: usize, tsn: &mut u32) -> i32;
    fn sctp_receive_sack_marshal_to(out: *mut u8, out_len: usize, cumulative: u32, window: u32, starts: *const u16,
        starts_len: usize, ends: *const u16, ends_len: usize, duplicates: *const u32, duplicates_len: usize, n: &mut usize) -> i32;
    fn sctp_receive_forward_tsn_unmarshal(raw: *const u8, raw_len: usize, new_cumulative_tsn: &mut u32, streams: &mut u16) -> i32;
    fn sctp_receive_forward_tsn_streams(raw: *const u8, raw_len: usize, start: &mut usize, size: &mut usize) -> i32;
    fn sctp_receive_forward_tsn_stream_at(part: *const u8, part_len: usize, i: usize, identifier: &mut u16,
        sequence: &mut u16) -> i32;
    fn sctp_receive_forward_tsn_marshal_to(out: *mut u8, out_len: usize, new_cumulative_tsn: u32, identifiers: *const u16,
        identifiers_len: usize, sequences: *const u16, sequences_len: usize, n: &mut usize) -> i32;
    fn sctp_receive_error_unmarshal(raw: *const u8, raw_len: usize, codes: *mut u16, codes_len: usize, depths: *mut u16,
        depths_len: usize, starts: *mut u16, starts_len: usize, sizes: *mut u16, sizes_len: usize, n: &mut usize) -> i32;
    fn sctp_receive_abort_unmarshal(raw: *const u8, raw_len: usize, codes: *mut u16, codes_len: usize, depths: *mut u16,
        depths_len: usize, starts: *mut u16, starts_len: usize, sizes: *mut u16, sizes_len: usize, n: &mut usize) -> i32;
    fn sctp_receive_crc32c(bytes: *const u8, bytes_len: usize) -> u32;
    fn sctp_receive_packet_unmarshal(raw: *const u8, raw_len: usize, source_port: &mut u16, destination_port: &mut u16,
        verification_tag: &mut u32) -> i32;
    fn sctp_receive_packet_chunk_at(packet: *const u8, packet_len: usize, at: usize, found: &mut bool, end: &mut usize,
        next: &mut usize) -> i32;
    fn sctp_receive_packet_marshal_to(out: *mut u8, out_len: usize, source_port: u16, destination_port: u16, verification_tag: u32,
        chunks: *const u8, chunks_len: usize, n: &mut usize) -> i32;
    fn sctp_receive_payload_queue_get_gap_ack_blocks(count: usize, n_bytes: usize, dups: usize, dup_tsn: &[u32; LOG],
        table: &[u32; TSN_WORDS], cumulative: u32, starts: *mut u16, starts_len: usize, ends: *mut u16, ends_len: usize,
        n: &mut usize) -> i32;
    fn sctp_receive_reassembly_queue_push(si: &mut u16, next_ssn: &mut u16, max_message_size: &mut u32, finished: &mut usize,
        unordered: &mut usize, ordered: &mut usize, n_bytes: &mut usize, table: &mut [u32; FRAGMENT_WORDS], pool: *mut u8,
        pool_len: usize, is_unordered: bool, beginning_fragment: bool, ending_fragment: bool, immediate_sack: bool, tsn: u32,
        stream_identifier: u16, stream_sequence_number: u16, payload_type: u32, user_data: *const u8, user_data_len: usize,
        is: &mut bool) -> i32;
    fn sctp_receive_reassembly_queue_is_readable(si: u16, next_ssn: u16, max_message_size: u32, finished: usize, unordered: usize,
        ordered: usize, n_bytes: usize, table: &[u32; FRAGMENT_WORDS], pool: *const u8, pool_len: usize, is: &mut bool) -> i32;
    fn sctp_receive_reassembly_queue_read(si: &mut u16, next_ssn: &mut u16, max_message_size: &mut u32, finished: &mut usize,
        unordered: &mut usize, ordered: &mut usize, n_bytes: &mut usize, table: &mut [u32; FRAGMENT_WORDS], pool: *mut u8,
        pool_len: usize, buffer: *mut u8, buffer_len: usize, found: &mut bool, ssn: &mut u16, ppi: &mut u32, bytes: &mut usize,
        position: &mut usize, given: &mut bool) -> i32;
    fn sctp_receive_reassembly_queue_forward_tsn_for_ordered(si: &mut u16, next_ssn: &mut u16, max_message_size: &mut u32,
        finished: &mut usize, unordered: &mut usize, ordered: &mut usize, n_bytes: &mut usize, table: &mut [u32; FRAGMENT_WORDS],
        pool: *mut u8, pool_len: usize, last_ssn: u16) -> i32;
    fn sctp_receive_reassembly_queue_forward_tsn_for_unordered(si: &mut u16, next_ssn: &mut u16, max_message_size: &mut u32,
        finished: &mut usize, unordered: &mut usize, ordered: &mut usize, n_bytes: &mut usize, table: &mut [u32; FRAGMENT_WORDS],
        pool: *mut u8, pool_len: usize, new_cumulative_tsn: u32) -> i32;
    fn sctp_receive_reassembly_queue_forward_tsn_for_ordered_bounded(si: &mut u16, next_ssn: &mut u16, max_message_size: &mut u32,
        finished: &mut usize, unordered: &mut usize, ordered: &mut usize, n_bytes: &mut usize, table: &mut [u32; FRAGMENT_WORDS],
        pool: *mut u8, pool_len: usize, last_ssn: u16, new_cumulative_tsn: u32) -> i32;
    fn sctp_receive_reassembly_queue_applicable_forward_tsn_for_ordered_bounded(si: u16, next_ssn: u16, max_message_size: u32,
        finished: usize, unordered: usize, ordered: usize, n_bytes: usize, table: &[u32; FRAGMENT_WORDS], pool: *const u8,
        pool_len: usize, last_ssn: u16, new_cumulative_tsn: u32, peer_last_tsn: u32, found: &mut bool, ssn: &mut u16) -> i32;
    fn sctp_receive_forward_tsn_apply_to_stream(si: &mut u16, next_ssn: &mut u16, max_message_size: &mut u32,
        finished: &mut usize, unordered: &mut usize, ordered: &mut usize, n_bytes: &mut usize, table: &mut [u32; FRAGMENT_WORDS],
        pool: *mut u8, pool_len: usize, cumulative_tsn: u32, new_cumulative_tsn: u32, streams: *const u8,
        streams_len: usize) -> i32;
    fn sctp_receive_reassembly_queue_get_num_bytes(si: u16, next_ssn: u16, max_message_size: u32, finished: usize, unordered: usize,
        ordered: usize, n_bytes: usize, table: &[u32; FRAGMENT_WORDS], pool: *const u8, pool_len: usize, n: &mut usize) -> i32;
    fn sctp_receive_chunks_len(bytes: usize, position: usize, given: bool, buffer: *const u8, buffer_len: usize,
        n: &mut usize) -> i32;
    fn sctp_receive_chunks_is_empty(bytes: usize, position: usize, given: bool, buffer: *const u8, buffer_len: usize,
        is: &mut bool) -> i32;
    fn sctp_receive_chunks_read(bytes: usize, position: usize, given: bool, buffer: *const u8, buffer_len: usize, out: *mut u8,
        out_len: usize, n: &mut usize) -> i32;
    fn sctp_receive_chunks_next(bytes: &mut usize, position: &mut usize, given: &mut bool, buffer: *const u8, buffer_len: usize,
        most: usize, found: &mut bool, piece_start: &mut usize, piece_size: &mut usize) -> i32;
}

/// A reassembly queue's numbers, as the library keeps them.
#[derive(Clone, Debug, Default, PartialEq, Eq)]
pub(crate) struct Numbers {
    pub si: u16,
    pub next_ssn: u16,
    pub max_message_size: u32,
    pub finished: usize,
    pub unordered: usize,
    pub ordered: usize,
    pub n_bytes: usize,
}

/// A message in hand: its numbers, as the library keeps them.
#[derive(Clone, Debug, Default, PartialEq, Eq)]
pub(crate) struct Hand {
    pub ssn: u16,
    pub ppi: u32,
    pub bytes: usize,
    pub position: usize,
    pub given: bool,
}

// ---- chunks ----

#[inline]
pub(crate) fn header_unmarshal(raw: &[u8], typ: &mut u8, flags: &mut u8, size: &mut u16) -> i32 {
    // SAFETY: pointer and length are one slice's.
    unsafe { sctp_receive_header_unmarshal(raw.as_ptr(), raw.len(), typ, flags, size) }
}

#[inline]
pub(crate) fn data_unmarshal(raw: &[u8], p: &mut ChunkPayloadData) -> i32 {
    let (raw, raw_len) = (raw.as_ptr(), raw.len());
    let (u, b, e, i) = (&mut p.unordered, &mut p.beginning_fragment, &mut p.ending_fragment, &mut p.immediate_sack);
    let (tsn, stream, ssn, ppi) = (&mut p.tsn, &mut p.stream_identifier, &mut p.stream_sequence_number, &mut p.payload_type);
    // SAFETY: pointer and length are one slice's.
    unsafe { sctp_receive_data_unmarshal(raw, raw_len, u, b, e, i, tsn, stream, ssn, ppi) }
}

#[inline]
pub(crate) fn data_user_data(raw: &[u8], start: &mut usize, size: &mut usize) -> i32 {
    // SAFETY: pointer and length are one slice's.
    unsafe { sctp_receive_data_user_data(raw.as_ptr(), raw.len(), start, size) }
}

#[inline]
pub(crate) fn data_marshal_to(out: &mut [u8], p: &ChunkPayloadData, user: &[u8], n: &mut usize) -> i32 {
    let (out, out_len) = (out.as_mut_ptr(), out.len());
    let (u, b, e, i) = (p.unordered, p.beginning_fragment, p.ending_fragment, p.immediate_sack);
    let (tsn, stream, ssn, ppi) = (p.tsn, p.stream_identifier, p.stream_sequence_number, p.payload_type);
    // SAFETY: each pointer and the length after it are one slice's, and `out` is lent to us alone.
    unsafe { sctp_receive_data_marshal_to(out, out_len, u, b, e, i, tsn, stream, ssn, ppi, user.as_ptr(), user.len(), n) }
}

#[inline]
pub(crate) fn sack_unmarshal(raw: &[u8], cumulative: &mut u32, window: &mut u32, blocks: &mut u16, duplicates: &mut u16) -> i32 {
    // SAFETY: pointer and length are one slice's.
    unsafe { sctp_receive_sack_unmarshal(raw.as_ptr(), raw.len(), cumulative, window, blocks, duplicates) }
}

#[inline]
pub(crate) fn sack_gap_ack_blocks(raw: &[u8], start: &mut usize, size: &mut usize) -> i32 {
    // SAFETY: pointer and length are one slice's.
    unsafe { sctp_receive_sack_gap_ack_blocks(raw.as_ptr(), raw.len(), start, size) }
}

#[inline]
pub(crate) fn sack_duplicate_tsns(raw: &[u8], start: &mut usize, size: &mut usize) -> i32 {
    // SAFETY: pointer and length are one slice's.
    unsafe { sctp_receive_sack_duplicate_tsns(raw.as_ptr(), raw.len(), start, size) }
}

#[inline]
pub(crate) fn sack_gap_ack_block_at(part: &[u8], i: usize, start: &mut u16, end: &mut u16) -> i32 {
    // SAFETY: pointer and length are one slice's.
    unsafe { sctp_receive_sack_gap_ack_block_at(part.as_ptr(), part.len(), i, start, end) }
}

#[inline]
pub(crate) fn sack_duplicate_tsn_at(part: &[u8], i: usize, tsn: &mut u32) -> i32 {
    // SAFETY: pointer and length are one slice's.
    unsafe { sctp_receive_sack_duplicate_tsn_at(part.as_ptr(), part.len(), i, tsn) }
}

#[inline]
pub(crate) fn sack_marshal_to(
    out: &mut [u8],
    cumulative: u32,
    window: u32,
    starts: &[u16],
    ends: &[u16],
    duplicates: &[u32],
    n: &mut usize,
) -> i32 {
    let (out, out_len) = (out.as_mut_ptr(), out.len());
    let (starts, starts_len) = (starts.as_ptr(), starts.len());
    let (ends, ends_len) = (ends.as_ptr(), ends.len());
    let (dups, dups_len) = (duplicates.as_ptr(), duplicates.len());
    // SAFETY: each pointer and the length after it are one slice's, and `out` is lent to us alone.
    unsafe { sctp_receive_sack_marshal_to(out, out_len, cumulative, window, starts, starts_len, ends, ends_len, dups, dups_len, n) }
}

// ---- the TSN queue ----

#[inline]
pub(crate) fn payload_queue_get_gap_ack_blocks(
    (count, n_bytes, dups): (usize, usize, usize),
    dup_tsn: &[u32; LOG],
    table: &[u32; TSN_WORDS],
    cumulative: u32,
    starts: &mut [u16],
    ends: &mut [u16],
    n: &mut usize,
) -> i32 {
    let (starts, starts_len) = (starts.as_mut_ptr(), starts.len());
    let (ends, ends_len) = (ends.as_mut_ptr(), ends.len());
    // SAFETY: each pointer and the length after it are one slice's, and both lists are lent to us alone.
    unsafe {
        sctp_receive_payload_queue_get_gap_ack_blocks(
            count, n_bytes, dups, dup_tsn, table, cumulative, starts, starts_len, ends, ends_len, n,
        )
    }
}

// ---- reassembly ----

#[inline]
pub(crate) fn reassembly_queue_push(
    q: &mut Numbers,
    table: &mut [u32; FRAGMENT_WORDS],
    pool: &mut [u8],
    p: &ChunkPayloadData,
    data: &[u8],
    is: &mut bool,
) -> i32 {
    let (pool, pool_len) = (pool.as_mut_ptr(), pool.len());
    let (u, b, e, i) = (p.unordered, p.beginning_fragment, p.ending_fragment, p.immediate_sack);
    let (tsn, stream, ssn, ppi) = (p.tsn, p.stream_identifier, p.stream_sequence_number, p.payload_type);
    let (data, data_len) = (data.as_ptr(), data.len());
    let (si, next, max) = (&mut q.si, &mut q.next_ssn, &mut q.max_message_size);
    let (finished, unordered, ordered, n_bytes) = (&mut q.finished, &mut q.unordered, &mut q.ordered, &mut q.n_bytes);
    // SAFETY: each pointer and the length after it are one slice's, and the pool is lent to us alone.
    unsafe {
        sctp_receive_reassembly_queue_push(
            si, next, max, finished, unordered, ordered, n_bytes, table, pool, pool_len, u, b, e, i, tsn, stream, ssn, ppi, data, data_len,
            is,
        )
    }
}

#[inline]
pub(crate) fn reassembly_queue_is_readable(q: &Numbers, table: &[u32; FRAGMENT_WORDS], pool: &[u8], is: &mut bool) -> i32 {
    let (pool, pool_len) = (pool.as_ptr(), pool.len());
    let (si, next, max) = (q.si, q.next_ssn, q.max_message_size);
    // SAFETY: pointer and length are one slice's.
    unsafe {
        sctp_receive_reassembly_queue_is_readable(si, next, max, q.finished, q.unordered, q.ordered, q.n_bytes, table, pool, pool_len, is)
    }
}

#[inline]
pub(crate) fn reassembly_queue_read(
    q: &mut Numbers,
    table: &mut [u32; FRAGMENT_WORDS],
    pool: &mut [u8],
    buffer: &mut [u8],
    found: &mut bool,
    m: &mut Hand,
) -> i32 {
    let (pool, pool_len) = (pool.as_mut_ptr(), pool.len());
    let (buffer, buffer_len) = (buffer.as_mut_ptr(), buffer.len());
    let (si, next, max) = (&mut q.si, &mut q.next_ssn, &mut q.max_message_size);
    let (finished, unordered, ordered, n_bytes) = (&mut q.finished, &mut q.unordered, &mut q.ordered, &mut q.n_bytes);
    let (ssn, ppi, bytes, position, given) = (&mut m.ssn, &mut m.ppi, &mut m.bytes, &mut m.position, &mut m.given);
    // SAFETY: each pointer and the length after it are one slice's, and pool and buffer are lent to us alone.
    unsafe {
        sctp_receive_reassembly_queue_read(
            si, next, max, finished, unordered, ordered, n_bytes, table, pool, pool_len, buffer, buffer_len, found, ssn, ppi, bytes,
            position, given,
        )
    }
}

#[inline]
pub(crate) fn reassembly_queue_forward_tsn_for_ordered(
    q: &mut Numbers,
    table: &mut [u32; FRAGMENT_WORDS],
    pool: &mut [u8],
    last_ssn: u16,
) -> i32 {
    let (pool, pool_len) = (pool.as_mut_ptr(), pool.len());
    let (si, next, max) = (&mut q.si, &mut q.next_ssn, &mut q.max_message_size);
    let (finished, unordered, ordered, n_bytes) = (&mut q.finished, &mut q.unordered, &mut q.ordered, &mut q.n_bytes);
    // SAFETY: pointer and length are one slice's, and the pool is lent to us alone.
    unsafe {
        sctp_receive_reassembly_queue_forward_tsn_for_ordered(
            si, next, max, finished, unordered, ordered, n_bytes, table, pool, pool_len, last_ssn,
        )
    }
}

/// The SSN and the new cumulative TSN of a bounded skip.
#[inline]
pub(crate) fn reassembly_queue_forward_tsn_for_ordered_bounded(
    q: &mut Numbers,
    table: &mut [u32; FRAGMENT_WORDS],
    pool: &mut [u8],
    (last_ssn, new_cumulative_tsn): (u16, u32),
) -> i32 {
    let (pool, pool_len) = (pool.as_mut_ptr(), pool.len());
    let (si, next, max) = (&mut q.si, &mut q.next_ssn, &mut q.max_message_size);
    let (finished, unordered, ordered, n_bytes) = (&mut q.finished, &mut q.unordered, &mut q.ordered, &mut q.n_bytes);
    // SAFETY: pointer and length are one slice's, and the pool is lent to us alone.
    unsafe {
        sctp_receive_reassembly_queue_forward_tsn_for_ordered_bounded(
            si,
            next,
            max,
            finished,
            unordered,
            ordered,
            n_bytes,
            table,
            pool,
            pool_len,
            last_ssn,
            new_cumulative_tsn,
        )
    }
}

/// The SSN, the new cumulative TSN and the peer's last TSN of a bounded skip.
#[inline]
pub(crate) fn reassembly_queue_applicable_forward_tsn_for_ordered_bounded(
    q: &Numbers,
    table: &[u32; FRAGMENT_WORDS],
    pool: &[u8],
    (last_ssn, new_cumulative_tsn, peer_last_tsn): (u16, u32, u32),
    found: &mut bool,
    ssn: &mut u16,
) -> i32 {
    let (pool, pool_len) = (pool.as_ptr(), pool.len());
    // SAFETY: pointer and length are one slice's.
    unsafe {
        sctp_receive_reassembly_queue_applicable_forward_tsn_for_ordered_bounded(
            q.si,
            q.next_ssn,
            q.max_message_size,
            q.finished,
            q.unordered,
            q.ordered,
            q.n_bytes,
            table,
            pool,
            pool_len,
            last_ssn,
            new_cumulative_tsn,
            peer_last_tsn,
            found,
            ssn,
        )
    }
}

#[inline]
pub(crate) fn reassembly_queue_forward_tsn_for_unordered(
    q: &mut Numbers,
    table: &mut [u32; FRAGMENT_WORDS],
    pool: &mut [u8],
    new_cumulative_tsn: u32,
) -> i32 {
    let (pool, pool_len) = (pool.as_mut_ptr(), pool.len());
    let (si, next, max) = (&mut q.si, &mut q.next_ssn, &mut q.max_message_size);
    let (finished, unordered, ordered, n_bytes) = (&mut q.finished, &mut q.unordered, &mut q.ordered, &mut q.n_bytes);
    // SAFETY: pointer and length are one slice's, and the pool is lent to us alone.
    unsafe {
        sctp_receive_reassembly_queue_forward_tsn_for_unordered(
            si,
            next,
            max,
            finished,
            unordered,
            ordered,
            n_bytes,
            table,
            pool,
            pool_len,
            new_cumulative_tsn,
        )
    }
}

#[inline]
pub(crate) fn reassembly_queue_get_num_bytes(q: &Numbers, table: &[u32; FRAGMENT_WORDS], pool: &[u8], n: &mut usize) -> i32 {
    let (pool, pool_len) = (pool.as_ptr(), pool.len());
    let (si, next, max) = (q.si, q.next_ssn, q.max_message_size);
    // SAFETY: pointer and length are one slice's.
    unsafe {
        sctp_receive_reassembly_queue_get_num_bytes(si, next, max, q.finished, q.unordered, q.ordered, q.n_bytes, table, pool, pool_len, n)
    }
}
