//! The TSN queue.
use crate::ffi::{self, LOG, TSN_WORDS};
use crate::{ChunkPayloadData, Error};

/// Which TSNs came, in which order they stand, and which came twice: at most 1,024 TSNs and 64 logged duplicates. It keeps header fields and data
/// lengths; payload bytes live in [`ReassemblyQueue`](crate::ReassemblyQueue).
#[derive(Clone, Debug)]
pub struct PayloadQueue {
    count: usize,
    n_bytes: usize,
    dups: usize,
    dup_tsn: [u32; LOG],
    table: [u32; TSN_WORDS],
}

/// A chunk as the TSN queue holds it: its header fields and the length of its data.
#[derive(Clone, Copy, Debug, Default, PartialEq, Eq, Hash)]
pub struct Queued {
    /// The header fields.
    pub chunk: ChunkPayloadData,
    /// The number of data bytes.
    pub size: u16,
}

/// The log of duplicates: all places, unused ones 0, and how many are used.
#[derive(Clone, Copy, Debug, PartialEq, Eq)]
pub struct Duplicates {
    /// How many are used.
    pub count: usize,
    /// All places.
    pub tsns: [u32; LOG],
}

impl Duplicates {
    /// Those that are used.
    #[inline]
    pub fn as_slice(&self) -> &[u32] {
        &self.tsns[..self.count]
    }
}

/// The result of a call that refuses nothing but an unsound queue or message. One that owns its table is proved to stay sound over whole runs of calls, so there is
/// no such refusal to hand on.
#[inline]
pub(crate) fn never_refused(result: i32) {
    debug_assert_eq!(result, -1, "the queue is unsound");
}

impl Default for PayloadQueue {
    fn default() -> Self {
        Self::new()
    }
}

impl PayloadQueue {
    /// A fresh queue.
    #[inline]
    pub fn new() -> Self {
        let mut q = Self { count: 0, n_bytes: 0, dups: 0, dup_tsn: [0; LOG], table: [0; TSN_WORDS] };
        ffi::sctp_receive_payload_queue_new(&mut q.count, &mut q.n_bytes, &mut q.dups, &mut q.dup_tsn);
        q
    }

    /// Whether the TSN is neither held nor at or before the cumulative one. Also of one that is opposite to the cumulative one, which
    /// [`push`](Self::push) refuses.
    #[inline]
    pub fn can_push(&self, tsn: u32, cumulative_tsn: u32) -> bool {
        let (q, mut is) = (self, false);
        let result =
            ffi::sctp_receive_payload_queue_can_push(q.count, q.n_bytes, q.dups, &q.dup_tsn, &q.table, tsn, cumulative_tsn, &mut is);
        never_refused(result);
        is
    }

    /// Stores a chunk of `size` data bytes by its TSN: true; or logs its TSN, where it is held or at or before the cumulative one: false.
    /// [`Error::OppositeTsn`], ahead of these and with no logging, where it is opposite to the cumulative one; [`Error::Full`] where 1,024 are held.
    #[inline]
    pub fn push(&mut self, p: &ChunkPayloadData, size: u16, cumulative_tsn: u32) -> Result<bool, Error> {
        let (q, mut is) = (self, false);
        Error::check(ffi::sctp_receive_payload_queue_push(
            &mut q.count,
            &mut q.n_bytes,
            &mut q.dups,
            &mut q.dup_tsn,
            &mut q.table,
            p.unordered,
            p.beginning_fragment,
            p.ending_fragment,
            p.immediate_sack,
            p.tsn,
            p.stream_identifier,
            p.stream_sequence_number,
            p.payload_type,
            size,
            cumulative_tsn,
            &mut is,
        ))?;
        Ok(is)
    }

    /// Removes and gives the first chunk, if its TSN is this one; else nothing changes.
    #[inline]
    pub fn pop(&mut self, tsn: u32) -> Option<Queued> {
        let (q, mut found, mut out) = (self, false, Queued::default());
        let p = &mut out.chunk;
        never_refused(ffi::sctp_receive_payload_queue_pop(
            &mut q.count,
            &mut q.n_bytes,
            &mut q.dups,
            &mut q.dup_tsn,
            &mut q.table,
            tsn,
            &mut found,
            &mut p.unordered,
            &mut p.beginning_fragment,
            &mut p.ending_fragment,
            &mut p.immediate_sack,
            &mut p.tsn,
            &mut p.stream_identifier,
            &mut p.stream_sequence_number,
            &mut p.payload_type,
            &mut out.size,
        ));
        found.then_some(out)
    }

    /// Drops every TSN at or before this one.
    #[inline]
    pub fn pop_up_to(&mut self, cumulative_tsn: u32) {
        let q = self;
        let result = ffi::sctp_receive_payload_queue_pop_up_to(
            &mut q.count,
            &mut q.n_bytes,
            &mut q.dups,
            &mut q.dup_tsn,
            &mut q.table,
            cumulative_tsn,
        );
        never_refused(result);
    }

    /// Applies a FORWARD TSN chunk: drops every TSN at or before its new cumulative one; nothing where that is at or before the cumulative one.
    #[inline]
    pub fn apply_forward_tsn(&mut self, cumulative_tsn: u32, new_cumulative_tsn: u32) {
        let q = self;
        let result = ffi::sctp_receive_forward_tsn_apply_to_tsns(
            &mut q.count,
            &mut q.n_bytes,
            &mut q.dups,
            &mut q.dup_tsn,
            &mut q.table,
            cumulative_tsn,
            new_cumulative_tsn,
        );
        never_refused(result);
    }

    /// The chunk that is held with this TSN.
    #[inline]
    pub fn get(&self, tsn: u32) -> Option<Queued> {
        let (q, mut found, mut out) = (self, false, Queued::default());
        let p = &mut out.chunk;
        never_refused(ffi::sctp_receive_payload_queue_get(
            q.count,
            q.n_bytes,
            q.dups,
            &q.dup_tsn,
            &q.table,
            tsn,
            &mut found,
            &mut p.unordered,
            &mut p.beginning_fragment,
            &mut p.ending_fragment,
            &mut p.immediate_sack,
            &mut p.tsn,
            &mut p.stream_identifier,
            &mut p.stream_sequence_number,
            &mut p.payload_type,
            &mut out.size,
        ));
        found.then_some(out)
    }

    /// Hands out the log of duplicates, and empties it.
    #[inline]
    pub fn pop_duplicates(&mut self) -> Duplicates {
        let (q, mut out) = (self, Duplicates { count: 0, tsns: [0; LOG] });
        never_refused(ffi::sctp_receive_payload_queue_pop_duplicates(
            &mut q.count,
            &mut q.n_bytes,
            &mut q.dups,
            &mut q.dup_tsn,
            &q.table,
            &mut out.count,
            &mut out.tsns,
        ));
        out
    }

    /// The gap report: starts and ends of its blocks go to the front of the lists, and their count is the answer. Lists of 1,024 places always do;
    /// [`Error::NoRoom`] where one is too short.
    #[inline]
    pub fn get_gap_ack_blocks(&self, cumulative_tsn: u32, starts: &mut [u16], ends: &mut [u16]) -> Result<usize, Error> {
        let (q, mut n) = (self, 0);
        let counts = (q.count, q.n_bytes, q.dups);
        Error::check(ffi::payload_queue_get_gap_ack_blocks(counts, &q.dup_tsn, &q.table, cumulative_tsn, starts, ends, &mut n))?;
        Ok(n)
    }

    /// The TSN that stands last.
    #[inline]
    pub fn get_last_tsn_received(&self) -> Option<u32> {
        let (q, mut found, mut tsn) = (self, false, 0);
        let result =
            ffi::sctp_receive_payload_queue_get_last_tsn_received(q.count, q.n_bytes, q.dups, &q.dup_tsn, &q.table, &mut found, &mut tsn);
        never_refused(result);
        found.then_some(tsn)
    }

    /// The sum of the held data lengths.
    #[inline]
    pub fn get_num_bytes(&self) -> usize {
        let (q, mut n) = (self, 0);
        never_refused(ffi::sctp_receive_payload_queue_get_num_bytes(q.count, q.n_bytes, q.dups, &q.dup_tsn, &q.table, &mut n));
        n
    }

    /// How many TSNs are held.
    #[inline]
    pub fn len(&self) -> usize {
        let (q, mut n) = (self, 0);
        never_refused(ffi::sctp_receive_payload_queue_len(q.count, q.n_bytes, q.dups, &q.dup_tsn, &q.table, &mut n));
        n
    }

    /// Whether none is held.
    #[inline]
    pub fn is_empty(&self) -> bool {
        let (q, mut is) = (self, false);
        never_refused(ffi::sctp_receive_payload_queue_is_empty(q.count, q.n_bytes, q.dups, &q.dup_tsn, &q.table, &mut is));
        is
    }

    /// Whether a chunk of this stream is held.
    #[inline]
    pub fn contains_stream(&self, stream_identifier: u16) -> bool {
        let (q, mut is) = (self, false);
        let result =
            ffi::sctp_receive_payload_queue_contains_stream(q.count, q.n_bytes, q.dups, &q.dup_tsn, &q.table, stream_identifier, &mut is);
        never_refused(result);
        is
    }
}
