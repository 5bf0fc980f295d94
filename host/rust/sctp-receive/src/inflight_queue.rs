//! The sender's in-flight queue.
use crate::ffi::{self, TSN_WORDS, TSNS};
use crate::payload_queue::never_refused;
use crate::{ChunkPayloadData, Error, Queued};

/// Which chunks were sent and not yet taken out, what became of each, and how many of their bytes are not released: at most 1,024 TSNs. It keeps header
/// fields, data lengths, marks and the number of each chunk's message.
#[derive(Clone, Debug)]
pub struct InFlightQueue {
    count: usize,
    n_bytes: usize,
    table: [u32; TSN_WORDS],
    messages: [u64; TSNS],
}

/// A chunk as the in-flight queue holds it.
#[derive(Clone, Copy, Debug, Default, PartialEq, Eq, Hash)]
pub struct Sent {
    /// The header fields, and the number of data bytes that are not released.
    pub queued: Queued,
    /// It was acknowledged.
    pub acked: bool,
    /// Its message was abandoned.
    pub abandoned: bool,
    /// It is to be sent again.
    pub retransmit: bool,
    /// The number of its message.
    pub message_id: u64,
}

impl Default for InFlightQueue {
    fn default() -> Self {
        Self::new()
    }
}

impl InFlightQueue {
    /// A fresh queue.
    #[inline]
    pub fn new() -> Self {
        let mut q = Self { count: 0, n_bytes: 0, table: [0; TSN_WORDS], messages: [0; TSNS] };
        ffi::sctp_receive_inflight_queue_new(&mut q.count, &mut q.n_bytes);
        q
    }

    /// Stores a chunk of `size` data bytes by its TSN, without a mark. [`Error::InFlight`] where the TSN is held, then [`Error::Full`] where 1,024 are.
    #[inline]
    pub fn push_no_check(&mut self, p: &ChunkPayloadData, size: u16, message_id: u64) -> Result<(), Error> {
        let q = self;
        Error::check(ffi::sctp_receive_inflight_queue_push_no_check(
            &mut q.count,
            &mut q.n_bytes,
            &mut q.table,
            &mut q.messages,
            p.unordered,
            p.beginning_fragment,
            p.ending_fragment,
            p.immediate_sack,
            p.tsn,
            p.stream_identifier,
            p.stream_sequence_number,
            p.payload_type,
            size,
            message_id,
        ))
    }

    /// Acknowledges the chunk with this TSN: how many bytes that releases, 0 the second time and where none is held with this TSN.
    #[inline]
    pub fn mark_as_acked(&mut self, tsn: u32) -> usize {
        let (q, mut released) = (self, 0);
        never_refused(ffi::sctp_receive_inflight_queue_mark_as_acked(&mut q.count, &mut q.n_bytes, &mut q.table, tsn, &mut released));
        released
    }

    /// Marks every chunk to be sent again that is neither acknowledged nor abandoned.
    #[inline]
    pub fn mark_all_to_retransmit(&mut self) {
        let q = self;
        never_refused(ffi::sctp_receive_inflight_queue_mark_all_to_retransmit(&mut q.count, &mut q.n_bytes, &mut q.table));
    }

    /// Abandons every chunk of this message: how many bytes that releases.
    #[inline]
    pub fn abandon_message(&mut self, message_id: u64) -> usize {
        let (q, mut released) = (self, 0);
        never_refused(ffi::sctp_receive_inflight_queue_abandon_message(
            &mut q.count,
            &mut q.n_bytes,
            &mut q.table,
            &q.messages,
            message_id,
            &mut released,
        ));
        released
    }

    /// Removes and gives the first chunk, if its TSN is this one; else nothing changes.
    #[inline]
    pub fn pop(&mut self, tsn: u32) -> Option<Sent> {
        let (q, mut found, mut out) = (self, false, Sent::default());
        let p = &mut out.queued.chunk;
        never_refused(ffi::sctp_receive_inflight_queue_pop(
            &mut q.count,
            &mut q.n_bytes,
            &mut q.table,
            &mut q.messages,
            tsn,
            &mut found,
            &mut p.unordered,
            &mut p.beginning_fragment,
            &mut p.ending_fragment,
            &mut p.immediate_sack,
            &mut p.tsn,
            &mut p.stream_identifier,
            &mut p.stream_sequence_number,
            &mut p.payload_type,
            &mut out.queued.size,
            &mut out.acked,
            &mut out.abandoned,
            &mut out.retransmit,
            &mut out.message_id,
        ));
        found.then_some(out)
    }

    /// Drops every TSN at or before this one.
    #[inline]
    pub fn pop_up_to(&mut self, cumulative_tsn: u32) {
        let q = self;
        let result =
            ffi::sctp_receive_inflight_queue_pop_up_to(&mut q.count, &mut q.n_bytes, &mut q.table, &mut q.messages, cumulative_tsn);
        never_refused(result);
    }

    /// The chunk that is held with this TSN.
    #[inline]
    pub fn get(&self, tsn: u32) -> Option<Sent> {
        let (q, mut found, mut out) = (self, false, Sent::default());
        let p = &mut out.queued.chunk;
        never_refused(ffi::sctp_receive_inflight_queue_get(
            q.count,
            q.n_bytes,
            &q.table,
            &q.messages,
            tsn,
            &mut found,
            &mut p.unordered,
            &mut p.beginning_fragment,
            &mut p.ending_fragment,
            &mut p.immediate_sack,
            &mut p.tsn,
            &mut p.stream_identifier,
            &mut p.stream_sequence_number,
            &mut p.payload_type,
            &mut out.queued.size,
            &mut out.acked,
            &mut out.abandoned,
            &mut out.retransmit,
            &mut out.message_id,
        ));
        found.then_some(out)
    }

    /// The sum of the lengths that are not released.
    #[inline]
    pub fn get_num_bytes(&self) -> usize {
        let (q, mut n) = (self, 0);
        never_refused(ffi::sctp_receive_inflight_queue_get_num_bytes(q.count, q.n_bytes, &q.table, &mut n));
        n
    }

    /// How many TSNs are held.
    #[inline]
    pub fn len(&self) -> usize {
        let (q, mut n) = (self, 0);
        never_refused(ffi::sctp_receive_inflight_queue_len(q.count, q.n_bytes, &q.table, &mut n));
        n
    }

    /// Whether none is held.
    #[inline]
    pub fn is_empty(&self) -> bool {
        let (q, mut is) = (self, false);
        never_refused(ffi::sctp_receive_inflight_queue_is_empty(q.count, q.n_bytes, &q.table, &mut is));
        is
    }
}
