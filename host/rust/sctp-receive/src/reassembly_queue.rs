//! Reassembly of one stream, and the message in hand.
use crate::ffi::{self, BYTES, FRAGMENT_WORDS, Hand, Numbers};
use crate::payload_queue::never_refused;
use crate::{ChunkPayloadData, Error, ForwardTsnStreams, PayloadProtocolIdentifier};

/// Fragments to messages, for one stream: at most 512 fragments and 65,536 payload bytes are held. It is some 74 KB large: a `static` or a field is the place for it.
#[derive(Clone, Debug)]
pub struct ReassemblyQueue {
    numbers: Numbers,
    table: [u32; FRAGMENT_WORDS],
    pool: [u8; BYTES],
}

impl ReassemblyQueue {
    /// A fresh queue of a stream, which takes messages of at most so many bytes.
    #[inline]
    pub fn new(si: u16, max_message_size: u32) -> Self {
        let mut q = Self { numbers: Numbers::default(), table: [0; FRAGMENT_WORDS], pool: [0; BYTES] };
        let m = &mut q.numbers;
        ffi::sctp_receive_reassembly_queue_new(
            si,
            max_message_size,
            &mut m.si,
            &mut m.next_ssn,
            &mut m.max_message_size,
            &mut m.finished,
            &mut m.unordered,
            &mut m.ordered,
            &mut m.n_bytes,
        );
        q
    }

    /// Stores the chunk with its user data: true where that completes a message. False where it is of another stream, its SSN is before the expected
    /// one, or its TSN is there already. [`Error::InboundPacketTooLarge`] where the message would be above the maximum, [`Error::Full`] where no
    /// room is left.
    #[inline]
    pub fn push(&mut self, chunk: &ChunkPayloadData, user_data: &[u8]) -> Result<bool, Error> {
        let mut is = false;
        Error::check(ffi::reassembly_queue_push(&mut self.numbers, &mut self.table, &mut self.pool, chunk, user_data, &mut is))?;
        Ok(is)
    }

    /// Whether a message can be taken.
    #[inline]
    pub fn is_readable(&self) -> bool {
        let mut is = false;
        never_refused(ffi::reassembly_queue_is_readable(&self.numbers, &self.table, &self.pool, &mut is));
        is
    }

    /// Takes the oldest finished unordered message, else the first ordered set if it is complete and not after the expected one, to the front of
    /// `buffer`. [`Error::NoRoom`] where that is too short, and the message stays.
    #[inline]
    pub fn read<'a>(&mut self, buffer: &'a mut [u8]) -> Result<Option<Chunks<'a>>, Error> {
        let (mut found, mut hand) = (false, Hand::default());
        Error::check(ffi::reassembly_queue_read(&mut self.numbers, &mut self.table, &mut self.pool, buffer, &mut found, &mut hand))?;
        Ok(found.then_some(Chunks { hand, buffer }))
    }

    /// Drops incomplete sets at or before an SSN, and expects the one after it.
    #[inline]
    pub fn forward_tsn_for_ordered(&mut self, last_ssn: u16) {
        never_refused(ffi::reassembly_queue_forward_tsn_for_ordered(&mut self.numbers, &mut self.table, &mut self.pool, last_ssn));
    }

    /// Drops loose unordered fragments from the front up to the first one after a TSN.
    #[inline]
    pub fn forward_tsn_for_unordered(&mut self, new_cumulative_tsn: u32) {
        let result =
            ffi::reassembly_queue_forward_tsn_for_unordered(&mut self.numbers, &mut self.table, &mut self.pool, new_cumulative_tsn);
        never_refused(result);
    }

    /// A skip held over a stream reset, with the cumulative TSN that it came with: drops incomplete sets at or before an SSN that this TSN reaches, and
    /// expects the first set that it does not reach, or the SSN after the last, where that is later than what is expected.
    #[inline]
    pub fn forward_tsn_for_ordered_bounded(&mut self, last_ssn: u16, new_cumulative_tsn: u32) {
        let skip = (last_ssn, new_cumulative_tsn);
        never_refused(ffi::reassembly_queue_forward_tsn_for_ordered_bounded(&mut self.numbers, &mut self.table, &mut self.pool, skip));
    }

    /// The SSN up to which such a skip applies by now, if there is one.
    #[inline]
    pub fn applicable_forward_tsn_for_ordered_bounded(&self, last_ssn: u16, new_cumulative_tsn: u32, peer_last_tsn: u32) -> Option<u16> {
        let (mut found, mut ssn) = (false, 0);
        let skip = (last_ssn, new_cumulative_tsn, peer_last_tsn);
        let result = ffi::reassembly_queue_applicable_forward_tsn_for_ordered_bounded(
            &self.numbers,
            &self.table,
            &self.pool,
            skip,
            &mut found,
            &mut ssn,
        );
        never_refused(result);
        found.then_some(ssn)
    }

    /// Applies a FORWARD TSN chunk: the ordered skip for each pair that names the stream, in their order, then one unordered skip; nothing where its
    /// new cumulative TSN is at or before the cumulative one.
    #[inline]
    pub fn apply_forward_tsn(&mut self, cumulative_tsn: u32, new_cumulative_tsn: u32, streams: ForwardTsnStreams<'_>) {
        let points = (cumulative_tsn, new_cumulative_tsn);
        never_refused(ffi::forward_tsn::apply_to_stream(&mut self.numbers, &mut self.table, &mut self.pool, points, streams.0));
    }

    /// The number of bytes held.
    #[inline]
    pub fn get_num_bytes(&self) -> usize {
        let mut n = 0;
        never_refused(ffi::reassembly_queue_get_num_bytes(&self.numbers, &self.table, &self.pool, &mut n));
        n
    }
}

/// A message in hand: its bytes stand at the front of the buffer that it was taken into.
#[derive(Debug, PartialEq, Eq)]
pub struct Chunks<'a> {
    hand: Hand,
    buffer: &'a [u8],
}

impl<'a> Chunks<'a> {
    /// Its SSN; 0 where it is unordered.
    #[inline]
    pub fn ssn(&self) -> u16 {
        self.hand.ssn
    }

    /// Its payload identifier, as it was sent.
    #[inline]
    pub fn ppi(&self) -> u32 {
        self.hand.ppi
    }

    /// The name of its payload identifier.
    #[inline]
    pub fn payload_name(&self) -> PayloadProtocolIdentifier {
        self.hand.ppi.into()
    }

    /// How many bytes it has.
    #[inline]
    pub fn len(&self) -> usize {
        let mut n = 0;
        never_refused(ffi::hand::len(&self.hand, self.buffer, &mut n));
        n
    }

    /// Whether it has none.
    #[inline]
    pub fn is_empty(&self) -> bool {
        let mut is = false;
        never_refused(ffi::hand::is_empty(&self.hand, self.buffer, &mut is));
        is
    }

    /// Copies the whole message to the front of `buf`; moves nothing. [`Error::ShortBuffer`] where that is too short: what fits is in it.
    #[inline]
    pub fn read(&self, buf: &mut [u8]) -> Result<usize, Error> {
        let mut n = 0;
        Error::check(ffi::hand::read(&self.hand, self.buffer, buf, &mut n))?;
        Ok(n)
    }

    /// The next piece, of at most so many bytes. n bytes come out in exactly max(1, n / max_length rounded up) pieces; with `max_length` 0 and
    /// bytes left the piece is empty and nothing moves. An empty message has one piece, an empty one.
    #[allow(clippy::should_implement_trait)]
    #[inline]
    pub fn next(&mut self, max_length: usize) -> Option<&'a [u8]> {
        let (mut found, mut start, mut size) = (false, 0, 0);
        never_refused(ffi::hand::next(&mut self.hand, self.buffer, max_length, &mut found, &mut start, &mut size));
        found.then(|| &self.buffer[start..start + size])
    }
}
