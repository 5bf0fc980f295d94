//! Refusals, by the numbers of documents 01 and 02.
use core::fmt;

/// Why a call said no. `as i32` is the documents' number. A refusal changes nothing; [`Error::ShortBuffer`] alone leaves what fits of the
/// message in the buffer.
#[derive(Clone, Copy, Debug, PartialEq, Eq, Hash)]
#[repr(i32)]
pub enum Error {
    /// 0: a queue or message whose numbers contradict its table, pool or buffer. The queues of this crate own theirs, and are proved to stay sound.
    Unsound = 0,
    /// 1: fewer than 4 bytes lent, left at a place of a packet, or in a cause that holds a chunk.
    NoHeader = 1,
    /// 2: chunk length below 4 or above these bytes.
    BadLength = 2,
    /// 3: not the type asked for (sctp-proto: `ErrChunkTypeNotPayloadData`, `ErrChunkTypeNotSack`, `ErrChunkTypeNotForwardTsn`, `ErrChunkTypeNotCt`,
    /// `ErrChunkTypeNotAbort`).
    ChunkTypeNotAskedFor = 3,
    /// 4: DATA length below 16 (`ErrChunkPayloadSmall`).
    ChunkPayloadSmall = 4,
    /// 5: SACK length below 16, or below 16 + 4N + 4X.
    SackTooSmall = 5,
    /// 6: the message would be above the maximum (`ErrInboundPacketTooLarge`).
    InboundPacketTooLarge = 6,
    /// 7: a whole read into too short a buffer (`ErrShortBuffer`).
    ShortBuffer = 7,
    /// 8: the table or the pool has no room left.
    Full = 8,
    /// 9: DATA above 65,519 bytes, SACK above 16,379 entries, FORWARD TSN above 16,381 pairs, or lists of unequal length that belong together.
    TooLong = 9,
    /// 10: write or take buffer, or a list of a gap report or of causes, too short.
    NoRoom = 10,
    /// 11: list index at or past its count; place below 12 or past the packet.
    PastTheList = 11,
    /// 12: FORWARD TSN length below 8, or not 8 plus a multiple of 4 (`ErrChunkTooShort`).
    ChunkTooShort = 12,
    /// 13: a packet of fewer than 12 bytes (`ErrPacketRawTooSmall`).
    PacketRawTooSmall = 13,
    /// 14: a packet with a wrong checksum (`ErrChecksumMismatch`).
    ChecksumMismatch = 14,
    /// 15: DATA without data, read or written (RFC 4960 section 3.3.1 wants a byte at least).
    NoUserData = 15,
    /// 16: one to three bytes where a cause should start, or a cause length below 4 or past its chunk (`ErrErrorCauseTooSmall`).
    ErrorCauseTooSmall = 16,
    /// 17: a TSN exactly 2^31 from the cumulative one, the sign of a corrupt peer.
    OppositeTsn = 17,
    /// 18: the TSN is in flight already.
    InFlight = 18,
}

impl Error {
    /// Every refusal, in the order of their numbers.
    pub const ALL: [Error; 19] = [
        Error::Unsound,
        Error::NoHeader,
        Error::BadLength,
        Error::ChunkTypeNotAskedFor,
        Error::ChunkPayloadSmall,
        Error::SackTooSmall,
        Error::InboundPacketTooLarge,
        Error::ShortBuffer,
        Error::Full,
        Error::TooLong,
        Error::NoRoom,
        Error::PastTheList,
        Error::ChunkTooShort,
        Error::PacketRawTooSmall,
        Error::ChecksumMismatch,
        Error::NoUserData,
        Error::ErrorCauseTooSmall,
        Error::OppositeTsn,
        Error::InFlight,
    ];

    /// What a result of the library says: -1 is `Ok`. It is proved to have no other numbers than the documents'.
    #[inline]
    pub(crate) fn check(result: i32) -> Result<(), Error> {
        if result == -1 {
            return Ok(());
        }
        let refusal = Self::ALL.into_iter().find(|e| *e as i32 == result);
        debug_assert!(refusal.is_some(), "the documents have no refusal {result}");
        Err(refusal.unwrap_or(Error::Unsound))
    }
}

impl fmt::Display for Error {
    fn fmt(&self, f: &mut fmt::Formatter<'_>) -> fmt::Result {
        f.write_str(match self {
            Error::Unsound => "the queue or message is unsound",
            Error::NoHeader => "fewer than 4 bytes",
            Error::BadLength => "the chunk's length is below 4 or above what is there",
            Error::ChunkTypeNotAskedFor => "another chunk type",
            Error::ChunkPayloadSmall => "DATA shorter than 16 bytes",
            Error::SackTooSmall => "SACK shorter than its lists",
            Error::InboundPacketTooLarge => "the message is above the maximum",
            Error::ShortBuffer => "the buffer is shorter than the message",
            Error::Full => "no room is left",
            Error::TooLong => "longer than a chunk can be, or lists of unequal length",
            Error::NoRoom => "the buffer or list is too short",
            Error::PastTheList => "past the end of the list, or no place of the packet",
            Error::ChunkTooShort => "FORWARD TSN shorter than 8 bytes, or with a part of a pair",
            Error::PacketRawTooSmall => "a packet shorter than 12 bytes",
            Error::ChecksumMismatch => "the packet's checksum is wrong",
            Error::NoUserData => "DATA without data",
            Error::ErrorCauseTooSmall => "a cause shorter than 4 bytes, or longer than its chunk",
            Error::OppositeTsn => "the TSN is half way round from the cumulative one",
            Error::InFlight => "the TSN is in flight already",
        })
    }
}

impl core::error::Error for Error {}
