//! Chunks, read from lent bytes and written to the front of them.
use crate::{Error, ffi};

/// What a payload identifier says of the user data: five have names, `as u32` their numbers. It is a reading of the number, which is what chunks and messages hold.
#[derive(Clone, Copy, Debug, Default, PartialEq, Eq, Hash)]
#[repr(u32)]
pub enum PayloadProtocolIdentifier {
    /// 50
    Dcep = 50,
    /// 51
    String = 51,
    /// 53
    Binary = 53,
    /// 56
    StringEmpty = 56,
    /// 57
    BinaryEmpty = 57,
    /// A number without a name.
    #[default]
    Unknown = 58,
}

impl From<u32> for PayloadProtocolIdentifier {
    fn from(v: u32) -> Self {
        match v {
            50 => Self::Dcep,
            51 => Self::String,
            53 => Self::Binary,
            56 => Self::StringEmpty,
            57 => Self::BinaryEmpty,
            _ => Self::Unknown,
        }
    }
}

/// The header of a chunk: type, flags, and the length, which counts these 4 bytes and the value, not padding.
#[derive(Clone, Copy, Debug, Default, PartialEq, Eq, Hash)]
pub struct ChunkHeader {
    /// 0 is DATA, 3 is SACK, 192 is FORWARD TSN.
    pub typ: u8,
    /// As they stand.
    pub flags: u8,
    /// Of the whole chunk, without padding.
    pub length: u16,
}

impl ChunkHeader {
    /// The header that the bytes begin with. Bytes past the chunk's length are ignored.
    #[inline]
    pub fn unmarshal(raw: &[u8]) -> Result<Self, Error> {
        let mut h = Self::default();
        Error::check(ffi::header_unmarshal(raw, &mut h.typ, &mut h.flags, &mut h.length))?;
        Ok(h)
    }
}

/// The fields of a DATA chunk before its user data.
#[derive(Clone, Copy, Debug, Default, PartialEq, Eq, Hash)]
pub struct ChunkPayloadData {
    /// The U flag: the message has no place among the ordered ones.
    pub unordered: bool,
    /// The B flag: the first fragment of a message.
    pub beginning_fragment: bool,
    /// The E flag: the last fragment of a message.
    pub ending_fragment: bool,
    /// The I flag: the sender wants a SACK at once.
    pub immediate_sack: bool,
    /// The chunk's own number.
    pub tsn: u32,
    /// The stream.
    pub stream_identifier: u16,
    /// The message's number in its stream.
    pub stream_sequence_number: u16,
    /// The payload identifier, as it was sent.
    pub payload_type: u32,
}

impl ChunkPayloadData {
    /// The fields of the DATA chunk that the bytes begin with.
    #[inline]
    pub fn unmarshal(raw: &[u8]) -> Result<Self, Error> {
        let mut p = Self::default();
        Error::check(ffi::data_unmarshal(raw, &mut p))?;
        Ok(p)
    }

    /// The name of its payload identifier.
    #[inline]
    pub fn payload_name(&self) -> PayloadProtocolIdentifier {
        self.payload_type.into()
    }

    /// The user data of the DATA chunk that the bytes begin with: a part of them, from byte 16 up to the chunk's length.
    #[inline]
    pub fn user_data(raw: &[u8]) -> Result<&[u8], Error> {
        let (mut start, mut size) = (0, 0);
        Error::check(ffi::data_user_data(raw, &mut start, &mut size))?;
        Ok(&raw[start..start + size])
    }

    /// Writes the chunk with this user data to the front of `out`, and answers its byte count. No padding; the rest of `out` stays.
    #[inline]
    pub fn marshal_to(&self, out: &mut [u8], user: &[u8]) -> Result<usize, Error> {
        let mut n = 0;
        Error::check(ffi::data_marshal_to(out, self, user, &mut n))?;
        Ok(n)
    }
}

/// The fields of a SACK chunk before its lists, with the counts of the two lists.
#[derive(Clone, Copy, Debug, Default, PartialEq, Eq, Hash)]
pub struct ChunkSelectiveAck {
    /// Every TSN up to this one has come.
    pub cumulative_tsn_ack: u32,
    /// a_rwnd
    pub advertised_receiver_window_credit: u32,
    /// N, the number of gap ack blocks.
    pub gap_ack_blocks: u16,
    /// X, the number of duplicate TSNs.
    pub duplicate_tsns: u16,
}

impl ChunkSelectiveAck {
    /// The fields of the SACK chunk that the bytes begin with. Value bytes after its lists are ignored.
    #[inline]
    pub fn unmarshal(raw: &[u8]) -> Result<Self, Error> {
        let mut s = Self::default();
        let (cumulative, window) = (&mut s.cumulative_tsn_ack, &mut s.advertised_receiver_window_credit);
        Error::check(ffi::sack_unmarshal(raw, cumulative, window, &mut s.gap_ack_blocks, &mut s.duplicate_tsns))?;
        Ok(s)
    }

    /// The gap ack blocks of the SACK chunk that the bytes begin with: a part of them.
    #[inline]
    pub fn gap_ack_blocks(raw: &[u8]) -> Result<GapAckBlocks<'_>, Error> {
        let (mut start, mut size) = (0, 0);
        Error::check(ffi::sack_gap_ack_blocks(raw, &mut start, &mut size))?;
        Ok(GapAckBlocks(&raw[start..start + size]))
    }

    /// The duplicate TSNs of the SACK chunk that the bytes begin with: a part of them.
    #[inline]
    pub fn duplicate_tsns(raw: &[u8]) -> Result<DuplicateTsns<'_>, Error> {
        let (mut start, mut size) = (0, 0);
        Error::check(ffi::sack_duplicate_tsns(raw, &mut start, &mut size))?;
        Ok(DuplicateTsns(&raw[start..start + size]))
    }

    /// Writes a SACK chunk of these fields and lists to the front of `out`, and answers its byte count. The rest of `out` stays.
    #[inline]
    pub fn marshal_to(
        out: &mut [u8],
        cumulative_tsn_ack: u32,
        advertised_receiver_window_credit: u32,
        starts: &[u16],
        ends: &[u16],
        duplicates: &[u32],
    ) -> Result<usize, Error> {
        let mut n = 0;
        let window = advertised_receiver_window_credit;
        Error::check(ffi::sack_marshal_to(out, cumulative_tsn_ack, window, starts, ends, duplicates, &mut n))?;
        Ok(n)
    }
}

/// A run of TSNs that came, as offsets from the cumulative TSN.
#[derive(Clone, Copy, Debug, Default, PartialEq, Eq, Hash)]
pub struct GapAckBlock {
    /// The first.
    pub start: u16,
    /// The last.
    pub end: u16,
}

/// The gap ack blocks of a lent SACK chunk.
#[derive(Clone, Copy, Debug, PartialEq, Eq, Hash)]
pub struct GapAckBlocks<'a>(pub &'a [u8]);

impl GapAckBlocks<'_> {
    /// The block at an index.
    #[inline]
    pub fn at(&self, i: usize) -> Result<GapAckBlock, Error> {
        let mut b = GapAckBlock::default();
        Error::check(ffi::sack_gap_ack_block_at(self.0, i, &mut b.start, &mut b.end))?;
        Ok(b)
    }

    /// All of them, in order.
    #[inline]
    pub fn iter(&self) -> impl Iterator<Item = GapAckBlock> {
        (0..).map_while(|i| self.at(i).ok())
    }
}

/// The duplicate TSNs of a lent SACK chunk.
#[derive(Clone, Copy, Debug, PartialEq, Eq, Hash)]
pub struct DuplicateTsns<'a>(pub &'a [u8]);

impl DuplicateTsns<'_> {
    /// The TSN at an index.
    #[inline]
    pub fn at(&self, i: usize) -> Result<u32, Error> {
        let mut tsn = 0;
        Error::check(ffi::sack_duplicate_tsn_at(self.0, i, &mut tsn))?;
        Ok(tsn)
    }

    /// All of them, in order.
    #[inline]
    pub fn iter(&self) -> impl Iterator<Item = u32> {
        (0..).map_while(|i| self.at(i).ok())
    }
}

/// A FORWARD TSN chunk (RFC 3758) before its pairs: the new cumulative TSN, and how many pairs there are.
#[derive(Clone, Copy, Debug, Default, PartialEq, Eq, Hash)]
pub struct ChunkForwardTsn {
    /// Every TSN up to this one has come, or is given up.
    pub new_cumulative_tsn: u32,
    /// The number of pairs of a stream and an SSN.
    pub streams: u16,
}

impl ChunkForwardTsn {
    /// The fields of the FORWARD TSN chunk that the bytes begin with. Its flags are ignored.
    #[inline]
    pub fn unmarshal(raw: &[u8]) -> Result<Self, Error> {
        let mut f = Self::default();
        Error::check(ffi::forward_tsn::unmarshal(raw, &mut f.new_cumulative_tsn, &mut f.streams))?;
        Ok(f)
    }

    /// The pairs of the FORWARD TSN chunk that the bytes begin with: a part of them.
    #[inline]
    pub fn streams(raw: &[u8]) -> Result<ForwardTsnStreams<'_>, Error> {
        let (mut start, mut size) = (0, 0);
        Error::check(ffi::forward_tsn::streams(raw, &mut start, &mut size))?;
        Ok(ForwardTsnStreams(&raw[start..start + size]))
    }

    /// Writes a FORWARD TSN chunk of this point and these streams and SSNs to the front of `out`, and answers its byte count. The rest of `out`
    /// stays.
    #[inline]
    pub fn marshal_to(out: &mut [u8], new_cumulative_tsn: u32, identifiers: &[u16], sequences: &[u16]) -> Result<usize, Error> {
        let mut n = 0;
        Error::check(ffi::forward_tsn::marshal_to(out, new_cumulative_tsn, identifiers, sequences, &mut n))?;
        Ok(n)
    }
}

/// A stream, and the largest SSN that is skipped in it.
#[derive(Clone, Copy, Debug, Default, PartialEq, Eq, Hash)]
pub struct ChunkForwardTsnStream {
    /// The stream.
    pub identifier: u16,
    /// The SSN.
    pub sequence: u16,
}

/// The pairs of a lent FORWARD TSN chunk.
#[derive(Clone, Copy, Debug, PartialEq, Eq, Hash)]
pub struct ForwardTsnStreams<'a>(pub &'a [u8]);

impl ForwardTsnStreams<'_> {
    /// The pair at an index.
    #[inline]
    pub fn at(&self, i: usize) -> Result<ChunkForwardTsnStream, Error> {
        let mut s = ChunkForwardTsnStream::default();
        Error::check(ffi::forward_tsn::stream_at(self.0, i, &mut s.identifier, &mut s.sequence))?;
        Ok(s)
    }

    /// All of them, in order.
    #[inline]
    pub fn iter(&self) -> impl Iterator<Item = ChunkForwardTsnStream> {
        (0..).map_while(|i| self.at(i).ok())
    }
}
