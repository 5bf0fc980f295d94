//! Packets: the common header with its checksum, and the chunks behind it.
use crate::{Error, ffi};
use core::iter::FusedIterator;

/// CRC32c of the bytes (RFC 4960, Appendix B).
#[inline]
pub fn crc32c(bytes: &[u8]) -> u32 {
    ffi::packet::crc32c(bytes)
}

/// The common header of a packet (RFC 4960 section 3.1), without the checksum, which is checked and written with it.
#[derive(Clone, Copy, Debug, Default, PartialEq, Eq, Hash)]
pub struct CommonHeader {
    /// The sender's port.
    pub source_port: u16,
    /// The receiver's.
    pub destination_port: u16,
    /// As it stands.
    pub verification_tag: u32,
}

impl CommonHeader {
    /// The common header of a packet, which is all of `raw`, if the packet's checksum is right. The chunks behind it are not looked at.
    #[inline]
    pub fn unmarshal(raw: &[u8]) -> Result<Self, Error> {
        let mut h = Self::default();
        Error::check(ffi::packet::unmarshal(raw, &mut h))?;
        Ok(h)
    }

    /// Writes the packet of this header and of chunks that stand back to back without padding to the front of `out`, each with its padding, and answers
    /// its byte count. The rest of `out` stays.
    #[inline]
    pub fn marshal_to(&self, out: &mut [u8], chunks: &[u8]) -> Result<usize, Error> {
        let mut n = 0;
        Error::check(ffi::packet::marshal_to(out, self, chunks, &mut n))?;
        Ok(n)
    }
}

/// A walk over the chunks of a packet: each a part of the packet, without its padding. The checksum is not looked at. A refusal ends the walk.
#[derive(Clone, Debug, PartialEq, Eq, Hash)]
pub struct PacketChunks<'a> {
    packet: &'a [u8],
    /// Nothing once a step was refused.
    place: Option<usize>,
}

impl<'a> PacketChunks<'a> {
    /// The place of the first chunk: behind the common header.
    pub const FIRST: usize = 12;

    /// All chunks of the packet.
    #[inline]
    pub fn new(packet: &'a [u8]) -> Self {
        Self::from_place(packet, Self::FIRST)
    }

    /// The chunks from a place on, which is 12 or where a walk has come to.
    #[inline]
    pub fn from_place(packet: &'a [u8], place: usize) -> Self {
        PacketChunks { packet, place: Some(place) }
    }

    /// The place of the next chunk; nothing once a step was refused.
    #[inline]
    pub fn place(&self) -> Option<usize> {
        self.place
    }
}

impl<'a> Iterator for PacketChunks<'a> {
    type Item = Result<&'a [u8], Error>;

    #[inline]
    fn next(&mut self) -> Option<Self::Item> {
        let at = self.place?;
        let (mut found, mut end, mut next) = (false, 0, 0);
        if let Err(refusal) = Error::check(ffi::packet::chunk_at(self.packet, at, &mut found, &mut end, &mut next)) {
            self.place = None;
            return Some(Err(refusal));
        }
        found.then(|| {
            self.place = Some(next);
            Ok(&self.packet[at..end])
        })
    }
}

impl FusedIterator for PacketChunks<'_> {}
