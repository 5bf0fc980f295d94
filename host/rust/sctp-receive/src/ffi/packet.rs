//! Packets: the checksum, the common header, the chunk at a place, and the writer.
use super::*;
use crate::packet::CommonHeader;

#[inline]
pub(crate) fn crc32c(bytes: &[u8]) -> u32 {
    // SAFETY: pointer and length are one slice's.
    unsafe { sctp_receive_crc32c(bytes.as_ptr(), bytes.len()) }
}

#[inline]
pub(crate) fn unmarshal(raw: &[u8], h: &mut CommonHeader) -> i32 {
    let (source, destination, tag) = (&mut h.source_port, &mut h.destination_port, &mut h.verification_tag);
    // SAFETY: pointer and length are one slice's.
    unsafe { sctp_receive_packet_unmarshal(raw.as_ptr(), raw.len(), source, destination, tag) }
}

#[inline]
pub(crate) fn chunk_at(packet: &[u8], at: usize, found: &mut bool, end: &mut usize, next: &mut usize) -> i32 {
    // SAFETY: pointer and length are one slice's.
    unsafe { sctp_receive_packet_chunk_at(packet.as_ptr(), packet.len(), at, found, end, next) }
}

#[inline]
pub(crate) fn marshal_to(out: &mut [u8], h: &CommonHeader, chunks: &[u8], n: &mut usize) -> i32 {
    let (out, out_len) = (out.as_mut_ptr(), out.len());
    let (source, destination, tag) = (h.source_port, h.destination_port, h.verification_tag);
    // SAFETY: each pointer and the length after it are one slice's, and `out` is lent to us alone.
    unsafe { sctp_receive_packet_marshal_to(out, out_len, source, destination, tag, chunks.as_ptr(), chunks.len(), n) }
}
