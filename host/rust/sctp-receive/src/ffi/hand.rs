//! The message in hand.
use super::*;

#[inline]
pub(crate) fn len(m: &Hand, buffer: &[u8], n: &mut usize) -> i32 {
    // SAFETY: pointer and length are one slice's.
    unsafe { sctp_receive_chunks_len(m.bytes, m.position, m.given, buffer.as_ptr(), buffer.len(), n) }
}

#[inline]
pub(crate) fn is_empty(m: &Hand, buffer: &[u8], is: &mut bool) -> i32 {
    // SAFETY: pointer and length are one slice's.
    unsafe { sctp_receive_chunks_is_empty(m.bytes, m.position, m.given, buffer.as_ptr(), buffer.len(), is) }
}

#[inline]
pub(crate) fn read(m: &Hand, buffer: &[u8], out: &mut [u8], n: &mut usize) -> i32 {
    let (buffer, buffer_len) = (buffer.as_ptr(), buffer.len());
    // SAFETY: each pointer and the length after it are one slice's, and `out` is lent to us alone.
    unsafe { sctp_receive_chunks_read(m.bytes, m.position, m.given, buffer, buffer_len, out.as_mut_ptr(), out.len(), n) }
}

#[inline]
pub(crate) fn next(m: &mut Hand, buffer: &[u8], most: usize, found: &mut bool, start: &mut usize, size: &mut usize) -> i32 {
    let (buffer, buffer_len) = (buffer.as_ptr(), buffer.len());
    let (bytes, position, given) = (&mut m.bytes, &mut m.position, &mut m.given);
    // SAFETY: pointer and length are one slice's.
    unsafe { sctp_receive_chunks_next(bytes, position, given, buffer, buffer_len, most, found, start, size) }
}
