//! The causes of ERROR and ABORT.
use super::*;
use crate::causes::CauseLists;

#[inline]
pub(crate) fn error_unmarshal(raw: &[u8], l: &mut CauseLists, n: &mut usize) -> i32 {
    let (codes, codes_len, depths, depths_len) = (l.codes.as_mut_ptr(), l.codes.len(), l.depths.as_mut_ptr(), l.depths.len());
    let (starts, starts_len, sizes, sizes_len) = (l.starts.as_mut_ptr(), l.starts.len(), l.sizes.as_mut_ptr(), l.sizes.len());
    let (raw, raw_len) = (raw.as_ptr(), raw.len());
    // SAFETY: each pointer and the length after it are one slice's, and the lists are lent to us alone.
    unsafe { sctp_receive_error_unmarshal(raw, raw_len, codes, codes_len, depths, depths_len, starts, starts_len, sizes, sizes_len, n) }
}

#[inline]
pub(crate) fn abort_unmarshal(raw: &[u8], l: &mut CauseLists, n: &mut usize) -> i32 {
    let (codes, codes_len, depths, depths_len) = (l.codes.as_mut_ptr(), l.codes.len(), l.depths.as_mut_ptr(), l.depths.len());
    let (starts, starts_len, sizes, sizes_len) = (l.starts.as_mut_ptr(), l.starts.len(), l.sizes.as_mut_ptr(), l.sizes.len());
    let (raw, raw_len) = (raw.as_ptr(), raw.len());
    // SAFETY: each pointer and the length after it are one slice's, and the lists are lent to us alone.
    unsafe { sctp_receive_abort_unmarshal(raw, raw_len, codes, codes_len, depths, depths_len, starts, starts_len, sizes, sizes_len, n) }
}
