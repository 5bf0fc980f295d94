//! ERROR and ABORT: their causes, and those of the chunks that causes hold.
use crate::{Error, ffi};

/// Four lists for causes, each to be filled from its front, outer causes before inner ones: an entry of each is one cause.
#[derive(Debug)]
pub struct CauseLists<'a> {
    /// The cause's code.
    pub codes: &'a mut [u16],
    /// 0 for the chunk's own causes; those of a chunk that a cause holds are one deeper than it.
    pub depths: &'a mut [u16],
    /// Where the cause's value starts in the chunk.
    pub starts: &'a mut [u16],
    /// How many bytes the value has.
    pub sizes: &'a mut [u16],
}

/// An ERROR chunk (RFC 4960 section 3.3.10).
#[derive(Clone, Copy, Debug, PartialEq, Eq, Hash)]
pub enum ChunkError {}

impl ChunkError {
    /// How many causes the chunk that `raw` begins with has, those of enclosed chunks among them; they go to the front of the lists, whose rest stays.
    /// A refusal leaves the lists as they are.
    #[inline]
    pub fn unmarshal(raw: &[u8], lists: &mut CauseLists) -> Result<usize, Error> {
        let mut n = 0;
        Error::check(ffi::causes::error_unmarshal(raw, lists, &mut n))?;
        Ok(n)
    }
}

/// An ABORT chunk (RFC 4960 section 3.3.7).
#[derive(Clone, Copy, Debug, PartialEq, Eq, Hash)]
pub enum ChunkAbort {}

impl ChunkAbort {
    /// As [`ChunkError::unmarshal`].
    #[inline]
    pub fn unmarshal(raw: &[u8], lists: &mut CauseLists) -> Result<usize, Error> {
        let mut n = 0;
        Error::check(ffi::causes::abort_unmarshal(raw, lists, &mut n))?;
        Ok(n)
    }
}
