//! The message in hand: its bytes stand at the front of a lent buffer. A refusal is `Err` with its number.
use super::fault::{Fault, Wrong};
use std::ops::Range;

#[derive(Clone)]
pub struct Hand {
    pub size: u64,
    pub position: u64,
    /// Whether an empty message's one piece was given.
    pub given: bool,
    pub buffer: Vec<u8>,
    /// How many bytes of the buffer are lent.
    pub lent: usize,
    pub wrong: Wrong,
}

impl Hand {
    /// Refusal 0: the message is longer than what is lent, or the position is past it.
    pub fn sound(&self) -> Result<(), u8> {
        if self.size > self.lent as u64 || self.position > self.size { Err(0) } else { Ok(()) }
    }

    /// So many bytes of the buffer are lent from now on; those past the first room are 0.
    pub fn lend(&mut self, bytes: usize) {
        self.lent = bytes;
        self.buffer.resize(self.buffer.len().max(bytes), 0);
    }

    /// Whole read, from the first byte. 7: the buffer is too short, and what fits is written.
    pub fn read(&mut self, out: &mut [u8]) -> Result<u64, u8> {
        self.sound()?;
        let fits = out.len().min(self.size as usize);
        out[..fits].copy_from_slice(&self.buffer[..fits]);
        if self.wrong.is(Fault::ReadMoves) {
            self.position = self.size;
        }
        if (fits as u64) < self.size { Err(7) } else { Ok(self.size) }
    }

    /// The next piece of at most so many bytes: its place.
    pub fn next(&mut self, most: u64) -> Result<Option<Range<usize>>, u8> {
        self.sound()?;
        let empty = self.size == 0;
        if self.position == self.size && (!empty || self.given || self.wrong.is(Fault::EmptyWithoutPiece)) {
            return Ok(None);
        }
        let left = self.size - self.position;
        let n = if self.wrong.is(Fault::AllInOnePiece) { left } else { left.min(most) };
        let start = self.position as usize;
        self.position += n;
        self.given |= empty;
        Ok(Some(start..start + n as usize))
    }
}
