//! The receive part of SCTP for Rust programs, over the proved library `libsctp_receive.a`: packets with their checksum, DATA, SACK and FORWARD TSN chunks, the causes of ERROR and ABORT, the
//! TSN queue with its gap report, the sender's in-flight queue, reassembly of one stream, and the message in hand. Names are those of sctp-proto. Each call is proved, in Rattle, to answer
//! and to leave exactly what documents 01 and 02 say; this crate owns the tables, lends them to the library, and adds no rule of its own.
//!
//! No allocation, no dependency, no `std`; all `unsafe` stands in one private module, `ffi`.
//!
//! ```
//! use sctp_receive::{ChunkPayloadData, PayloadProtocolIdentifier, PayloadQueue, ReassemblyQueue};
//!
//! // A DATA chunk that is a whole message: TSN 10, stream 2, SSN 0, "abc".
//! let raw = [0, 3, 0, 19, 0, 0, 0, 10, 0, 2, 0, 0, 0, 0, 0, 51, b'a', b'b', b'c'];
//! let chunk = ChunkPayloadData::unmarshal(&raw)?;
//! let data = ChunkPayloadData::user_data(&raw)?; // a part of raw, not a copy
//! assert_eq!((chunk.tsn, chunk.payload_type, chunk.payload_name()), (10, 51, PayloadProtocolIdentifier::String));
//!
//! let mut tsns = PayloadQueue::new();
//! let mut stream = ReassemblyQueue::new(2, 65_536);
//! if tsns.push(&chunk, data.len() as u16, 8)? {
//!     assert!(stream.push(&chunk, data)?); // it completes a message
//! }
//!
//! // TSN 9 has not come: the gap report names 10, which is 2 ahead of the cumulative TSN 8.
//! let (mut starts, mut ends) = ([0; 4], [0; 4]);
//! assert_eq!(tsns.get_gap_ack_blocks(8, &mut starts, &mut ends)?, 1);
//! assert_eq!((starts[0], ends[0]), (2, 2));
//!
//! let mut buffer = [0; 64];
//! let mut message = stream.read(&mut buffer)?.expect("a message is complete");
//! assert_eq!(message.next(2), Some(&b"ab"[..]));
//! assert_eq!(message.next(2), Some(&b"c"[..]));
//! assert_eq!(message.next(2), None);
//! # Ok::<(), sctp_receive::Error>(())
//! ```
#![no_std]
#![deny(unsafe_code)]
#![warn(missing_docs)]

#[cfg(test)]
extern crate std;

mod causes;
mod chunk;
mod error;
#[allow(unsafe_code)]
mod ffi;
mod inflight_queue;
mod packet;
mod payload_queue;
mod reassembly_queue;
pub mod serial;
#[cfg(test)]
mod unsound;

pub use causes::{CauseLists, ChunkAbort, ChunkError};
pub use chunk::{
    ChunkForwardTsn, ChunkForwardTsnStream, ChunkHeader, ChunkPayloadData, ChunkSelectiveAck, DuplicateTsns, ForwardTsnStreams,
    GapAckBlock, GapAckBlocks, PayloadProtocolIdentifier,
};
pub use error::Error;
pub use ffi::{BYTES, FRAGMENTS, LOG, TSNS};
pub use inflight_queue::{InFlightQueue, Sent};
pub use packet::{CommonHeader, PacketChunks, crc32c};
pub use payload_queue::{Duplicates, PayloadQueue, Queued};
pub use reassembly_queue::{Chunks, ReassemblyQueue};
