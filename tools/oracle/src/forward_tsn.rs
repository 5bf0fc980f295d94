//! FORWARD TSN chunks. What one does to a queue is done by the association, which is not among the files: here by the queues' own calls, in document 02's order.
use crate::chunk::Chunk;
use crate::chunk::chunk_forward_tsn::{ChunkForwardTsn, ChunkForwardTsnStream, FORWARD_TSN_STREAM_LENGTH};
use crate::codec::{part, read, write};
use crate::shown;
use crate::util::sna32lte;
use bytes::Bytes;
use calls::{Call, words};

pub fn answer(call: &Call, line: &mut Vec<u8>) {
    match call {
        Call::FwdUnmarshal { raw } => {
            read(raw, line, |chunk: ChunkForwardTsn, line| words!(line, "forward", chunk.new_cumulative_tsn, chunk.streams.len()))
        }
        Call::FwdStreams { raw } => read(raw, line, |chunk: ChunkForwardTsn, line| {
            let numbers = chunk.streams.iter().flat_map(|pair| [pair.identifier, pair.sequence]);
            part(&numbers.flat_map(u16::to_be_bytes).collect::<Vec<u8>>(), line)
        }),
        // A chunk of the Rust holds pairs, so a stream without an SSN cannot be asked for.
        Call::FwdMarshal { room, fill, point, streams, ssns } if streams.len() == ssns.len() => {
            let pair = |(identifier, sequence): (&u16, &u16)| ChunkForwardTsnStream { identifier: *identifier, sequence: *sequence };
            let chunk = ChunkForwardTsn { new_cumulative_tsn: *point, streams: streams.iter().zip(ssns).map(pair).collect() };
            write(&chunk, *room, *fill, line)
        }
        _ => shown::no_call(line),
    }
}

/// A new point at or before the cumulative TSN changes nothing.
pub fn is_old(point: u32, cumulative: u32) -> bool {
    sna32lte(point, cumulative)
}

/// The SSNs of the whole pairs that name a stream, in chunk order.
pub fn ssns_of(stream: u16, part: &[u8]) -> Vec<u16> {
    let whole = part.chunks_exact(FORWARD_TSN_STREAM_LENGTH).map(Bytes::copy_from_slice);
    let pairs = whole.map(|bytes| ChunkForwardTsnStream::unmarshal(&bytes).expect("a whole pair"));
    pairs.filter(|pair| pair.identifier == stream).map(|pair| pair.sequence).collect()
}
