//! Numbers that wrap, headers, DATA and SACK.
use crate::chunk::Chunk;
use crate::chunk::chunk_header::{CHUNK_HEADER_SIZE, ChunkHeader};
use crate::chunk::chunk_payload_data::ChunkPayloadData;
use crate::chunk::chunk_selective_ack::{ChunkSelectiveAck, GapAckBlock};
use crate::error::Result;
use crate::shown;
use crate::util::*;
use bytes::Bytes;
use calls::{Call, line, words};

pub fn answer(call: &Call, line: &mut Vec<u8>) {
    match call {
        Call::Sna32 { a, b } => four([sna32lt(*a, *b), sna32lte(*a, *b), sna32gt(*a, *b), sna32gte(*a, *b)], line),
        Call::Sna16 { a, b } => four([sna16lt(*a, *b), sna16lte(*a, *b), sna16gt(*a, *b), sna16gte(*a, *b)], line),
        Call::TsnCompare { a, b } => words!(line, order(sna32lt(*a, *b), sna32eq(*a, *b), sna32lt(*b, *a))),
        Call::SsnCompare { a, b } => words!(line, order(sna16lt(*a, *b), sna16eq(*a, *b), sna16lt(*b, *a))),
        Call::Header { raw } => read(raw, line, |h: ChunkHeader, line| words!(line, "header", h.typ.0, h.flags, h.value_length as usize + CHUNK_HEADER_SIZE)),
        Call::DataUnmarshal { raw } => read(raw, line, |chunk: ChunkPayloadData, line| {
            words!(line, "data");
            line::fields(&shown::fields(&chunk), line)
        }),
        Call::DataUserData { raw } => read(raw, line, |chunk: ChunkPayloadData, line| part(&chunk.user_data, line)),
        Call::DataMarshal { room, fill, fields, data } => write(&shown::chunk(fields, Bytes::from(data.bytes())), *room, *fill, line),
        Call::SackUnmarshal { raw } => read(raw, line, |sack: ChunkSelectiveAck, line| {
            words!(line, "sack", sack.cumulative_tsn_ack, sack.advertised_receiver_window_credit, sack.gap_ack_blocks.len(), sack.duplicate_tsn.len())
        }),
        Call::SackBlocks { raw } => read(raw, line, |sack: ChunkSelectiveAck, line| {
            let numbers = sack.gap_ack_blocks.iter().flat_map(|block| [block.start, block.end]);
            part(&numbers.flat_map(u16::to_be_bytes).collect::<Vec<u8>>(), line)
        }),
        Call::SackDuplicates { raw } => {
            read(raw, line, |sack: ChunkSelectiveAck, line| part(&sack.duplicate_tsn.iter().flat_map(|tsn| tsn.to_be_bytes()).collect::<Vec<u8>>(), line))
        }
        // A SACK of the Rust holds blocks, so a start without an end cannot be asked for.
        Call::SackMarshal { room, fill, cumulative, window, starts, ends, duplicates } if starts.len() == ends.len() => {
            let gap_ack_blocks = starts.iter().zip(ends).map(|(start, end)| GapAckBlock { start: *start, end: *end }).collect();
            let sack = ChunkSelectiveAck {
                cumulative_tsn_ack: *cumulative,
                advertised_receiver_window_credit: *window,
                gap_ack_blocks,
                duplicate_tsn: duplicates.clone(),
            };
            write(&sack, *room, *fill, line)
        }
        _ => shown::no_call(line),
    }
}

/// What three of the Rust's yes or no make of the four answers: before, the same, before the other way round; none of them is opposite.
fn order(before: bool, same: bool, after: bool) -> &'static str {
    match (before, same, after) {
        (true, false, false) => "earlier",
        (false, true, false) => "same",
        (false, false, true) => "later",
        (false, false, false) => "opposite",
        _ => "more than one",
    }
}

fn four(answers: [bool; 4], line: &mut Vec<u8>) {
    words!(line, answers.map(|yes| if yes { "yes" } else { "no" }).join(" "));
}

pub fn part(bytes: &[u8], line: &mut Vec<u8>) {
    words!(line, "part");
    line::bytes(bytes, line);
}

pub fn read<T: Chunk>(raw: &[u8], line: &mut Vec<u8>, show: impl FnOnce(T, &mut Vec<u8>)) {
    shown::result(T::unmarshal(&Bytes::copy_from_slice(raw)), line, show);
}

pub fn write(chunk: &impl Chunk, room: u32, fill: u8, line: &mut Vec<u8>) {
    put(chunk.marshal(), room, fill, line)
}

/// What was written, at the front of a lent buffer. The Rust's own buffer grows, so it has no answer for one that is too short.
pub fn put(written: Result<Bytes>, room: u32, fill: u8, line: &mut Vec<u8>) {
    shown::result(written, line, |written, line| {
        let mut buffer = shown::lent(room, fill);
        match buffer.get_mut(..written.len()) {
            Some(front) => front.copy_from_slice(&written),
            None => return shown::no_answer(line),
        }
        words!(line, "wrote", written.len());
        line::bytes(&buffer, line);
    });
}
