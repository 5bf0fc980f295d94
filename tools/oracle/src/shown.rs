//! How what the Rust has is shown in the form of docs/CALLS.md.
use crate::chunk::chunk_payload_data::ChunkPayloadData;
use crate::error::{Error, Result};
use bytes::Bytes;
use calls::{B, E, Fields, I, U, line, words};

/// The Rust has no call of that kind.
pub fn no_call(line: &mut Vec<u8>) {
    words!(line, "no such call");
}

/// The Rust has the call, but nothing like the answer that is due.
pub fn no_answer(line: &mut Vec<u8>) {
    words!(line, "no such answer");
}

pub fn result<T>(result: Result<T>, line: &mut Vec<u8>, show: impl FnOnce(T, &mut Vec<u8>)) {
    match result {
        Ok(value) => show(value, line),
        Err(error) => refused(&error, line),
    }
}

/// Document 01's number for an error, 12 to 14 and 16 document 02's, or the name of one that has none.
pub fn refused(error: &Error, line: &mut Vec<u8>) {
    let number = match error {
        Error::ErrChunkHeaderTooSmall => 1,
        Error::ErrChunkHeaderInvalidLength | Error::ErrChunkHeaderNotEnoughSpace => 2,
        Error::ErrChunkTypeNotPayloadData
        | Error::ErrChunkTypeNotSack
        | Error::ErrChunkTypeNotForwardTsn
        | Error::ErrChunkTypeNotCt
        | Error::ErrChunkTypeNotAbort => 3,
        Error::ErrChunkPayloadSmall => 4,
        Error::ErrSackSizeNotLargeEnoughInfo => 5,
        Error::ErrInboundPacketTooLarge => 6,
        Error::ErrShortBuffer => 7,
        Error::ErrChunkTooShort => 12,
        Error::ErrPacketRawTooSmall => 13,
        Error::ErrChecksumMismatch => 14,
        Error::ErrErrorCauseTooSmall => 16,
        other => return words!(line, "error", format!("{other:?}").split([' ', '(']).next().unwrap_or_default()),
    };
    line::refused(number, line);
}

/// `room` bytes, each of them `fill`.
pub fn lent(room: u32, fill: u8) -> Vec<u8> {
    vec![fill; room as usize]
}

pub fn chunk(fields: &Fields, user_data: Bytes) -> ChunkPayloadData {
    let set = |flag| fields.flags & flag != 0;
    ChunkPayloadData {
        unordered: set(U),
        beginning_fragment: set(B),
        ending_fragment: set(E),
        immediate_sack: set(I),
        tsn: fields.tsn,
        stream_identifier: fields.stream,
        stream_sequence_number: fields.ssn,
        payload_type: fields.identifier.into(),
        user_data,
        ..Default::default()
    }
}

pub fn fields(chunk: &ChunkPayloadData) -> Fields {
    let flags = [(chunk.unordered, U), (chunk.beginning_fragment, B), (chunk.ending_fragment, E), (chunk.immediate_sack, I)];
    Fields {
        flags: flags.iter().filter(|(set, _)| *set).map(|(_, flag)| flag).sum(),
        tsn: chunk.tsn,
        stream: chunk.stream_identifier,
        ssn: chunk.stream_sequence_number,
        identifier: chunk.payload_type as u32,
    }
}
