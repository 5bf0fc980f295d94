//! ERROR and ABORT: the Rust's own readers. They hand out causes one behind the other; where one stands is the sum of the lengths ahead of it, by which they go.
use crate::chunk::chunk_abort::ChunkAbort;
use crate::chunk::chunk_error::ChunkError;
use crate::chunk::chunk_header::CHUNK_HEADER_SIZE;
use crate::chunk::{Chunk, ERROR_CAUSE_HEADER_LENGTH, ErrorCause};
use crate::error::Result;
use crate::shown;
use bytes::Bytes;
use calls::{Call, line, words};

pub fn answer(call: &Call, line: &mut Vec<u8>) {
    match call {
        Call::ErrorUnmarshal { raw, codes, depths, starts, sizes, fill } => {
            listed(ChunkError::unmarshal(&Bytes::copy_from_slice(raw)).map(|c| c.error_causes), [*codes, *depths, *starts, *sizes], *fill, line)
        }
        Call::AbortUnmarshal { raw, codes, depths, starts, sizes, fill } => {
            listed(ChunkAbort::unmarshal(&Bytes::copy_from_slice(raw)).map(|c| c.error_causes), [*codes, *depths, *starts, *sizes], *fill, line)
        }
        _ => shown::no_call(line),
    }
}

/// Into lists of so many places, each filled before; the Rust has no depth, and all its causes are the chunk's own.
fn listed(causes: Result<Vec<ErrorCause>>, rooms: [u16; 4], fill: u16, line: &mut Vec<u8>) {
    let causes = match causes {
        Ok(causes) if rooms.iter().any(|room| (*room as usize) < causes.len()) => return shown::no_answer(line),
        Ok(causes) => {
            words!(line, "causes", causes.len());
            causes
        }
        Err(error) => {
            shown::refused(&error, line);
            vec![]
        }
    };
    let mut at = CHUNK_HEADER_SIZE;
    let starts = causes.iter().map(|cause| {
        let start = at + ERROR_CAUSE_HEADER_LENGTH;
        at += cause.length();
        start as u16
    });
    let [codes, depths, _, sizes]: [Vec<u16>; 4] =
        [causes.iter().map(|c| c.code.0).collect(), vec![0; causes.len()], vec![], causes.iter().map(|c| c.raw.len() as u16).collect()];
    let lists = [("codes", codes), ("depths", depths), ("starts", starts.collect()), ("sizes", sizes)];
    for ((name, list), room) in lists.into_iter().zip(rooms) {
        words!(line, format!(" {name}"));
        line::list(list.into_iter().chain(std::iter::repeat(fill)).take(room as usize), line);
    }
}
