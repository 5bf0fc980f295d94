//! The TSN queue.
use crate::chunk::chunk_payload_data::ChunkPayloadData;
use crate::forward_tsn;
use crate::queue::payload_queue::PayloadQueue;
use crate::shown;
use bytes::Bytes;
use calls::{Call, line, words};

/// User data of any size that a push may name: the queue only looks at its length.
static ZEROS: [u8; 65_536] = [0; 65_536];
/// Places of the log, as it is shown.
const LOG: usize = 64;
/// Most records that are shown of the queue.
const RECORDS: usize = 1_024;

#[derive(Default)]
pub struct TsnQueue(PayloadQueue);

impl TsnQueue {
    pub fn answer(&mut self, call: &Call, line: &mut Vec<u8>) {
        let queue = &mut self.0;
        match call {
            Call::PqNew {} => {
                *queue = PayloadQueue::new();
                words!(line, "done")
            }
            Call::PqCanPush { tsn, cumulative } => line::flag(queue.can_push(&ChunkPayloadData { tsn: *tsn, ..Default::default() }, *cumulative), line),
            Call::PqPush { fields, size, cumulative } => {
                let chunk = shown::chunk(fields, Bytes::from_static(&ZEROS[..*size as usize]));
                line::flag(queue.push(chunk, *cumulative), line)
            }
            Call::PqPop { tsn } => chunk(queue.pop(*tsn).as_ref(), line),
            Call::PqPopUpTo { tsn } => {
                queue.pop_up_to(*tsn);
                words!(line, "done")
            }
            Call::PqApplyForward { cumulative, point } => {
                if !forward_tsn::is_old(*point, *cumulative) {
                    queue.pop_up_to(*point);
                }
                words!(line, "done")
            }
            Call::PqGet { tsn } => chunk(queue.get(*tsn), line),
            Call::PqPopDuplicates {} => log(&queue.pop_duplicates(), line),
            Call::PqGapAckBlocks { cumulative, starts, ends, fill } => gaps(queue, *cumulative, [*starts, *ends], *fill, line),
            Call::PqLastTsn {} => match queue.get_last_tsn_received() {
                Some(tsn) => words!(line, "tsn", tsn),
                None => words!(line, "none"),
            },
            Call::PqNumBytes {} => words!(line, "number", queue.get_num_bytes()),
            Call::PqLen {} => words!(line, "number", queue.len()),
            Call::PqIsEmpty {} => line::flag(queue.is_empty(), line),
            Call::PqContainsStream { stream } => line::flag(queue.contains_stream(*stream), line),
            Call::PqState {} => state(queue, line),
            _ => shown::no_call(line),
        }
    }
}

fn record(chunk: &ChunkPayloadData, line: &mut Vec<u8>) {
    line::fields(&shown::fields(chunk), line);
    line::list([chunk.user_data.len()], line);
}

fn chunk(chunk: Option<&ChunkPayloadData>, line: &mut Vec<u8>) {
    match chunk {
        Some(chunk) => {
            words!(line, "chunk");
            record(chunk, line)
        }
        None => words!(line, "none"),
    }
}

fn log(duplicates: &[u32], line: &mut Vec<u8>) {
    if duplicates.len() > LOG {
        return shown::no_answer(line);
    }
    words!(line, "log", duplicates.len());
    line::list(duplicates.iter().chain([&0; LOG]).take(LOG), line);
}

/// The report at the front of two lists. The Rust makes its own list, so it has no answer for lists that are too short.
fn gaps(queue: &PayloadQueue, cumulative: u32, rooms: [u16; 2], fill: u16, line: &mut Vec<u8>) {
    let blocks = queue.get_gap_ack_blocks(cumulative);
    let [starts, ends] = rooms.map(usize::from);
    if blocks.len() > starts.min(ends) {
        return shown::no_answer(line);
    }
    let filled = std::iter::repeat(fill);
    words!(line, "blocks", blocks.len(), "starts");
    line::list(blocks.iter().map(|block| block.start).chain(filled.clone()).take(starts), line);
    words!(line, " ends");
    line::list(blocks.iter().map(|block| block.end).chain(filled).take(ends), line);
}

fn state(queue: &PayloadQueue, line: &mut Vec<u8>) {
    words!(line, "held", queue.sorted.len(), queue.get_num_bytes());
    for tsn in queue.sorted.iter().take(RECORDS) {
        words!(line, " |");
        record(queue.get(*tsn).expect("a chunk for each sorted TSN"), line);
    }
}
