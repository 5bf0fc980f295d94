//! The sender's in-flight queue: the calls of `PayloadQueue` that its sender makes.
use crate::chunk::chunk_payload_data::ChunkPayloadData;
use crate::queue::payload_queue::PayloadQueue;
use crate::shown;
use bytes::Bytes;
use calls::{Call, line, words};

/// User data of any size that a push may name: the queue only looks at its length.
static ZEROS: [u8; 65_536] = [0; 65_536];
/// Most records that are shown of the queue.
const RECORDS: usize = 1_024;

#[derive(Default)]
pub struct InFlight(PayloadQueue);

impl InFlight {
    pub fn answer(&mut self, call: &Call, line: &mut Vec<u8>) {
        let queue = &mut self.0;
        match call {
            Call::IqNew {} => {
                *queue = PayloadQueue::new();
                words!(line, "done")
            }
            Call::IqPush { fields, size, message } => {
                let chunk = shown::chunk(fields, Bytes::from_static(&ZEROS[..*size as usize]));
                queue.push_no_check(ChunkPayloadData { message_id: *message, ..chunk });
                words!(line, "done")
            }
            Call::IqAcked { tsn } => words!(line, "number", queue.mark_as_acked(*tsn)),
            Call::IqRetransmit {} => {
                queue.mark_all_to_retransmit();
                words!(line, "done")
            }
            Call::IqAbandon { message } => words!(line, "number", queue.abandon_message(*message)),
            Call::IqPop { tsn } => sent(queue.pop(*tsn).as_ref(), line),
            Call::IqPopUpTo { tsn } => {
                queue.pop_up_to(*tsn);
                words!(line, "done")
            }
            Call::IqGet { tsn } => sent(queue.get(*tsn), line),
            Call::IqNumBytes {} => words!(line, "number", queue.get_num_bytes()),
            Call::IqLen {} => words!(line, "number", queue.len()),
            Call::IqIsEmpty {} => line::flag(queue.is_empty(), line),
            Call::IqState {} => state(queue, line),
            _ => shown::no_call(line),
        }
    }
}

fn record(chunk: &ChunkPayloadData, line: &mut Vec<u8>) {
    line::fields(&shown::fields(chunk), line);
    line::list([chunk.user_data.len()], line);
    words!(line, "", line::marks(chunk.acked, chunk.abandoned, chunk.retransmit), chunk.message_id);
}

fn sent(chunk: Option<&ChunkPayloadData>, line: &mut Vec<u8>) {
    match chunk {
        Some(chunk) => {
            words!(line, "sent");
            record(chunk, line)
        }
        None => words!(line, "none"),
    }
}

fn state(queue: &PayloadQueue, line: &mut Vec<u8>) {
    words!(line, "held", queue.sorted.len(), queue.get_num_bytes());
    for tsn in queue.sorted.iter().take(RECORDS) {
        words!(line, " |");
        record(queue.get(*tsn).expect("a chunk for each sorted TSN"), line);
    }
}
