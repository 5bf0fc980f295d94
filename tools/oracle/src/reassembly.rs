//! Reassembly and the message in hand.
use crate::chunk::chunk_payload_data::ChunkPayloadData;
use crate::forward_tsn;
use crate::queue::reassembly_queue::{Chunks, ReassemblyQueue};
use crate::shown;
use bytes::Bytes;
use calls::{Call, Fields, line, words};

/// Most records that are shown of the queue.
const RECORDS: usize = 512;
/// Above this `next` would reserve memory that a machine may not have, which ends the process; above isize::MAX it panics.
const RESERVED: u64 = 1 << 30;

pub struct Reassembly {
    queue: ReassemblyQueue,
    in_hand: Option<InHand>,
}

struct InHand {
    message: Chunks,
    /// The sum of the sizes of the pieces so far.
    given: usize,
}

impl Default for Reassembly {
    fn default() -> Self {
        Reassembly { queue: ReassemblyQueue::new(0, 65_536), in_hand: None }
    }
}

impl Reassembly {
    /// A fresh queue of the same stream and maximum.
    pub fn renew(&mut self) {
        self.queue = ReassemblyQueue::new(self.queue.si, self.queue.max_message_size);
    }

    pub fn answer(&mut self, call: &Call, line: &mut Vec<u8>) {
        let queue = &mut self.queue;
        match call {
            Call::RqNew { stream, maximum } => {
                *queue = ReassemblyQueue::new(*stream, *maximum);
                words!(line, "done")
            }
            Call::RqPush { fields, data } => shown::result(queue.push(shown::chunk(fields, Bytes::from(data.bytes()))), line, line::flag),
            Call::RqIsReadable {} => line::flag(queue.is_readable(), line),
            Call::RqRead { room, fill } => self.read(shown::lent(*room, *fill), line),
            Call::RqForwardOrdered { ssn } => {
                queue.forward_tsn_for_ordered(*ssn);
                words!(line, "done")
            }
            Call::RqForwardUnordered { tsn } => {
                queue.forward_tsn_for_unordered(*tsn);
                words!(line, "done")
            }
            Call::RqForwardOrderedBounded { ssn, tsn } => {
                queue.forward_tsn_for_ordered_bounded(*ssn, *tsn);
                words!(line, "done")
            }
            Call::RqApplicableForward { ssn, tsn, peer } => match queue.applicable_forward_tsn_for_ordered_bounded(*ssn, *tsn, *peer) {
                Some(ssn) => words!(line, "number", ssn),
                None => words!(line, "none"),
            },
            Call::RqApplyForward { part, cumulative, point } => {
                if !forward_tsn::is_old(*point, *cumulative) {
                    forward_tsn::ssns_of(queue.si, part).into_iter().for_each(|ssn| queue.forward_tsn_for_ordered(ssn));
                    queue.forward_tsn_for_unordered(*point);
                }
                words!(line, "done")
            }
            Call::RqNumBytes {} => words!(line, "number", queue.get_num_bytes()),
            Call::RqState {} => state(queue, line),
            _ => shown::no_call(line),
        }
    }

    /// The Rust hands a message out whatever its length, so one that does not fit is left where it is.
    fn read(&mut self, mut buffer: Vec<u8>, line: &mut Vec<u8>) {
        self.in_hand = None;
        let fits = |message: &Chunks| message.len() <= buffer.len();
        if self.queue.is_readable() && !self.queue.unordered.front().or(self.queue.ordered.front()).is_some_and(fits) {
            return shown::no_answer(line);
        }
        match self.queue.read() {
            Some(message) => {
                let size = message.read(&mut buffer).expect("room for the message");
                words!(line, "message", message.ssn, message.ppi as u32, size);
                self.in_hand = Some(InHand { message, given: 0 });
            }
            None => words!(line, "none"),
        }
        line::bytes(&buffer, line);
    }

    pub fn answer_in_hand(&mut self, call: &Call, line: &mut Vec<u8>) {
        let Some(InHand { message, given }) = &mut self.in_hand else {
            return words!(line, "nothing in hand");
        };
        match call {
            Call::MLen {} => words!(line, "number", message.len()),
            Call::MIsEmpty {} => line::flag(message.is_empty(), line),
            Call::MRead { room, fill } => {
                let mut buffer = shown::lent(*room, *fill);
                shown::result(message.read(&mut buffer), line, |size, line| words!(line, "number", size));
                line::bytes(&buffer, line)
            }
            Call::MNext { most } if (RESERVED + 1..=isize::MAX as u64).contains(most) => shown::no_answer(line),
            Call::MNext { most } => match message.next(*most as usize) {
                Some(piece) => {
                    words!(line, "piece", *given, piece.bytes.len());
                    line::bytes(&piece.bytes, line);
                    *given += piece.bytes.len()
                }
                None => words!(line, "none"),
            },
            _ => shown::no_call(line),
        }
    }
}

fn state(queue: &ReassemblyQueue, line: &mut Vec<u8>) {
    words!(line, "queue", queue.si, queue.next_ssn, queue.max_message_size, queue.n_bytes);
    let own = |chunk: &ChunkPayloadData| shown::fields(chunk);
    let finished = queue.unordered.iter().flat_map(|set| &set.chunks).map(|chunk| ('f', own(chunk), chunk));
    let loose = queue.unordered_chunks.iter().map(|chunk| ('u', own(chunk), chunk));
    let ordered = queue
        .ordered
        .iter()
        .flat_map(|set| set.chunks.iter().map(move |chunk| ('o', Fields { ssn: set.ssn, identifier: set.ppi as u32, ..own(chunk) }, chunk)));
    for (kind, fields, chunk) in finished.chain(loose).chain(ordered).take(RECORDS) {
        words!(line, " |", kind);
        line::fields(&fields, line);
        line::bytes(&chunk.user_data, line);
    }
}
