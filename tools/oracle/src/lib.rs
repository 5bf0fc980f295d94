//! sctp-proto 0.10.8's receive path, built from its own files unchanged, which answers the calls of docs/CALLS.md.
extern crate alloc;

include!(concat!(env!("OUT_DIR"), "/sctp.rs"));

mod causes;
mod codec;
mod forward_tsn;
mod in_flight;
mod packets;
mod panics;
mod reassembly;
mod shown;
mod tsn_queue;
mod wanted;

use calls::{Answers, Call, words};

// What sctp-proto's files name from its own lib.rs.
pub use crate::chunk::ErrorCauseCode;
pub use crate::wanted::{ReliabilityType, StreamId, Transmit};

/// What is linked for the crates that sctp-proto asks for.
pub const CRATES: &str = env!("ORACLE_CRATES");

/// The Rust's queues and the message in hand.
#[derive(Default)]
pub struct Oracle {
    tsn_queue: tsn_queue::TsnQueue,
    in_flight: in_flight::InFlight,
    reassembly: reassembly::Reassembly,
}

impl Oracle {
    pub fn new() -> Self {
        Self::default()
    }

    fn made(&mut self, call: &Call, line: &mut Vec<u8>) {
        match call.number() {
            ..16 => codec::answer(call, line),
            16..32 => self.tsn_queue.answer(call, line),
            32..48 => self.reassembly.answer(call, line),
            48..53 => self.reassembly.answer_in_hand(call, line),
            53..57 => forward_tsn::answer(call, line),
            57 => self.tsn_queue.answer(call, line),
            58 => self.reassembly.answer(call, line),
            59..65 => packets::answer(call, line),
            65..67 => causes::answer(call, line),
            67..69 => codec::answer(call, line),
            69.. => self.in_flight.answer(call, line),
        }
    }

    /// A queue may be in any order after a panic, so a fresh one takes its place. The message in hand is not altered by the panic it may give.
    fn renew(&mut self, call: &Call) {
        match call.number() {
            16..32 | 57 => self.tsn_queue = Default::default(),
            32..48 | 58 => self.reassembly.renew(),
            69.. => self.in_flight = Default::default(),
            _ => {}
        }
    }
}

impl Answers for Oracle {
    fn answer(&mut self, call: &Call, line: &mut Vec<u8>) {
        let before = line.len();
        if let Err(text) = panics::caught(|| self.made(call, line)) {
            line.truncate(before);
            words!(line, "panic", text);
            self.renew(call);
        }
    }
}
