//! Random calls from a seed. A model stands beside the generator, so that it knows the state and, in mode `in`, keeps inside document 01's domain.
mod bounded;
mod causes;
mod codec;
mod forge;
mod forward;
mod hand;
mod in_flight;
mod packets;
mod plan;
mod reassembly;
mod short;
mod tsns;

use crate::Mode;
use crate::coverage::{Coverage, Event};
use crate::domain;
use crate::model::Model;
use crate::rng::Rng;
use calls::{Answers, Call};

pub use short::COUNT as SHORT;

/// Calls with the model's lines. They come in runs, each of which starts from fresh queues.
#[derive(Default)]
pub struct Batch {
    pub calls: Vec<Call>,
    pub lines: Vec<u8>,
    /// The index of the first call of each run.
    pub runs: Vec<usize>,
    /// What stands behind the calls in the stream, if anything: the beginning of a call that is malformed.
    pub tail: Vec<u8>,
    /// How many of the short inputs it had in turn.
    pub short: u64,
    pub coverage: Coverage,
}

impl Batch {
    pub fn stream(&self) -> Vec<u8> {
        let mut stream = Vec::new();
        self.calls.iter().for_each(|call| call.encode(&mut stream));
        stream.extend(&self.tail);
        stream
    }
}

/// The batch of that number: so many calls, or a few more, so that its last run ends. One call in nine is a short input: batch number n has the n-th
/// so many of them.
pub fn batch(mode: Mode, seed: u64, number: u64, size: usize) -> Batch {
    let mut m = Maker::new(mode, Rng::nth(seed, number));
    m.begin();
    let short = size as u64 / 9;
    m.batch.short = short;
    for i in 0..short {
        short::item(&mut m, number * short + i);
    }
    while m.batch.calls.len() < size {
        m.run();
    }
    if mode == Mode::Out {
        m.malformed();
    }
    m.batch
}

/// A payload identifier that mostly has no name: beside the names, with the low 16 bits of one, or any.
pub fn unnamed(rng: &mut Rng) -> u32 {
    let any = rng.number() as u32;
    rng.pick(&[0, 7, 49, 52, 54, 55, 59, 51 + (1 << 16), 53 + (any % 9 << 16), any, any])
}

pub struct Maker {
    pub rng: Rng,
    pub mode: Mode,
    pub model: Model,
    pub batch: Batch,
}

impl Maker {
    pub fn new(mode: Mode, rng: Rng) -> Maker {
        Maker { rng, mode, model: Model::new(), batch: Batch::default() }
    }

    /// A run begins here.
    pub fn begin(&mut self) {
        self.batch.runs.push(self.batch.calls.len());
    }

    pub fn run(&mut self) {
        self.begin();
        match self.rng.below(100) {
            0..18 => codec::run(self),
            18..22 => codec::serials(self),
            22..30 => packets::run(self),
            30..35 => causes::run(self),
            35..48 => tsns::run(self),
            48..56 => in_flight::run(self),
            _ => reassembly::run(self),
        }
    }

    /// Puts a call into the batch, in mode `in` only where it is inside the domain. Whether it did.
    pub fn call(&mut self, call: Call) -> bool {
        let inside = self.mode == Mode::Out || domain::inside(&self.model, &call);
        if inside {
            self.put(call);
        }
        inside
    }

    pub fn put(&mut self, call: Call) {
        let start = self.batch.lines.len();
        self.model.answer(&call, &mut self.batch.lines);
        self.batch.coverage.count(&call, &self.batch.lines[start..]);
        self.batch.lines.push(b'\n');
        self.batch.calls.push(call);
    }

    /// A payload identifier that the Rust keeps; outside the domain also any other.
    pub fn identifier(&mut self) -> u32 {
        if self.wild(2) { unnamed(&mut self.rng) } else { self.rng.pick(&domain::KEPT) }
    }

    /// Now and then, outside the domain.
    pub fn wild(&mut self, one_in: u64) -> bool {
        self.mode == Mode::Out && self.rng.one_in(one_in)
    }

    pub fn event(&mut self, event: Event) {
        self.batch.coverage.event(event);
    }

    /// A stream's end that is no call: a number that is not in the tables, an operand above what is said of it, a field that is not named, a call cut off.
    fn malformed(&mut self) {
        let mut tail = Vec::new();
        match self.rng.below(6) {
            0 => return,
            1 => tail.push(self.rng.pick(&[0, 15, 47, 83, 255])),
            2 => tail.extend([self.rng.pick(&[5, 53, 58, 59, 63, 65, 66]), 0, 1, 0, 65]),
            3 => tail.extend([self.rng.pick(&[30, 40, 52, 81]), 10, 0, 0, 0, 0, 0, 0, 0, 0, 0, 0]),
            4 => tail.extend([self.rng.pick(&[35, 56, 64]), 0, 1, 0, 65, 7]),
            _ => {
                let last = self.batch.calls.iter().rev().find(|call| !matches!(call, Call::PqNew {})).expect("a call");
                last.encode(&mut tail);
                let cut = self.rng.within(1, (tail.len() as u64 - 1).max(1));
                tail.truncate(cut as usize);
                if Call::decode(&mut &tail[..]).is_some() {
                    return;
                }
            }
        }
        self.batch.tail = tail;
        self.batch.lines.extend(format!("malformed call {}\n", self.batch.calls.len() + 1).bytes());
    }
}

#[cfg(test)]
mod tests {
    use super::*;
    use crate::run::split;

    #[test]
    fn a_seed_gives_the_same_batch() {
        for mode in [Mode::In, Mode::Out] {
            let (a, b, c) = (batch(mode, 7, 3, 3_000), batch(mode, 7, 3, 3_000), batch(mode, 7, 4, 3_000));
            assert!(a.stream() == b.stream() && a.lines == b.lines);
            assert!(a.stream() != c.stream());
        }
    }

    #[test]
    fn the_stream_is_answered_by_the_lines() {
        for number in 0..6 {
            let batch = batch(Mode::Out, 11, number, 2_000);
            let mut lines = Vec::new();
            calls::reply(&mut Model::new(), &batch.stream(), &mut lines);
            assert!(lines == batch.lines, "batch {number}");
        }
    }

    #[test]
    fn mode_in_answers_no_number_that_was_added() {
        let batch = batch(Mode::In, 5, 0, 20_000);
        for (call, line) in batch.calls.iter().zip(split(&batch.lines)) {
            let added = [&b"refused 0"[..], b"refused 8", b"refused 10", b"refused 11"].iter().any(|start| line.starts_with(start));
            assert!(!added, "{call:?}: {}", String::from_utf8_lossy(line));
        }
    }
}
