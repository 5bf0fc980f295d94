//! The sample that `crates/replies` is run on: a stream, the lines that are expected, and where each of them came from.
use crate::answerers::Who;
use crate::coverage::{self, Coverage};
use crate::generate::Maker;
use crate::model::Model;
use crate::rng::Rng;
use crate::run::split;
use crate::{Mode, domain, parted};
use calls::{Answers, Call, Data, Fields};
use std::path::Path;

/// Runs of each mode that are in the sample whatever they have; and a run's most bytes, in the stream and in lines.
const RUNS: usize = 35;
const STREAM_MOST: usize = 3_000;
const LINES_MOST: usize = 12_000;

/// Writes stdin, stdout and source into a folder. The first part is inside the domain, and its lines are the Rust's; the second has what the Rust does not
/// have, and its lines are the model's.
pub fn write(folder: &Path, oracle: &Who, seed: u64) -> Result<(), String> {
    let mut covered = Coverage::default();
    let mut calls = greatest_inside();
    calls.extend(sample(Mode::In, seed, &mut covered)?);
    let inside = calls.len();
    calls.extend(greatest_outside());
    calls.extend(parted::calls());
    calls.extend(sample(Mode::Out, seed, &mut covered)?);
    let (stdin, first) = (encoded(&calls), encoded(&calls[..inside]));
    let mut model = Vec::new();
    calls::reply(&mut Model::new(), &stdin, &mut model);
    let mut stdout = oracle.lines(&first)?;
    for (index, (rust, model)) in split(&stdout).zip(split(&model)).enumerate() {
        if rust != model {
            return Err(format!("seed {seed}: the Rust and the model part at call {}: {:?}", index + 1, calls[index]));
        }
    }
    for line in split(&model).skip(inside) {
        stdout.extend(line);
        stdout.push(b'\n');
    }
    let source = format!("lines 1 to {inside}: the Rust\nlines {} to {}: the model of documents 01 and 02\n", inside + 1, calls.len());
    for (name, bytes) in [("stdin", &stdin), ("stdout", &stdout), ("source", &source.into_bytes())] {
        std::fs::write(folder.join(name), bytes).map_err(|e| format!("{}: {e}", folder.join(name).display()))?;
    }
    println!("record: seed {seed}, {} calls, {inside} of them the Rust's; stdin {} bytes, stdout {} bytes", calls.len(), stdin.len(), stdout.len());
    Ok(())
}

fn encoded(calls: &[Call]) -> Vec<u8> {
    let mut stream = Vec::new();
    calls.iter().for_each(|call| call.encode(&mut stream));
    stream
}

/// Short runs, and as many more as it takes for each answer of each call to occur.
fn sample(mode: Mode, seed: u64, covered: &mut Coverage) -> Result<Vec<Call>, String> {
    let mut maker = Maker::new(mode, Rng::nth(seed, mode as u64));
    let mut calls = Vec::new();
    for tried in 0..200_000 {
        let missing = coverage::expected(mode).find(|(call, _, answer)| !covered.has(*call, answer));
        if tried >= RUNS && missing.is_none() {
            return Ok(calls);
        }
        let (first, start) = (maker.batch.calls.len(), maker.batch.lines.len());
        maker.run();
        let (run, lines) = (&maker.batch.calls[first..], &maker.batch.lines[start..]);
        let mut news = Coverage::default();
        run.iter().zip(split(lines)).for_each(|(call, line)| news.count(call, line));
        let adds = coverage::expected(mode).any(|(call, _, answer)| news.has(call, answer) && !covered.has(call, answer));
        if (tried < RUNS || adds) && encoded(run).len() <= STREAM_MOST && lines.len() <= LINES_MOST {
            calls.extend(kept(mode, run));
            covered.add(&news);
        }
    }
    let missing: Vec<String> = coverage::expected(mode).filter(|(c, _, a)| !covered.has(*c, a)).map(|(_, name, a)| format!("{name} {a}")).collect();
    Err(format!("seed {seed}: no run with {}", missing.join(", ")))
}

/// Inside the domain without the calls that a difference explains.
fn kept(mode: Mode, run: &[Call]) -> Vec<Call> {
    let mut model = Model::new();
    let mut line = Vec::new();
    let mut calls = run.to_vec();
    calls.retain(|call| {
        let keep = mode == Mode::Out || domain::inside(&model, call);
        if keep {
            model.answer(call, &mut line);
            line.clear();
        }
        keep
    });
    calls
}

fn data(size: u32, room: u32) -> Call {
    Call::DataMarshal { room, fill: 0xEE, fields: Fields { flags: 3, tsn: 1, stream: 2, ssn: 3, identifier: 51 }, data: Data { size, seed: 7 } }
}

fn sack(blocks: usize, duplicates: u32, room: u32) -> Call {
    let starts = (0..blocks).map(|i| 3 * i as u16).collect();
    let ends = (0..blocks).map(|i| 3 * i as u16 + 1).collect();
    Call::SackMarshal { room, fill: 0xEE, cumulative: 1, window: 2, starts, ends, duplicates: (0..duplicates).collect() }
}

fn forward(pairs: u16, room: u32) -> Call {
    Call::FwdMarshal { room, fill: 0xEE, point: 1, streams: (0..pairs).collect(), ssns: (0..pairs).map(|i| 3 * i).collect() }
}

/// The longest DATA, and a SACK and a FORWARD TSN with as many entries as can be.
fn greatest_inside() -> Vec<Call> {
    vec![data(65_519, 65_537), sack(8_000, 8_379, 65_532), forward(16_381, 65_532)]
}

/// One byte and one entry more, each.
fn greatest_outside() -> Vec<Call> {
    vec![data(65_520, 65_600), sack(16_380, 0, 0), forward(16_382, 0)]
}
