//! Batches of calls through the answerers, two at a time, and their lines held against each other.
use crate::answerers::Answerers;
use crate::coverage::Coverage;
use crate::generate::{self, Batch};
use crate::{Mode, explained};
use calls::Call;
use std::collections::BTreeMap;
use std::io::{IsTerminal, Write};
use std::sync::Mutex;
use std::sync::atomic::{AtomicU64, Ordering};
use std::time::{Duration, Instant};

pub struct Asked {
    pub mode: Mode,
    pub seed: u64,
    pub calls: u64,
    pub seconds: Option<u64>,
    pub batch: usize,
}

/// The lines of one call: what each answered, if it did.
pub struct Lines<'a> {
    pub replies: Option<&'a [u8]>,
    pub oracle: Option<&'a [u8]>,
    pub model: Option<&'a [u8]>,
}

/// Which differences of docs/DIFFERENCES.md were met, how often.
pub type Explained = BTreeMap<u8, u64>;

#[derive(Default)]
pub struct Summary {
    pub coverage: Coverage,
    pub explained: Explained,
    pub runs: u64,
    pub batches: u64,
    pub short: u64,
    pub model: Duration,
    pub replies: Duration,
    pub oracle: Duration,
    /// The number of the first batch that parts, and the index of the call.
    pub parted: Option<(u64, usize)>,
    pub broken: Option<String>,
}

/// The index of the first call whose lines part and no difference explains it.
pub fn parting(calls: &[Call], model: &[u8], replies: &[u8], oracle: Option<&[u8]>, explained: &mut Explained) -> Option<usize> {
    if replies == model && oracle.is_none_or(|oracle| oracle == model) {
        return None;
    }
    let mut ours = split(replies);
    let mut theirs = split(oracle.unwrap_or(model));
    let mut expected = split(model);
    for index in 0.. {
        let (replies, oracle, model) = (ours.next(), theirs.next(), expected.next());
        if replies.is_none() && oracle.is_none() && model.is_none() {
            return None;
        }
        if replies == model && oracle == model {
            continue;
        }
        let number = match (calls.get(index), replies, oracle) {
            (Some(call), Some(ours), Some(theirs)) if replies == model => explained::by(call, ours, theirs),
            _ => None,
        };
        match number {
            Some(number) => *explained.entry(number).or_default() += 1,
            None => return Some(index),
        }
    }
    None
}

/// Lines, each with its end taken off; a last one without an end is one too.
pub fn split(lines: &[u8]) -> impl Iterator<Item = &[u8]> {
    lines.split_inclusive(|b| *b == b'\n').map(|line| line.strip_suffix(b"\n").unwrap_or(line))
}

pub fn all(asked: &Asked, who: &Answerers) -> Summary {
    let started = Instant::now();
    let next = AtomicU64::new(0);
    let summary = Mutex::new(Summary::default());
    let batches = asked.calls.div_ceil(asked.batch as u64);
    std::thread::scope(|scope| {
        for _ in 0..2 {
            scope.spawn(|| {
                loop {
                    let number = next.fetch_add(1, Ordering::SeqCst);
                    let late = asked.seconds.is_some_and(|s| started.elapsed().as_secs() >= s);
                    if number >= batches || late || summary.lock().unwrap().over() {
                        return;
                    }
                    let size = (asked.batch as u64).min(asked.calls - number * asked.batch as u64);
                    one(asked, who, number, size as usize, &summary);
                    progress(asked, &summary.lock().unwrap(), started);
                }
            });
        }
    });
    summary.into_inner().unwrap()
}

impl Summary {
    /// Nothing more is to be run.
    fn over(&self) -> bool {
        self.parted.is_some() || self.broken.is_some()
    }
}

fn timed<T>(what: impl FnOnce() -> T) -> (T, Duration) {
    let started = Instant::now();
    let done = what();
    (done, started.elapsed())
}

/// One batch: made, answered and compared.
fn one(asked: &Asked, who: &Answerers, number: u64, size: usize, summary: &Mutex<Summary>) {
    let (batch, model) = timed(|| generate::batch(asked.mode, asked.seed, number, size));
    let stream = batch.stream();
    let (ours, replies) = timed(|| who.replies.lines(&stream));
    let (theirs, oracle) = timed(|| who.oracle.as_ref().map(|oracle| oracle.lines(&stream)).transpose());
    let mut summary = summary.lock().unwrap();
    summary.batches += 1;
    summary.short += batch.short;
    summary.runs += batch.runs.len() as u64;
    summary.coverage.add(&batch.coverage);
    summary.model += model;
    summary.replies += replies;
    summary.oracle += oracle;
    match (ours, theirs) {
        (Ok(ours), Ok(theirs)) => {
            let index = parting(&batch.calls, &batch.lines, &ours, theirs.as_deref(), &mut summary.explained);
            let first = index.map(|index| (number, index)).into_iter().chain(summary.parted).min();
            summary.parted = first;
        }
        (Err(text), _) | (_, Err(text)) => summary.broken = Some(text),
    }
}

/// On a terminal, one line that is written over.
fn progress(asked: &Asked, summary: &Summary, started: Instant) {
    let mut out = std::io::stderr();
    if out.is_terminal() {
        let (calls, seconds) = (summary.coverage.calls, started.elapsed().as_secs());
        _ = write!(out, "\rmode {}, seed {}: {calls} of {} calls, {seconds} s ", asked.mode, asked.seed, asked.calls);
        _ = out.flush();
    }
}

/// The calls up to the one that parts, from its run on if that run shows it alone.
pub fn up_to(batch: &Batch, index: usize) -> (Vec<Call>, Vec<Call>) {
    let end = (index + 1).min(batch.calls.len());
    let start = batch.runs.iter().copied().filter(|start| *start < end).max().unwrap_or(0);
    (batch.calls[start..end].to_vec(), batch.calls[..end].to_vec())
}
