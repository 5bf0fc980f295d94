//! Random calls from a seed, answered by the proved program `replies`, by the Rust (`oracle`) and by a model of documents 01 and 02, and compared line by line.
mod answerers;
mod coverage;
mod domain;
mod explained;
mod faults;
mod generate;
mod model;
mod parted;
mod record;
mod replay;
mod rng;
mod run;
mod shrink;
mod simpler;

use answerers::{Answerers, Who};
use run::{Asked, Summary};
use std::collections::BTreeMap;
use std::fmt;
use std::io::{Read, Write};
use std::path::Path;
use std::process::ExitCode;

const USAGE: &str = "usage:
  compare --mode in|out --replies PROGRAM [--oracle PROGRAM] [--seed N] [--calls N] [--seconds N] [--batch N]
      in: calls inside document 01's domain; replies, the oracle and the model must answer the same
      out: any calls, unsound states too; replies and the model must answer the same
      PROGRAM is a path, or `model`, or `model:Mistake` with a name that --faults prints
  compare --mode in|out --stream FILE [--seed N] [--calls N]   writes the calls alone
  compare --answer [--replies PROGRAM]                         answers calls on standard input as PROGRAM does, or the model where none is named
  compare --record FOLDER --oracle PROGRAM [--seed N]          writes stdin, stdout and source for crates/replies
  compare --faults [--seed N] [--calls N]                      models with a mistake each are found out
  compare --replay PROGRAM --three PROGRAM [--seed N] [--files N] [--seconds N]   files of captured chunks; the programs and the model must write the same
  compare --record-replay FOLDER                               writes stdin and stdout for crates/replay";

/// Inside document 01's domain, or anywhere.
#[derive(Clone, Copy, Debug, PartialEq, Eq)]
pub enum Mode {
    In,
    Out,
}

impl fmt::Display for Mode {
    fn fmt(&self, f: &mut fmt::Formatter<'_>) -> fmt::Result {
        f.write_str(if *self == Mode::In { "in" } else { "out" })
    }
}

/// The options that are given, each with its value.
struct Options(BTreeMap<String, String>);

impl Options {
    fn read() -> Result<Options, String> {
        let mut given = BTreeMap::new();
        let mut words = std::env::args().skip(1);
        while let Some(word) = words.next() {
            let name = word.strip_prefix("--").ok_or(format!("{word} is no option"))?.to_string();
            let value = match name.as_str() {
                "faults" | "answer" => String::new(),
                "mode" | "seed" | "calls" | "seconds" | "replies" | "oracle" | "batch" | "record" | "stream" | "replay" | "three" | "files" | "record-replay" => {
                    words.next().ok_or(format!("--{name} wants a value"))?
                }
                _ => return Err(format!("{word} is no option")),
            };
            given.insert(name, value);
        }
        Ok(Options(given))
    }

    fn text(&self, name: &str) -> Option<&str> {
        self.0.get(name).map(String::as_str)
    }

    fn number(&self, name: &str) -> Result<Option<u64>, String> {
        let parsed = self.text(name).map(|text| text.replace('_', "").parse());
        parsed.transpose().map_err(|_| format!("--{name} wants a number"))
    }

    fn mode(&self) -> Result<Mode, String> {
        match self.text("mode") {
            Some("in") => Ok(Mode::In),
            Some("out") => Ok(Mode::Out),
            _ => Err("--mode in or --mode out".into()),
        }
    }

    fn who(&self, name: &str) -> Result<Who, String> {
        Who::named(self.text(name).ok_or(format!("--{name} is wanted"))?)
    }
}

fn main() -> ExitCode {
    match Options::read().and_then(|options| done(&options)) {
        Ok(true) => ExitCode::SUCCESS,
        Ok(false) => ExitCode::FAILURE,
        Err(text) => {
            eprintln!("compare: {text}\n{USAGE}");
            ExitCode::from(2)
        }
    }
}

/// Does what the options ask for; whether all is well.
fn done(options: &Options) -> Result<bool, String> {
    let seed = options.number("seed")?;
    if options.text("faults").is_some() {
        let found = faults::run(seed.unwrap_or(1), options.number("calls")?.unwrap_or(1_000_000));
        return Ok(replay::faults(seed.unwrap_or(1), 2_000) && found);
    }
    if options.text("answer").is_some() {
        let who = if options.text("replies").is_some() { options.who("replies")? } else { Who::Model(None) };
        return answer(&who).map(|()| true);
    }
    if let Some(folder) = options.text("record") {
        return record::write(Path::new(folder), &options.who("oracle")?, seed.unwrap_or(1)).map(|()| true);
    }
    if let Some(folder) = options.text("record-replay") {
        return replay::record(Path::new(folder)).map(|()| true);
    }
    let clock = || std::time::SystemTime::now().duration_since(std::time::UNIX_EPOCH).map_or(1, |time| time.as_nanos() as u64 % 1_000_000_000);
    if let Some(program) = options.text("replay") {
        let three = options.text("three").ok_or("--three is wanted")?;
        let most = options.number("files")?.unwrap_or(if options.number("seconds")?.is_some() { u64::MAX } else { 10_000 });
        return replay::run(seed.unwrap_or_else(clock), program, three, most, options.number("seconds")?);
    }
    let asked = Asked {
        mode: options.mode()?,
        seed: seed.unwrap_or_else(clock),
        calls: options.number("calls")?.unwrap_or(if options.number("seconds")?.is_some() { u64::MAX >> 8 } else { 1_000_000 }),
        seconds: options.number("seconds")?,
        batch: options.number("batch")?.unwrap_or(30_000).max(100) as usize,
    };
    if let Some(file) = options.text("stream") {
        let batch = generate::batch(asked.mode, asked.seed, 0, asked.calls as usize);
        println!("stream: mode {}, seed {}, {} calls", asked.mode, asked.seed, batch.calls.len());
        return std::fs::write(file, batch.stream()).map(|()| true).map_err(|e| format!("{file}: {e}"));
    }
    let oracle = if asked.mode == Mode::In { Some(options.who("oracle")?) } else { None };
    let who = Answerers { replies: options.who("replies")?, oracle };
    println!("compare: mode {}, seed {}", asked.mode, asked.seed);
    Ok(report(&asked, &who, &run::all(&asked, &who)))
}

/// Who it is, as a program of its own.
fn answer(who: &Who) -> Result<(), String> {
    let mut stream = Vec::new();
    std::io::stdin().read_to_end(&mut stream).map_err(|e| e.to_string())?;
    std::io::stdout().write_all(&who.lines(&stream)?).map_err(|e| e.to_string())
}

/// What was run, how fast, what occurred, and what parts; whether all is well.
fn report(asked: &Asked, who: &Answerers, summary: &Summary) -> bool {
    let Asked { mode, seed, .. } = asked;
    if std::io::IsTerminal::is_terminal(&std::io::stderr()) {
        eprintln!();
    }
    if let Some(text) = &summary.broken {
        println!("FAILED: mode {mode}, seed {seed}: {text}");
        return false;
    }
    let calls = summary.coverage.calls;
    println!("  {calls} calls in {} runs, {} batches of {}", summary.runs, summary.batches, asked.batch);
    let speed = |time: std::time::Duration| calls as f64 / time.as_secs_f64().max(1e-9);
    println!("  calls a second: {:.0} made with the model, {:.0} by replies", speed(summary.model), speed(summary.replies));
    let mut thin = summary.coverage.thin(*mode);
    if mode == &Mode::In {
        println!("  calls a second: {:.0} by the oracle", speed(summary.oracle));
        for (number, text) in explained::ALL {
            let n = summary.explained.get(number).copied().unwrap_or(0);
            println!("  explained by difference {number} ({text}): {n}");
            thin.extend((n < calls / 1_000_000).then(|| format!("difference {number}: {n} of {}", calls / 1_000_000)));
        }
    }
    println!("  short inputs: {} of {}", summary.short.min(generate::SHORT), generate::SHORT);
    summary.coverage.print(*mode);
    if let Some((number, index)) = summary.parted {
        show_parted(asked, who, number, index);
        return false;
    }
    thin.iter().for_each(|line| println!("  too few: {line}"));
    let verdict = if thin.is_empty() { "compare" } else { "FAILED" };
    println!("{verdict}: mode {mode}, seed {seed}, {calls} calls, 0 differences, coverage thin in {} places", thin.len());
    thin.is_empty()
}

/// The difference, made short.
fn show_parted(asked: &Asked, who: &Answerers, number: u64, index: usize) {
    let Asked { mode, seed, .. } = asked;
    let size = (asked.batch as u64).min(asked.calls - number * asked.batch as u64);
    let batch = generate::batch(*mode, *seed, number, size as usize);
    println!("FAILED: mode {mode}, seed {seed}: batch {number} of {} parts at call {}", asked.batch, index + 1);
    if index >= batch.calls.len() {
        let lines = who.replies.lines(&batch.stream()).unwrap_or_default();
        let line = run::split(&lines).nth(index).map_or("(no line)".into(), String::from_utf8_lossy);
        return println!("  behind all calls, where the stream has {:?}; replies: {line}", batch.tail);
    }
    let (run, all) = run::up_to(&batch, index);
    let before = run.len();
    let (calls, tries) = shrink::shrink(*mode, who, run, all);
    println!("  the run's {before} calls made {} in {tries} tries:", calls.len());
    shrink::print(who, &calls);
    println!("  seed {seed}: {}", shrink::who_parts(who, &calls));
}
