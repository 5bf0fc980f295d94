//! Answers a stream of calls (docs/CALLS.md) on standard input with sctp-proto's own code, one line to a call.
use std::io::{Read, Write, stdin, stdout};
use std::process::ExitCode;

fn main() -> ExitCode {
    match std::env::args().nth(1).as_deref() {
        None => {
            let (mut stream, mut lines) = (Vec::new(), Vec::new());
            stdin().read_to_end(&mut stream).expect("standard input");
            calls::reply(&mut oracle::Oracle::new(), &stream, &mut lines);
            stdout().write_all(&lines).expect("standard output");
            ExitCode::SUCCESS
        }
        Some("--version") => {
            println!("oracle: sctp-proto 0.10.8 with {}", oracle::CRATES);
            ExitCode::SUCCESS
        }
        Some(_) => {
            eprintln!("usage: oracle < calls, or oracle --version");
            ExitCode::from(2)
        }
    }
}
