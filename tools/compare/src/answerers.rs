//! Who answers a stream: a program that reads it on its standard input, or the model.
use crate::model::Model;
use crate::model::fault::Fault;
use std::io::{Read, Write};
use std::path::PathBuf;
use std::process::{Command, Stdio};

#[derive(Clone, Debug)]
pub enum Who {
    Program(PathBuf),
    Model(Option<Fault>),
}

impl Who {
    /// A path; `model` for the model; `model:Name` for one that makes that mistake.
    pub fn named(name: &str) -> Result<Who, String> {
        match name.strip_prefix("model") {
            Some("") => Ok(Who::Model(None)),
            Some(fault) if fault.starts_with(':') => {
                let found = Fault::ALL.iter().find(|f| format!(":{f:?}") == fault);
                found.map(|f| Who::Model(Some(*f))).ok_or(format!("no mistake is called {}", &fault[1..]))
            }
            _ if std::fs::metadata(name).is_ok() => Ok(Who::Program(PathBuf::from(name))),
            _ => Err(format!("no program {name}")),
        }
    }

    /// Its lines.
    pub fn lines(&self, stream: &[u8]) -> Result<Vec<u8>, String> {
        let mut lines = Vec::new();
        match self {
            Who::Model(fault) => calls::reply(&mut Model::wrong(*fault), stream, &mut lines),
            Who::Program(path) => {
                let failed = |what: &str, e: &dyn std::fmt::Display| format!("{}: {what}: {e}", path.display());
                let mut child =
                    Command::new(path).stdin(Stdio::piped()).stdout(Stdio::piped()).spawn().map_err(|e| failed("does not start", &e))?;
                let (mut stdin, mut stdout) = (child.stdin.take().expect("a pipe"), child.stdout.take().expect("a pipe"));
                std::thread::scope(|scope| {
                    // A program that ends early leaves the rest unread; its lines say so.
                    scope.spawn(move || _ = stdin.write_all(stream));
                    stdout.read_to_end(&mut lines)
                })
                .map_err(|e| failed("its lines cannot be read", &e))?;
                let status = child.wait().map_err(|e| failed("does not end", &e))?;
                if status.code().is_none() {
                    lines.extend(format!("(the program was ended: {status})\n").bytes());
                }
            }
        }
        Ok(lines)
    }
}

/// Who is held against the model: the proved program, and in mode `in` the Rust.
pub struct Answerers {
    pub replies: Who,
    pub oracle: Option<Who>,
}
