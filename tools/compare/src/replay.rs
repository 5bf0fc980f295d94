//! Files of captured chunks (document 02, M-113): what the proved program `replay` writes of each, and `replay_three`, which ends after three records, held
//! against a model; and whether a model with a mistake is found out.
mod files;
mod model;

use model::{MOST, Mistake, replayed};
use std::collections::BTreeMap;
use std::io::Write;
use std::path::Path;
use std::process::{Command, Stdio};
use std::time::{Duration, Instant};

/// Where the file is kept whose output parts.
const PARTED: &str = "target/replay-parted";

/// What a program writes of a file.
fn written(program: &str, file: &[u8]) -> Result<String, String> {
    let failed = |e: std::io::Error| format!("{program}: {e}");
    let mut child = Command::new(program).stdin(Stdio::piped()).stdout(Stdio::piped()).spawn().map_err(failed)?;
    let mut stdin = child.stdin.take().ok_or("no standard input")?;
    std::thread::scope(|scope| {
        // a program that is done with the file early closes it
        scope.spawn(move || stdin.write_all(file).ok());
        let output = child.wait_with_output().map_err(failed)?;
        if output.status.success() { String::from_utf8(output.stdout).map_err(|e| e.to_string()) } else { Err(format!("{program}: {}", output.status)) }
    })
}

/// What a line says of a record: T, F, cut, a refusal's number; the last line and that of another version by their first word.
fn kind(line: &str) -> &str {
    match line.split_once(' ') {
        Some(("total", _)) => "total",
        Some(("bad", _)) => "bad version",
        Some((_, said)) => said,
        None => line,
    }
}

/// Kinds of lines that must occur.
const KINDS: [&str; 12] = ["T", "F", "1", "2", "3", "4", "8", "15", "17", "cut", "total", "bad version"];

/// Holds the programs to the model on so many files, or for so many seconds; whether all is well.
pub fn run(seed: u64, program: &str, three: &str, most: u64, seconds: Option<u64>) -> Result<bool, String> {
    let (mut files, mut bytes) = (0, 0);
    let mut kinds: BTreeMap<String, u64> = BTreeMap::new();
    let start = Instant::now();
    while files < most && seconds.is_none_or(|s| start.elapsed() < Duration::from_secs(s)) {
        let file = files::file(seed, files);
        for (program, limit) in [(program, MOST), (three, 3)] {
            let (ours, right) = (written(program, &file)?, replayed(&file, limit, None));
            if ours != right {
                return parted(seed, files, program, &file, &ours, &right);
            }
            right.lines().for_each(|line| *kinds.entry(kind(line).into()).or_default() += 1);
        }
        (files, bytes) = (files + 1, bytes + file.len());
    }
    println!("  {files} files of {bytes} bytes in all; lines: {}", kinds.iter().map(|(kind, n)| format!("{kind} {n}")).collect::<Vec<_>>().join(", "));
    let missing: Vec<&str> = KINDS.into_iter().filter(|kind| !kinds.contains_key(*kind)).collect();
    let verdict = if missing.is_empty() { "replay" } else { "FAILED" };
    println!("{verdict}: seed {seed}, {files} files, 0 differences, lines that did not occur: {}", missing.len());
    Ok(missing.is_empty())
}

/// Keeps the file, and says where the outputs part.
fn parted(seed: u64, n: u64, program: &str, file: &[u8], ours: &str, right: &str) -> Result<bool, String> {
    std::fs::create_dir_all("target").and_then(|()| std::fs::write(PARTED, file)).map_err(|e| format!("{PARTED}: {e}"))?;
    println!("FAILED: seed {seed}: of file {n}, kept at {PARTED}, {program} and the model part:");
    let same = ours.lines().zip(right.lines()).take_while(|(a, b)| a == b).count();
    println!("  line {}: {:?}, and {:?}", same + 1, ours.lines().nth(same), right.lines().nth(same));
    Ok(false)
}

/// Are mistakes found? Each model with one is held against the right one on the same files.
pub fn faults(seed: u64, most: u64) -> bool {
    let found = |mistake: Mistake| {
        (0..most).find(|n| {
            let file = files::file(seed, *n);
            [MOST, 3].into_iter().any(|limit| replayed(&file, limit, Some(mistake)) != replayed(&file, limit, None))
        })
    };
    let mut missed = 0;
    for mistake in Mistake::ALL {
        let after = found(*mistake);
        missed += u64::from(after.is_none());
        println!("  {:<18} {:>8}  {}", format!("{mistake:?}"), after.map_or("-".into(), |n| (n + 1).to_string()), mistake.text());
    }
    println!("{}: seed {seed}, {} mistakes in a replay, not found: {missed}", if missed == 0 { "faults" } else { "FAILED" }, Mistake::ALL.len());
    missed == 0
}

/// Writes stdin and stdout for crates/replay.
pub fn record(folder: &Path) -> Result<(), String> {
    let file = files::recorded();
    let kept = |name: &str, bytes: &[u8]| std::fs::write(folder.join(name), bytes).map_err(|e| format!("{name}: {e}"));
    kept("stdin", &file)?;
    kept("stdout", replayed(&file, MOST, None).as_bytes())
}

#[cfg(test)]
mod tests {
    use super::{MOST, replayed};

    /// Document 02's example, and the small files of crates/replay_theorems.
    #[test]
    fn small_files() {
        let files: [(&[u8], &str); 7] = [
            (&[1, 0, 4, 0x0A, 0, 0, 4], "0 3\ntotal 0 0 1 0\n"),
            (&[], "bad version\n"),
            (&[2, 0, 4, 0x0A, 0, 0, 4], "bad version\n"),
            (&[1], "total 0 0 0 0\n"),
            (&[1, 0], "0 cut\ntotal 0 0 0 1\n"),
            (&[1, 0, 4, 0x0A, 0, 0, 4, 0, 4, 0x0A, 0, 0], "0 3\n1 cut\ntotal 0 0 1 1\n"),
            (&[1, 0, 0], "0 1\ntotal 0 0 1 0\n"),
        ];
        for (file, text) in files {
            assert_eq!(replayed(file, MOST, None), text);
        }
        assert_eq!(replayed(&[1, 0, 0, 0], 1, None), "0 1\ntotal 0 0 1 0\n");
    }
}
