//! The table and the fitted lines, on standard output and between two marks of docs/BENCH.md, one pair for each profile.
use crate::growth::Series;
use crate::time::{Seen, Spread};
use std::fmt::Write;

fn ns(x: f64) -> String {
    match x {
        ..100.0 => format!("{x:.1}"),
        _ => {
            let digits = format!("{x:.0}");
            let groups: Vec<_> = digits.as_bytes().rchunks(3).rev().map(|group| str::from_utf8(group).unwrap()).collect();
            groups.join(",")
        }
    }
}

fn shown(time: &Spread) -> String {
    format!("{} ({} to {})", ns(time.median), ns(time.low), ns(time.high))
}

/// What the table was taken with.
fn taken() -> String {
    let said = |name| std::env::var(name).unwrap_or_default();
    let (processor, rustc, load) = (said("BENCH_PROCESSOR"), said("BENCH_RUSTC"), said("BENCH_LOAD"));
    format!("{} ({processor}), {rustc}, {}; load average before the run {load}.", std::env::consts::ARCH, env!("ORACLE_CRATES"))
}

fn table(seen: &[Seen]) -> String {
    let mut text = format!("{}\n\n| row, ns | ours | the Rust | ours / Rust |\n|---|--:|--:|--:|\n", taken());
    for row in seen {
        writeln!(text, "| {} | {} | {} | {:.2} |", row.name, shown(&row.ours), shown(&row.rust), row.ratio()).unwrap();
    }
    let missed = seen.iter().filter(|row| row.ratio() > 0.5).count();
    writeln!(text, "\n{} rows; {missed} above half of the Rust's time.", seen.len()).unwrap();
    text
}

fn fits(series: &[Series]) -> String {
    let mut text = String::from("| time for n held, ns | ours | the Rust |\n|---|--:|--:|\n");
    for one in series {
        let [ours, rust] = one.lines().map(|line| format!("{:.1} + {:.2} n", line.at_none, line.each));
        writeln!(text, "| {}, n to {} | {ours} | {rust} |", one.name, one.counts.last().unwrap()).unwrap();
    }
    text
}

pub fn print(seen: &[Seen], series: &[Series]) {
    print!("{}\n{}", table(seen), fits(series));
    for one in series {
        println!("\n{}", one.name);
        for row in &one.seen {
            println!("{:>9}: {:>8} {:>8}  {:.2}", row.name, ns(row.ours.median), ns(row.rust.median), row.ratio());
        }
    }
}

/// Everything between the marks of the profile is replaced.
pub fn write(page: &str, profile: &str, seen: &[Seen], series: &[Series]) {
    let (begin, end) = (format!("<!-- bench/run: {profile} -->"), format!("<!-- bench/run: end of {profile} -->"));
    let old = std::fs::read_to_string(page).expect(page);
    let (before, rest) = old.split_once(&begin).expect("a mark to write from");
    let (_, after) = rest.split_once(&end).expect("a mark to write to");
    std::fs::write(page, format!("{before}{begin}\n{}\n{}{end}{after}", table(seen), fits(series))).expect(page);
}
