//! Are mistakes found? Models that make one each, held against the right one on the same calls.
use crate::model::Model;
use crate::model::fault::Fault;
use crate::run::split;
use crate::{Mode, generate};
use calls::Answers;

const BATCH: usize = 20_000;

/// After how many calls each mistake was found, in each mode.
struct Found {
    fault: Fault,
    after: [Option<u64>; 2],
}

/// Prints them all; whether each was found in one mode at least.
pub fn run(seed: u64, most: u64) -> bool {
    let mut found: Vec<Found> = Fault::ALL.iter().map(|fault| Found { fault: *fault, after: [None; 2] }).collect();
    for (m, mode) in [Mode::In, Mode::Out].into_iter().enumerate() {
        for number in 0..most.div_ceil(BATCH as u64) {
            if found.iter().all(|f| f.after[m].is_some()) {
                break;
            }
            let batch = generate::batch(mode, seed, number, BATCH);
            for f in found.iter_mut().filter(|f| f.after[m].is_none()) {
                f.after[m] = first_difference(f.fault, &batch).map(|index| number * BATCH as u64 + index + 1);
            }
        }
    }
    println!("faults: seed {seed}, at most {most} calls in each mode; found after so many calls in mode in, in mode out");
    let shown = |after: Option<u64>| after.map_or("-".into(), |n| n.to_string());
    for Found { fault, after: [inside, outside] } in &found {
        println!("  {:<18} {:>8} {:>8}  {}", format!("{fault:?}"), shown(*inside), shown(*outside), fault.text());
    }
    let missed: Vec<String> = found.iter().filter(|f| f.after == [None; 2]).map(|f| format!("{:?}", f.fault)).collect();
    if missed.is_empty() {
        println!("faults: seed {seed}, {} mistakes, all found", found.len());
    } else {
        println!("FAILED: seed {seed}, not found: {}", missed.join(", "));
    }
    missed.is_empty()
}

/// The index of the first call that a model with that mistake answers otherwise.
fn first_difference(fault: Fault, batch: &generate::Batch) -> Option<u64> {
    let mut model = Model::wrong(Some(fault));
    let mut line = Vec::new();
    for (index, (call, right)) in batch.calls.iter().zip(split(&batch.lines)).enumerate() {
        line.clear();
        model.answer(call, &mut line);
        if line != right {
            return Some(index as u64);
        }
    }
    None
}
