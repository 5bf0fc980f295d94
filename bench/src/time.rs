//! Rounds: in each one every row is timed, ours and the Rust one right after the other, the first one in turn.
use std::time::Instant;

/// Passes over all rounds; of each row the pass with the least time counts.
const PASSES: usize = 3;
const ROUNDS: usize = 101;

/// One side of a row. `ready` makes what a caller has already, and is not timed.
pub trait Side {
    fn ready(&mut self);
    fn work(&mut self);
}

/// A side of a state and two functions on it.
pub struct Of<S, R, W> {
    pub state: S,
    pub ready: R,
    pub work: W,
}

impl<S, R: FnMut(&mut S), W: FnMut(&mut S)> Side for Of<S, R, W> {
    fn ready(&mut self) {
        (self.ready)(&mut self.state)
    }

    fn work(&mut self) {
        (self.work)(&mut self.state)
    }
}

pub fn side<S: 'static>(state: S, ready: impl FnMut(&mut S) + 'static, work: impl FnMut(&mut S) + 'static) -> Box<dyn Side> {
    Box::new(Of { state, ready, work })
}

/// A row of the table: `per` is how often one `work` does what the name says.
pub struct Row {
    pub name: String,
    pub per: usize,
    pub ours: Box<dyn Side>,
    pub rust: Box<dyn Side>,
}

/// Nanoseconds: the median of a pass, and the first and the last tenth.
#[derive(Clone, Copy)]
pub struct Spread {
    pub median: f64,
    pub low: f64,
    pub high: f64,
}

pub struct Seen {
    pub name: String,
    pub ours: Spread,
    pub rust: Spread,
}

impl Seen {
    pub fn ratio(&self) -> f64 {
        self.ours.median / self.rust.median
    }
}

fn spread(mut times: Vec<f64>) -> Spread {
    times.sort_by(f64::total_cmp);
    let at = |tenths: usize| times[(times.len() - 1) * tenths / 10];
    Spread { median: at(5), low: at(1), high: at(9) }
}

/// The time of one `work` by `per`, once the same work has been done untimed.
fn timed(side: &mut dyn Side, per: usize) -> f64 {
    side.ready();
    side.work();
    side.ready();
    let start = Instant::now();
    side.work();
    start.elapsed().as_nanos() as f64 / per as f64
}

fn pass(rows: &mut [Row]) -> Vec<[Spread; 2]> {
    let mut times = vec![[const { Vec::new() }; 2]; rows.len()];
    for round in 0..ROUNDS {
        for (row, times) in rows.iter_mut().zip(&mut times) {
            let sides = [&mut row.ours, &mut row.rust];
            for turn in [round % 2, (round + 1) % 2] {
                times[turn].push(timed(sides[turn].as_mut(), row.per));
            }
        }
    }
    times.into_iter().map(|pair| pair.map(spread)).collect()
}

/// Of each row the pass in which both sides together took the least: both medians are of the same pass.
pub fn measured(rows: &mut [Row]) -> Vec<Seen> {
    let passes: Vec<_> = (0..PASSES).map(|_| pass(rows)).collect();
    let least = |i: usize| passes.iter().map(|pass| pass[i]).min_by(|a, b| sum(a).total_cmp(&sum(b))).unwrap();
    rows.iter()
        .enumerate()
        .map(|(i, row)| {
            let [ours, rust] = least(i);
            Seen { name: row.name.clone(), ours, rust }
        })
        .collect()
}

fn sum(pair: &[Spread; 2]) -> f64 {
    pair[0].median + pair[1].median
}
