//! Time against the number of held records: fitted lines and a plot.
use crate::time::{Row, Seen};
use crate::{messages, tsns};
use std::fmt::Write;

/// One curve pair: what is done, and its points.
pub struct Series {
    pub name: &'static str,
    pub counts: Vec<u32>,
    pub seen: Vec<Seen>,
}

/// A fitted line: nanoseconds at none held, and for each one held.
pub struct Line {
    pub at_none: f64,
    pub each: f64,
}

/// The series without points yet, and the rows that give them, in order. Reassembly holds 512 at most.
pub fn series() -> (Vec<Series>, Vec<Row>) {
    let up_to = |most: u32| (2..=10).map(|k| 1 << k).filter(|n| *n <= most).collect::<Vec<u32>>();
    let row = |n: &u32| format!("{n} held");
    let (tsns, fragments) = (up_to(1024), up_to(512));
    let mut rows: Vec<Row> = tsns.iter().map(|n| tsns::push_pop(row(n), n - 1)).collect();
    rows.extend(tsns.iter().map(|n| tsns::report(row(n), *n, 2)));
    rows.extend(fragments.iter().map(|n| messages::push_take(row(n), *n)));
    let named = |name, counts| Series { name, counts, seen: Vec::new() };
    let series = vec![
        named("TSN queue: push at the end, pop the first", tsns.clone()),
        named("gap report, every second TSN missing", tsns),
        named("reassembly: push a message of 125 bytes, take and copy the first", fragments),
    ];
    (series, rows)
}

pub fn fill(series: &mut [Series], seen: Vec<Seen>) {
    let mut seen = seen.into_iter();
    for one in series {
        one.seen = seen.by_ref().take(one.counts.len()).collect();
    }
}

impl Series {
    /// The points of ours and of the Rust's.
    fn points(&self) -> [Vec<(f64, f64)>; 2] {
        let points = |time: fn(&Seen) -> f64| self.counts.iter().zip(&self.seen).map(|(n, seen)| (f64::from(*n), time(seen))).collect();
        [points(|seen| seen.ours.median), points(|seen| seen.rust.median)]
    }

    /// The lines of least squares.
    pub fn lines(&self) -> [Line; 2] {
        self.points().map(|points| {
            let n = points.len() as f64;
            let mean = |of: fn(&(f64, f64)) -> f64| points.iter().map(of).sum::<f64>() / n;
            let (x, y) = (mean(|p| p.0), mean(|p| p.1));
            let each = points.iter().map(|p| (p.0 - x) * (p.1 - y)).sum::<f64>() / points.iter().map(|p| (p.0 - x).powi(2)).sum::<f64>();
            Line { at_none: y - each * x, each }
        })
    }
}

const WIDTH: f64 = 640.0;
const HEIGHT: f64 = 240.0;
const LEFT: f64 = 80.0;
const TOP: f64 = 40.0;
const COLOURS: [(&str, &str); 2] = [("ours", "#0072b2"), ("the Rust", "#d55e00")];

/// A round number at or above, of one leading digit.
fn ceiling(x: f64) -> f64 {
    let unit = 10f64.powf(x.log10().floor());
    (x / unit).ceil() * unit
}

/// Three plots, one below the other, both axes linear, each with its fitted lines.
pub fn plot(series: &[Series]) -> String {
    let step = HEIGHT + 100.0;
    let (width, height) = (WIDTH + LEFT + 40.0, step * series.len() as f64 + 10.0);
    let mut svg = format!(
        "<svg xmlns=\"http://www.w3.org/2000/svg\" width=\"{width}\" height=\"{height}\" viewBox=\"0 0 {width} {height}\" font-family=\"sans-serif\" font-size=\"13\">\n\
         <rect width=\"{width}\" height=\"{height}\" fill=\"white\"/>\n"
    );
    for (i, one) in series.iter().enumerate() {
        panel(&mut svg, one, TOP + step * i as f64);
    }
    svg + "</svg>\n"
}

fn panel(svg: &mut String, one: &Series, top: f64) {
    let points = one.points();
    let right = f64::from(*one.counts.last().expect("points"));
    let most = ceiling(points.iter().flatten().map(|p| p.1).fold(0.0, f64::max));
    let at = |x: f64, y: f64| (LEFT + x / right * WIDTH, top + HEIGHT - y / most * HEIGHT);
    let bottom = top + HEIGHT;
    writeln!(svg, "<text x=\"{LEFT}\" y=\"{}\" font-weight=\"bold\">{}</text>", top - 14.0, one.name).unwrap();
    for k in 0..=4 {
        let (value, (_, y)) = (most * f64::from(k) / 4.0, at(0.0, most * f64::from(k) / 4.0));
        writeln!(svg, "<path d=\"M{LEFT} {y:.1}h{WIDTH}\" stroke=\"#ddd\"/><text x=\"{}\" y=\"{:.1}\" text-anchor=\"end\">{value:.0}</text>", LEFT - 8.0, y + 4.0).unwrap();
        let (held, (x, _)) = (right * f64::from(k) / 4.0, at(right * f64::from(k) / 4.0, 0.0));
        writeln!(svg, "<text x=\"{x:.1}\" y=\"{}\" text-anchor=\"middle\">{held:.0}</text>", bottom + 18.0).unwrap();
    }
    writeln!(svg, "<path d=\"M{LEFT} {top}V{bottom}h{WIDTH}\" fill=\"none\" stroke=\"black\"/>").unwrap();
    writeln!(svg, "<text x=\"{}\" y=\"{}\" text-anchor=\"middle\">held</text>", LEFT + WIDTH / 2.0, bottom + 36.0).unwrap();
    writeln!(svg, "<text transform=\"translate(22 {}) rotate(-90)\" text-anchor=\"middle\">ns</text>", top + HEIGHT / 2.0).unwrap();
    for (k, ((name, colour), (points, line))) in COLOURS.iter().zip(points.iter().zip(one.lines())).enumerate() {
        let ((x0, y0), (x1, y1)) = (at(0.0, line.at_none.max(0.0)), at(right, line.at_none + line.each * right));
        writeln!(svg, "<path d=\"M{x0:.1} {y0:.1}L{x1:.1} {y1:.1}\" stroke=\"{colour}\" fill=\"none\"/>").unwrap();
        for (x, y) in points.iter().map(|p| at(p.0, p.1)) {
            writeln!(svg, "<circle cx=\"{x:.1}\" cy=\"{y:.1}\" r=\"4\" fill=\"{colour}\"/>").unwrap();
        }
        let y = top + 16.0 + 18.0 * k as f64;
        writeln!(svg, "<circle cx=\"{}\" cy=\"{}\" r=\"4\" fill=\"{colour}\"/><text x=\"{}\" y=\"{y}\">{name}</text>", LEFT + 16.0, y - 4.0, LEFT + 26.0).unwrap();
    }
}
