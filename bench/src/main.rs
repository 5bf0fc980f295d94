//! Ours, through the safe crate over the native archive of crate sctp_receive, and sctp-proto's own files, built unchanged, timed in one run.
//!
//! What is timed on the Rust's side: a chunk that a caller has from its packet (a `ChunkPayloadData` whose data is a slice of one packet's `Bytes`) is made
//! outside; what a call makes for itself (vectors, tables, reference counts, and letting go of them) is inside. Where both would be right, the choice favours the Rust.
//! No buffer, table or pool is cleared between calls, on either side.
extern crate alloc;

include!(concat!(env!("OUT_DIR"), "/sctp.rs"));

mod codecs;
mod growth;
mod messages;
mod page;
mod time;
mod tsns;
#[path = "../../tools/oracle/src/wanted.rs"]
mod wanted;

pub use crate::chunk::ErrorCauseCode;
pub use crate::wanted::{ReliabilityType, StreamId, Transmit};

fn main() {
    let mut rows = Vec::new();
    tsns::rows(&mut rows);
    messages::rows(&mut rows);
    codecs::rows(&mut rows);
    let (mut series, points) = growth::series();
    let table = rows.len();
    rows.extend(points);
    let mut seen = time::measured(&mut rows);
    growth::fill(&mut series, seen.split_off(table));
    page::print(&seen, &series);
    if let [profile, page, plot] = &std::env::args().skip(1).collect::<Vec<_>>()[..] {
        page::write(page, profile, &seen, &series);
        if profile == "release" {
            std::fs::write(plot, growth::plot(&series)).expect(plot);
        }
    }
}
