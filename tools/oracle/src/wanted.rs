//! What sctp-proto's files name from its own lib.rs.
pub type StreamId = u16;

#[derive(Debug, Copy, Clone, PartialEq, Default)]
pub enum ReliabilityType {
    #[default]
    Reliable = 0,
    Rexmit = 1,
    Timed = 2,
}

/// shared.rs only holds one.
#[derive(Debug)]
pub struct Transmit;
