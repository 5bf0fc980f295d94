//! Numbers that wrap: document 01, 'Numbers that wrap'.
use super::fault::{Fault, Wrong};

/// The distance from a to b: b - a modulo 2^width, less 2^width if that is 2^(width-1) or more.
pub fn distance(width: u32, a: u32, b: u32) -> i64 {
    let round = 1i64 << width;
    let ahead = (b as i64 - a as i64).rem_euclid(round);
    if ahead >= round / 2 { ahead - round } else { ahead }
}

/// How a number stands to another (document 02, M-107).
#[derive(Clone, Copy, Debug, PartialEq, Eq)]
pub enum Order {
    Earlier,
    Same,
    Later,
    Opposite,
}

impl Order {
    pub fn word(self) -> &'static str {
        match self {
            Order::Earlier => "earlier",
            Order::Same => "same",
            Order::Later => "later",
            Order::Opposite => "opposite",
        }
    }
}

/// How numbers are compared. TSNs have 32 bits, SSNs 16.
#[derive(Clone, Copy, Default)]
pub struct Serial {
    pub wrong: Wrong,
}

impl Serial {
    /// a before b: the distance is above 0.
    fn before(self, width: u32, a: u32, b: u32) -> bool {
        let d = distance(width, a, b);
        d > 0 || self.wrong.is(Fault::HalfWayBefore) && d == -(1i64 << (width - 1)) && a < b
    }

    /// By the distance: above 0, 0, below 0, and apart from these exactly half way.
    pub fn compared(self, width: u32, a: u32, b: u32) -> Order {
        let opposite = if self.wrong.is(Fault::OppositeLater) { Order::Later } else { Order::Opposite };
        match distance(width, a, b) {
            0 => Order::Same,
            1.. => Order::Earlier,
            d if d == -(1i64 << (width - 1)) => opposite,
            _ => Order::Later,
        }
    }

    pub fn tsn_before(self, a: u32, b: u32) -> bool {
        if self.wrong.is(Fault::PlainTsns) { a < b } else { self.before(32, a, b) }
    }

    pub fn ssn_before(self, a: u16, b: u16) -> bool {
        self.before(16, a as u32, b as u32)
    }

    /// "At or before" adds equality.
    pub fn tsn_at_or_before(self, a: u32, b: u32) -> bool {
        a == b || self.tsn_before(a, b)
    }

    pub fn ssn_at_or_before(self, a: u16, b: u16) -> bool {
        a == b || self.ssn_before(a, b)
    }
}
