//! Numbers that wrap: TSNs of 32 bits, SSNs of 16. "a before b" means that b is less than half way round ahead of a; at exactly half way
//! neither is before the other.
use crate::ffi;

macro_rules! order {
    ($($(#[$doc:meta])* $name:ident($of:ty) = $call:ident;)*) => {
        $($(#[$doc])*
        pub fn $name(i1: $of, i2: $of) -> bool {
            ffi::$call(i1, i2)
        })*
    };
}

order! {
    /// Is the TSN i1 before i2?
    sna32lt(u32) = sctp_receive_sna32lt;
    /// Is the TSN i1 at or before i2?
    sna32lte(u32) = sctp_receive_sna32lte;
    /// Is the TSN i1 after i2?
    sna32gt(u32) = sctp_receive_sna32gt;
    /// Is the TSN i1 at or after i2?
    sna32gte(u32) = sctp_receive_sna32gte;
    /// Are the TSNs i1 and i2 the same?
    sna32eq(u32) = sctp_receive_sna32eq;
    /// Is the SSN i1 before i2?
    sna16lt(u16) = sctp_receive_sna16lt;
    /// Is the SSN i1 at or before i2?
    sna16lte(u16) = sctp_receive_sna16lte;
    /// Is the SSN i1 after i2?
    sna16gt(u16) = sctp_receive_sna16gt;
    /// Is the SSN i1 at or after i2?
    sna16gte(u16) = sctp_receive_sna16gte;
    /// Are the SSNs i1 and i2 the same?
    sna16eq(u16) = sctp_receive_sna16eq;
}

/// How a number stands to another: by the distance from it to the other, which is above 0, 0, below 0, or, at exactly half way, the lowest value.
#[derive(Clone, Copy, Debug, PartialEq, Eq, Hash)]
#[repr(u8)]
pub enum Order {
    /// It is before the other.
    Earlier = 0,
    /// They are the same.
    Same = 1,
    /// It is after the other.
    Later = 2,
    /// They are half way round from each other, and neither is before the other: the sign of a corrupt peer.
    Opposite = 3,
}

impl Order {
    /// The four answers, in the order of their numbers.
    pub const ALL: [Order; 4] = [Order::Earlier, Order::Same, Order::Later, Order::Opposite];

    /// The answer of a number. The library is proved to have no others.
    fn of(number: u8) -> Order {
        debug_assert!(number < 4, "no answer {number}");
        Self::ALL[number as usize % 4]
    }
}

/// How the TSN a stands to b.
pub fn tsn_compare(a: u32, b: u32) -> Order {
    Order::of(ffi::sctp_receive_tsn_compare(a, b))
}

/// How the SSN a stands to b.
pub fn ssn_compare(a: u16, b: u16) -> Order {
    Order::of(ffi::sctp_receive_ssn_compare(a, b))
}
