//! Queues and messages altered from outside: counts, words, lengths. Some alterations leave them unsound, others sound and strange.
use super::Maker;
use crate::model::fragments::{BYTES, FRAGMENTS};
use crate::model::tsns::TSNS;
use crate::rng::Rng;
use calls::{Call, POOL};

fn tsn_field(m: &mut Maker, field: u8, index: u64, value: u64) {
    m.put(Call::PqForge { field, index: index as u16, value });
}

fn field(m: &mut Maker, field: u8, index: u64, value: u64) {
    m.put(Call::RqForge { field, index: index as u16, value });
}

/// A count: beside what it is, about the table's size, or far beyond.
fn count(rng: &mut Rng, now: u64, most: u64) -> u64 {
    let any = rng.below(most + 1);
    rng.pick(&[now.wrapping_add(1), now.wrapping_sub(1), any, any, most, most + 1, 1 << 32, u64::MAX, 0])
}

/// A TSN as one that is held, half way from it, next to it, or any.
fn tsn(rng: &mut Rng, held: &[crate::model::rows::Row]) -> u64 {
    let any = rng.number() as u32;
    let one = if held.is_empty() { any } else { held[rng.below(held.len() as u64) as usize].tsn };
    rng.pick(&[one, one.wrapping_add(1), one.wrapping_sub(1), one.wrapping_add(1 << 31), any]) as u64
}

pub fn tsns(m: &mut Maker) {
    let queue = &m.model.tsns;
    let (now, dups, sum, rows) = (queue.count, queue.dups, queue.sum(), queue.held().len().max(1) as u64);
    let any = m.rng.number();
    match m.rng.below(10) {
        0 => {
            let value = count(&mut m.rng, now, TSNS as u64);
            tsn_field(m, 0, any, value)
        }
        1 => {
            let value = m.rng.pick(&[sum + 1, sum.wrapping_sub(1), 0, any, u64::MAX]);
            tsn_field(m, 1, any, value)
        }
        2 => {
            let value = m.rng.pick(&[0, dups.wrapping_add(1), 63, 64, 65, 1 << 32, u64::MAX]);
            tsn_field(m, 2, any, value)
        }
        3 => tsn_field(m, 3, any, any >> 20),
        4..7 => {
            let (row, value) = (m.rng.below(rows), tsn(&mut m.rng, m.model.tsns.held()));
            tsn_field(m, 4, TSNS as u64 + row, value)
        }
        _ => {
            let (column, row) = (m.rng.pick(&[0, 2, 3]), m.rng.below(rows));
            tsn_field(m, 4, TSNS as u64 * column + row, any >> 20)
        }
    }
    if m.rng.one_in(2) {
        settle_tsns(m);
    }
}

/// Makes the TSN queue sound again, strange as its records may be.
pub fn settle_tsns(m: &mut Maker) {
    if m.model.tsns.count > TSNS as u64 {
        let value = m.rng.pick(&[0, 3, 40, TSNS as u64 - 1, TSNS as u64]);
        tsn_field(m, 0, 0, value);
    }
    if m.model.tsns.dups > 64 {
        let value = m.rng.pick(&[0, 3, 63, 64]);
        tsn_field(m, 2, 0, value);
    }
    if m.model.tsns.sound().is_err() {
        let sum = m.model.tsns.sum();
        tsn_field(m, 1, 0, sum);
    }
}

fn flight_field(m: &mut Maker, field: u8, index: u64, value: u64) {
    m.put(Call::IqForge { field, index: index as u16, value });
}

/// The in-flight queue: counts, lengths and marks, TSNs that are held twice, numbers of messages.
pub fn in_flight(m: &mut Maker) {
    let queue = &m.model.in_flight;
    let (now, sum, rows) = (queue.count, queue.sum(), queue.held().len().max(1) as u64);
    let any = m.rng.number();
    let row = m.rng.below(rows);
    match m.rng.below(8) {
        0 => {
            let value = count(&mut m.rng, now, TSNS as u64);
            flight_field(m, 0, any, value)
        }
        1 => {
            let value = m.rng.pick(&[sum + 1, sum.wrapping_sub(1), 0, any, u64::MAX]);
            flight_field(m, 1, any, value)
        }
        2 | 3 => {
            let value = tsn(&mut m.rng, m.model.in_flight.held());
            flight_field(m, 2, TSNS as u64 + row, value)
        }
        4 | 5 => flight_field(m, 2, row, any >> 32),
        6 => {
            let column = m.rng.pick(&[2, 3]);
            flight_field(m, 2, TSNS as u64 * column + row, any >> 20)
        }
        _ => flight_field(m, 3, row, any % 5),
    }
    if m.rng.one_in(2) {
        settle_in_flight(m);
    }
}

/// Makes the in-flight queue sound again, strange as its records may be.
pub fn settle_in_flight(m: &mut Maker) {
    if m.model.in_flight.count > TSNS as u64 {
        let value = m.rng.pick(&[0, 3, 40, TSNS as u64 - 1, TSNS as u64]);
        flight_field(m, 0, 0, value);
    }
    if m.model.in_flight.sound().is_err() {
        let sum = m.model.in_flight.sum();
        flight_field(m, 1, 0, sum);
    }
}

pub fn fragments(m: &mut Maker) {
    let any = m.rng.number();
    match m.rng.below(16) {
        0 => {
            let queue = &m.model.reassembly;
            let (which, now) = m.rng.pick(&[(3, queue.finished), (4, queue.loose), (5, queue.ordered)]);
            let value = count(&mut m.rng, now, FRAGMENTS as u64);
            field(m, which, any, value)
        }
        1 => {
            let sum = m.model.reassembly.sum();
            let value = m.rng.pick(&[sum + 1, sum.wrapping_sub(1), 0, u64::MAX]);
            field(m, 6, any, value)
        }
        2 => {
            let value = m.rng.pick(&[0, BYTES - 1, BYTES, BYTES + 1, 70_000, POOL as u64, any]);
            field(m, 9, any, value)
        }
        3 => {
            let expected = m.model.reassembly.expected as u64;
            let value = m.rng.pick(&[expected + 1, expected.wrapping_sub(1), expected + (1 << 15), 65_535, any]);
            field(m, 1, any, value)
        }
        4 => {
            let value = m.rng.pick(&[0, 5, 65_536, u32::MAX as u64]);
            field(m, 2, any, value)
        }
        5 => field(m, 8, any % 300, any >> 20),
        6..10 => resplit(m),
        _ => word(m),
    }
    if m.rng.one_in(2) {
        settle_fragments(m);
    }
}

/// The same fragments, told otherwise to be finished, loose or ordered.
fn resplit(m: &mut Maker) {
    let count = m.model.reassembly.held().len() as u64;
    let (a, b) = (m.rng.below(count + 1), m.rng.below(count + 1));
    field(m, 3, 0, a.min(b));
    field(m, 4, 0, a.max(b) - a.min(b));
    field(m, 5, 0, count - a.max(b));
}

/// A held record's flags, TSN, stream and SSN, identifier, or its length.
fn word(m: &mut Maker) {
    let queue = &m.model.reassembly;
    let (held, expected) = (queue.held(), queue.expected as u64);
    let rows = held.len().max(1) as u64;
    let row = m.rng.below(rows);
    let head = held.get(row as usize).map_or(0, |r| r.head) as u64;
    let id = held.get(row as usize).map_or(0, |r| r.id) as u64;
    let other = held.get(m.rng.below(rows) as usize).map_or(0, |r| r.id) as u64;
    let any = m.rng.number() >> 20;
    let (column, value) = match m.rng.below(8) {
        0..3 => (0, head % (1 << 24) + (any % 256 << 24)),
        3 => (0, head ^ m.rng.pick(&[1, 2, 8, 256, 65_536])),
        4 => (1, tsn(&mut m.rng, m.model.reassembly.held())),
        5 | 6 => (2, m.rng.pick(&[other, id + 1, expected, id ^ 1 << 15, any])),
        _ => (3, m.rng.pick(&[any % 70, any])),
    };
    field(m, 7, FRAGMENTS as u64 * column + row, value);
}

/// Makes the reassembly queue sound again where a count or a length is not.
pub fn settle_fragments(m: &mut Maker) {
    if m.model.reassembly.count() > FRAGMENTS as u64 || m.model.reassembly.sum() > POOL as u64 {
        let held = m.rng.pick(&[0, 0, 1, 3]);
        for (which, value) in [(3, 0), (4, held), (5, 0)] {
            field(m, which, 0, value);
        }
    }
    let (sum, lent) = (m.model.reassembly.sum(), m.model.reassembly.lent as u64);
    if lent < BYTES || lent < sum {
        field(m, 9, 0, sum.max(BYTES));
    }
    if m.model.reassembly.sound().is_err() {
        field(m, 6, 0, sum);
    }
}

/// The message in hand: its size, its position, what is lent.
pub fn hand(m: &mut Maker) {
    let Some(hand) = &m.model.hand else { return m.put(Call::MForge { field: 0, value: 0 }) };
    let (size, position, lent) = (hand.size, hand.position, hand.lent as u64);
    let (field, value) = match m.rng.below(4) {
        0 => (0, m.rng.pick(&[0, size.wrapping_add(1), size.wrapping_sub(1), lent, lent + 1, position, u64::MAX])),
        1 => (1, m.rng.pick(&[0, size, size.wrapping_add(1), size.wrapping_sub(1), position.wrapping_add(1), u64::MAX])),
        2 => (2, m.rng.below(2)),
        _ => (3, m.rng.pick(&[0, size, size.wrapping_add(1), size.wrapping_sub(1), lent + 2, 65_600])),
    };
    m.put(Call::MForge { field, value });
}
