//! Plans: messages cut into fragments, as a sender would send them.
use super::Maker;
use crate::rng::Rng;
use calls::{B, Data, E, Fields, I, U};

pub type Fragment = (Fields, Data);

/// What a run's messages are like.
#[derive(Clone, Copy)]
pub struct Kind {
    pub stream: u16,
    pub messages: u64,
    /// Most bytes of a fragment.
    pub most: u64,
    /// The SSN of the first ordered message.
    pub ssn: u16,
}

/// The fragments of some messages, in sending order. Half of the plans have a message of three or more fragments across the TSNs' wrap.
pub fn fragments(m: &mut Maker, kind: Kind) -> Vec<Fragment> {
    let mut all: Vec<Fragment> = Vec::new();
    let (mut tsn, mut ssn) = (0u32, kind.ssn);
    let mut inner = Vec::new();
    for _ in 0..kind.messages {
        let identifier = m.identifier();
        let rng = &mut m.rng;
        let unordered = rng.one_in(2);
        let count = match rng.below(20) {
            0..4 => 1,
            4..7 => 2,
            7..18 => rng.within(3, 6),
            _ => rng.within(7, 16),
        };
        for i in 0..count {
            if count >= 3 && i > 0 {
                inner.push(tsn);
            }
            let fields = Fields { flags: flags(rng, unordered, i, count), tsn, stream: kind.stream, ssn, identifier };
            all.push((fields, Data { size: rng.below(kind.most + 1) as u32, seed: rng.byte() }));
            tsn = tsn.wrapping_add(1);
        }
        tsn = tsn.wrapping_add(rng.pick(&[0, 0, 0, 1, 5]));
        ssn = if unordered { ssn } else { ssn.wrapping_add(1) };
    }
    let rng = &mut m.rng;
    let base = if inner.is_empty() || rng.one_in(3) { super::tsns::base(rng) } else { 0u32.wrapping_sub(rng.pick(&inner)) };
    for (fields, _) in &mut all {
        fields.tsn = fields.tsn.wrapping_add(base);
        if rng.one_in(12) {
            fields.identifier = rng.pick(&[50, 51, 53]);
        }
    }
    all
}

/// First is B, last is E; now and then an inner fragment of an ordered message says it too, which is not looked at.
fn flags(rng: &mut Rng, unordered: bool, i: u64, count: u64) -> u8 {
    let mut flags = if rng.one_in(6) { I } else { 0 };
    if unordered {
        flags |= U;
    } else if rng.one_in(12) {
        flags |= rng.pick(&[B, E, B | E]);
    }
    if i == 0 {
        flags |= B;
    }
    if i + 1 == count {
        flags |= E;
    }
    flags
}
