//! Skips held over a stream reset: with an SSN and a point at or beside what is held, and a question of how far they apply.
use super::Maker;
use crate::coverage::Event;
use crate::model::bounded;
use crate::rng::Rng;
use calls::Call;

/// At or beside a TSN; now and then opposite to it, or any.
fn beside(rng: &mut Rng, tsn: u32) -> u32 {
    let any = rng.number() as u32;
    let far = if rng.one_in(12) { 1 << 31 } else { 0 };
    let near = tsn.wrapping_add(rng.pick(&[0, 0, 0, 1, 2, u32::MAX, u32::MAX, 5])).wrapping_add(far);
    if rng.one_in(30) { any } else { near }
}

/// An SSN that is held in an ordered set, or beside the expected one, and two TSNs; half way round too where that is outside the domain.
fn operands(m: &mut Maker) -> (u16, u32, u32) {
    let queue = &m.model.reassembly;
    let expected = queue.expected;
    let first = (queue.finished.saturating_add(queue.loose)).min(queue.held().len() as u64) as usize;
    let ordered = queue.held()[first..].to_vec();
    let half = if m.wild(6) { 1 << 15 } else { 0 };
    let rng = &mut m.rng;
    let any = rng.number() as u32;
    let mut one = || if ordered.is_empty() { (expected, any) } else { Some(ordered[rng.below(ordered.len() as u64) as usize]).map_or((0, 0), |row| (row.ssn(), row.tsn)) };
    let ((ssn, _), (_, point), (_, peer)) = (one(), one(), one());
    let ssn = rng.pick(&[ssn, ssn, ssn, ssn.wrapping_add(1), ssn.wrapping_sub(1), expected, expected.wrapping_add(2), expected.wrapping_sub(1)]).wrapping_add(half);
    let point = beside(rng, point);
    (ssn, point, beside(rng, peer))
}

pub fn skip(m: &mut Maker) {
    let (ssn, tsn, _) = operands(m);
    let queue = &m.model.reassembly;
    let held_back = queue.sound().is_ok() && bounded::held_back(queue, ssn, tsn).is_some();
    let before = queue.count();
    if !m.call(Call::RqForwardOrderedBounded { ssn, tsn }) {
        return;
    }
    if held_back {
        m.event(Event::HeldBack);
    }
    if m.model.reassembly.count() < before {
        m.event(Event::Abandoned);
    }
}

pub fn ask(m: &mut Maker) {
    let (ssn, tsn, peer) = operands(m);
    let part = bounded::applicable(&m.model.reassembly, ssn, tsn, peer).is_ok_and(|found| found.is_some_and(|n| n != ssn));
    if m.call(Call::RqApplicableForward { ssn, tsn, peer }) && part {
        m.event(Event::PartApplies);
    }
}
