//! FORWARD TSN chunks, applied to the TSN queue and to a stream.
use super::Maker;
use super::tsns::some_tsn;
use crate::coverage::Event;
use crate::model::forward;
use crate::model::fragments::Reassembly;
use crate::model::tsns::Tsns;
use crate::rng::Rng;
use calls::Call;

/// A cumulative TSN to a point: mostly before it; at it, past it, and opposite to it too.
fn before(rng: &mut Rng, point: u32) -> u32 {
    let some = rng.within(1, 40) as u32;
    let far = (rng.number() as u32) >> 1;
    point.wrapping_add(rng.pick(&[0, 0, 1, some, u32::MAX, 0u32.wrapping_sub(some), 0u32.wrapping_sub(some), 0u32.wrapping_sub(far), 1 << 31]))
}

/// Onto the TSN queue, with the cumulative TSN of the run or another; the run goes on from the point where it is not old.
pub fn tsns(m: &mut Maker, cumulative: &mut u32) {
    let point = some_tsn(m, *cumulative);
    let given = if m.rng.one_in(2) { *cumulative } else { before(&mut m.rng, point) };
    let queue = &m.model.tsns;
    let (is_done, would_be) = (tsns_change(queue, given, point), tsns_change(queue, point.wrapping_sub(1), point));
    if !m.call(Call::PqApplyForward { cumulative: given, point }) {
        return;
    }
    note(m, is_done, would_be, Event::TsnsForwarded);
    if given == *cumulative && is_done {
        *cumulative = point;
    }
}

fn tsns_change(queue: &Tsns, cumulative: u32, point: u32) -> bool {
    let mut after = queue.clone();
    forward::apply_to_tsns(&mut after, cumulative, point).is_ok() && after.count != queue.count
}

/// Onto the stream: a point that is held, beside one, or any, and pairs.
pub fn stream(m: &mut Maker) {
    let held = m.model.reassembly.held();
    let any = m.rng.number() as u32;
    let one = if held.is_empty() { any } else { held[m.rng.below(held.len() as u64) as usize].tsn };
    let half = if m.wild(8) { 1 << 31 } else { 0 };
    let point = one.wrapping_add(m.rng.pick(&[0, 0, 1, 3, u32::MAX, half]));
    let cumulative = before(&mut m.rng, point);
    let part = pairs(m);
    let queue = &m.model.reassembly;
    let (is_done, would_be) = (stream_changes(queue, &part, cumulative, point), stream_changes(queue, &part, point.wrapping_sub(1), point));
    if m.call(Call::RqApplyForward { part, cumulative, point }) {
        note(m, is_done, would_be, Event::StreamForwarded);
    }
}

fn stream_changes(queue: &Reassembly, part: &[u8], cumulative: u32, point: u32) -> bool {
    let mut after = queue.clone();
    let answer = forward::apply_to_stream(&mut after, part, cumulative, point);
    answer.is_ok() && (after.expected, after.count()) != (queue.expected, queue.count())
}

fn note(m: &mut Maker, is_done: bool, would_be: bool, event: Event) {
    if is_done {
        m.event(event);
    } else if would_be {
        m.event(Event::OldPoint);
    }
}

/// Pairs of this stream and of others. Their SSNs are held, beside the expected one, outside the domain any. Now and then the part ends within a pair.
fn pairs(m: &mut Maker) -> Vec<u8> {
    let queue = &m.model.reassembly;
    let (stream, expected) = (queue.stream, queue.expected);
    let held: Vec<u16> = queue.held().iter().map(|row| row.ssn()).chain([expected]).collect();
    let all_over = m.wild(3);
    let rng = &mut m.rng;
    let count = if rng.one_in(100) { rng.within(5, 200) } else { rng.below(5) };
    let mut pair = || {
        let (some, any) = (rng.pick(&held), rng.number() as u16);
        let ssn = rng.pick(&[some, some, expected, expected.wrapping_add(any % 4), expected.wrapping_sub(1)]);
        let ssn = if all_over { any } else { ssn };
        (rng.pick(&[stream, stream, stream, stream ^ 1, stream.wrapping_add(256), ssn]), ssn)
    };
    let mut part = forward::part_of((0..count).map(|_| pair()).collect::<Vec<_>>());
    let last = pair();
    if m.rng.one_in(4) {
        let cut = m.rng.within(1, 3) as usize;
        part.extend(&forward::part_of([last])[..cut]);
    }
    part
}
