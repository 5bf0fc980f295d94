//! Takes, and the message in hand.
use super::{Maker, forge};
use crate::Mode;
use crate::coverage::Event;
use calls::{BYTES_MOST, Call};

/// A take into a buffer that is long enough, outside the domain also too short; then the message is read. Whether one came.
pub fn take(m: &mut Maker) -> bool {
    let size = note_next(m).unwrap_or(0);
    let more = if m.rng.one_in(600) { BYTES_MOST as u64 } else { m.rng.pick(&[0, 0, 1, 2, 7, 40]) };
    let room = if m.wild(6) { m.rng.below(size + 1).max(size.saturating_sub(2)).min(BYTES_MOST as u64) } else { (size + more).min(BYTES_MOST as u64) };
    let fill = m.rng.byte();
    m.call(Call::RqRead { room: room as u32, fill });
    let came = m.model.hand.is_some();
    if came || m.rng.one_in(8) {
        read(m);
    }
    came
}

/// The size of the message that is next, if one is; counted by its kind.
fn note_next(m: &mut Maker) -> Option<u64> {
    let queue = &m.model.reassembly;
    queue.sound().ok()?;
    let lists = queue.view();
    let next = queue.next(&lists)?;
    let fragments = if next.finished { &lists.finished[next.fragments] } else { &lists.ordered[next.fragments] };
    let (first, last, expected) = (fragments[0].row, fragments[fragments.len() - 1].row, queue.expected);
    let size = fragments.iter().map(|f| f.bytes.len() as u64).sum();
    if fragments.len() >= 3 {
        m.event(if next.finished { Event::Unordered } else { Event::Ordered });
        if first.tsn > last.tsn {
            m.event(if next.finished { Event::UnorderedOverTsnWrap } else { Event::OrderedOverTsnWrap });
        }
        if !next.finished && first.ssn() == 65_535 && expected == 65_535 {
            m.event(Event::OrderedOverSsnWrap);
        }
    }
    Some(size)
}

/// Some questions, a whole read, or pieces to the end.
fn read(m: &mut Maker) {
    let size = m.model.hand.as_ref().map_or(3, |hand| hand.size.min(65_000));
    if m.wild(4) {
        forge::hand(m);
    }
    match m.rng.below(8) {
        0 => m.put(Call::MLen {}),
        1 => m.put(Call::MIsEmpty {}),
        2 | 3 => whole(m, size),
        4..6 => pieces(m, size),
        _ => {}
    }
    if m.wild(6) {
        forge::hand(m);
        let call = m.rng.pick(&[0, 1, 2, 3]);
        match call {
            0 => m.put(Call::MLen {}),
            1 => m.put(Call::MIsEmpty {}),
            2 => whole(m, size),
            _ => m.put(Call::MNext { most: size / 2 }),
        }
    }
}

fn whole(m: &mut Maker, size: u64) {
    let room = m.rng.pick(&[size, size + 3, size.saturating_sub(1), size / 2, 0]);
    let fill = m.rng.byte();
    m.put(Call::MRead { room: room as u32, fill });
}

/// Pieces of one size, now and then of none or of the largest, until none comes. The largest is difference 15, after which the Rust's message has not
/// moved: in mode `in` it is the last.
fn pieces(m: &mut Maker, size: u64) {
    let most = m.rng.pick(&[1, 2, 3, size / 2 + 1, size / 3 + 1, size, size + 1, 1 << 20]).max(size / 20);
    for _ in 0..25 {
        let largest = m.rng.one_in(if m.mode == Mode::Out { 30 } else { 500 });
        let this = if largest { u64::MAX } else if m.rng.one_in(9) { 0 } else { most };
        m.put(Call::MNext { most: this });
        let over = m.batch.lines.ends_with(b"none\n") || m.batch.lines.ends_with(b"nothing in hand\n");
        if over || largest && m.mode == Mode::In {
            break;
        }
        if m.rng.one_in(20) {
            whole(m, size);
        }
    }
}
