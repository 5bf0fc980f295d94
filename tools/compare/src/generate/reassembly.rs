//! Runs of reassembly: messages whose fragments arrive in any order, with takes and skips between them.
use super::plan::{self, Fragment, Kind};
use super::{Maker, bounded, forge, forward, hand, tsns};
use crate::Mode;
use crate::coverage::Event;
use crate::model::fragments::{BYTES, FRAGMENTS};
use calls::{B, Call, Data, E, Fields, POOL, U};

pub fn run(m: &mut Maker) {
    if m.mode == Mode::Out {
        m.put(Call::RqForge { field: 9, index: 0, value: BYTES });
    }
    let stream = m.rng.pick(&[0, 0, 1, 258, 65_535]);
    let small = m.rng.within(0, 40) as u32;
    let maximum = m.rng.pick(&[65_536, 65_536, 65_536, 300, small, small, u32::MAX]);
    m.put(Call::RqNew { stream, maximum });
    // Nothing in hand from the run before.
    m.put(Call::RqRead { room: 2, fill: 9 });
    match m.rng.below(150) {
        0 => full(m),
        1..6 => long(m),
        6..34 => odd(m),
        34..37 => (0..m.rng.within(5, 25)).for_each(|_| planned(m)),
        _ => planned(m),
    }
    if !m.rng.one_in(4) {
        drain(m);
    }
}

/// Skips until that SSN is expected, in steps that stay in the arc.
fn wind(m: &mut Maker, ssn: u16) {
    let mut at = m.model.reassembly.expected;
    while at != ssn {
        let step = ssn.wrapping_sub(at).min(32_000);
        m.call(Call::RqForwardOrdered { ssn: at.wrapping_add(step).wrapping_sub(1) });
        at = at.wrapping_add(step);
    }
}

/// A plan's fragments come in a shuffled order; most come all and once.
fn planned(m: &mut Maker) {
    let messages = m.rng.within(1, 9);
    let before_wrap = m.rng.below(messages.div_ceil(2)) as u16;
    let any = m.rng.number() as u16;
    let wraps = 65_535 - before_wrap;
    let ssn = m.rng.pick(&[0, wraps, wraps, wraps, wraps, wraps, wraps, any]);
    if m.model.reassembly.expected == 0 && (ssn != any || m.rng.one_in(3)) {
        wind(m, ssn);
    }
    let most = m.rng.pick(&[2, 5, 5, 9, 30]);
    let kind = Kind { stream: m.model.reassembly.stream, messages, most, ssn: m.model.reassembly.expected };
    let due = plan::fragments(m, kind);
    let plain = m.rng.one_in(2);
    arrive(m, due, plain);
}

/// A plain arrival has no skips and loses nothing.
fn arrive(m: &mut Maker, mut due: Vec<Fragment>, plain: bool) {
    let window = m.rng.pick(&[1, 4, 12, 60]);
    while !due.is_empty() {
        let at = m.rng.below(due.len().min(window) as u64) as usize;
        let (fields, data) = due.remove(at);
        if m.model.reassembly.count() > FRAGMENTS as u64 - 28 {
            while hand::take(m) {}
        }
        if plain || !m.rng.one_in(30) {
            m.call(Call::RqPush { fields, data });
        }
        if !plain && m.rng.one_in(40) {
            skip(m);
        }
        if !plain && m.rng.one_in(40) {
            forward::stream(m);
        }
        if !plain && m.rng.one_in(80) {
            bounded::skip(m);
        }
        if m.wild(12) {
            m.put(Call::RqPush { fields, data });
        }
        step_on(m);
    }
}

/// Any flags, about few TSNs and SSNs, at the ends of the arcs too.
fn odd(m: &mut Maker) {
    let base = tsns::base(&mut m.rng);
    let any = m.rng.number() as u16;
    let ssn = m.rng.pick(&[0, 65_533, any]);
    wind(m, ssn);
    for _ in 0..m.rng.within(5, 45) {
        let expected = m.model.reassembly.expected;
        let stream = m.model.reassembly.stream.wrapping_add(m.rng.one_in(15) as u16);
        let base = if m.wild(12) { m.rng.number() as u32 } else { base };
        let identifier = m.identifier();
        let rng = &mut m.rng;
        let near = rng.below(10) as u32;
        let tsn = base.wrapping_add(rng.pick(&[near, near, near, near, (1 << 31) - 1 - near, near.wrapping_add(1 << 31)]));
        let beside = rng.below(5) as u16;
        let ssn = expected.wrapping_add(rng.pick(&[beside, 0, 1, beside.wrapping_sub(3), 32_767 - beside, 32_768 - beside]));
        let flags = rng.byte() & if rng.one_in(2) { 15 } else { 15 ^ U };
        let fields = Fields { flags, tsn, stream, ssn, identifier };
        let data = Data { size: rng.below(6) as u32, seed: rng.byte() };
        m.call(Call::RqPush { fields, data });
        if m.rng.one_in(14) {
            skip(m);
        }
        if m.rng.one_in(14) {
            forward::stream(m);
        }
        if m.rng.one_in(9) {
            bounded::skip(m);
        }
        step_on(m);
    }
}

/// To the last place of the table, and outside the domain past it.
fn full(m: &mut Maker) {
    wind(m, 65_500);
    let base = tsns::base(&mut m.rng);
    let (unordered, together) = (m.rng.one_in(2), m.rng.one_in(2));
    let (stream, ssn) = (m.model.reassembly.stream, m.model.reassembly.expected);
    let mut due: Vec<u32> = (0..FRAGMENTS as u32).collect();
    while !due.is_empty() {
        let at = m.rng.below(due.len() as u64) as usize;
        let i = due.remove(at);
        let last = i + 1 == FRAGMENTS as u32;
        let flags = if unordered { U } else { 0 } | if i == 0 || !together { B } else { 0 } | if last { E } else { 0 };
        let set = if together { ssn } else { ssn.wrapping_add(i as u16 / 2) };
        let fields = Fields { flags, tsn: base.wrapping_add(i), stream, ssn: set, identifier: 51 };
        let size = m.rng.below(4) as u32;
        m.call(Call::RqPush { fields, data: Data { size, seed: i as u8 } });
    }
    if m.model.reassembly.count() == FRAGMENTS as u64 {
        m.event(Event::Full);
    }
    for i in 0..4 {
        let fields = Fields { flags: B | if i % 2 == 0 { U } else { 0 }, tsn: base.wrapping_sub(2 + i), stream, ssn, identifier: 51 };
        m.call(Call::RqPush { fields, data: Data { size: i, seed: 1 } });
        step_on(m);
    }
}

/// To the last byte of the pool, and outside the domain past it.
fn long(m: &mut Maker) {
    let tsn = tsns::base(&mut m.rng);
    let stream = m.model.reassembly.stream;
    let count = m.rng.within(1, 5) as u32;
    let unordered = if m.rng.one_in(2) { U } else { 0 };
    let size = BYTES as u32 / count;
    for i in 0..count {
        let flags = unordered | if i == 0 { B } else { 0 } | if i + 1 == count { E } else { 0 };
        let data = Data { size: if i == 0 { BYTES as u32 - size * (count - 1) } else { size }, seed: i as u8 };
        m.call(Call::RqPush { fields: Fields { flags, tsn: tsn.wrapping_add(i), stream, ssn: 0, identifier: 53 }, data });
    }
    if m.model.reassembly.bytes == BYTES {
        m.event(Event::Full);
    }
    let fields = Fields { flags: B, tsn: tsn.wrapping_add(7), stream, ssn: 1, identifier: 51 };
    for (i, size) in [1, 40_000, 65_600, 0].into_iter().enumerate() {
        m.call(Call::RqPush { fields: Fields { tsn: fields.tsn.wrapping_add(i as u32), ..fields }, data: Data { size, seed: 1 } });
    }
    m.put(Call::RqNumBytes {});
}

/// A skip of either kind: to a held number or beside one, or beside the expected SSN.
fn skip(m: &mut Maker) {
    let held = m.model.reassembly.held();
    let some = if held.is_empty() { None } else { Some(held[m.rng.below(held.len() as u64) as usize]) };
    let expected = m.model.reassembly.expected;
    let any = m.rng.number();
    if m.rng.one_in(2) {
        let ssn = some.map_or(expected, |row| row.ssn());
        let ssn = m.rng.pick(&[ssn, ssn, expected, expected.wrapping_add(1), expected.wrapping_sub(1)]);
        let half = if m.wild(6) { 1 << 15 } else { 0 };
        m.call(Call::RqForwardOrdered { ssn: ssn.wrapping_add(half) });
    } else {
        let tsn = some.map_or(any as u32, |row| row.tsn).wrapping_add(m.rng.pick(&[0, 0, 1, u32::MAX]));
        let half = if m.wild(6) { 1 << 31 } else { 0 };
        m.call(Call::RqForwardUnordered { tsn: tsn.wrapping_add(half) });
    }
}

/// What happens beside the pushes: questions, takes, looks at the state, and, outside the domain, forging.
fn step_on(m: &mut Maker) {
    if m.rng.one_in(2) {
        ask(m);
    }
    if m.wild(9) {
        forge::fragments(m);
        while m.model.reassembly.sound().is_err() && !m.rng.one_in(4) {
            ask(m);
        }
    }
    if m.mode == Mode::Out && m.model.reassembly.sound().is_err() && m.rng.one_in(3) {
        forge::settle_fragments(m);
    }
    if m.wild(20) {
        skip(m);
    }
    if m.wild(20) {
        forward::stream(m);
    }
    if m.wild(20) {
        bounded::skip(m);
    }
    look(m);
}

fn ask(m: &mut Maker) {
    match m.rng.below(10) {
        0 | 1 => m.put(Call::RqIsReadable {}),
        2 => m.put(Call::RqNumBytes {}),
        3 if m.mode == Mode::Out => skip(m),
        4 if m.mode == Mode::Out => forward::stream(m),
        5 if m.mode == Mode::Out => bounded::skip(m),
        8 | 9 => bounded::ask(m),
        _ => _ = hand::take(m),
    }
}

/// The state, more often where it is short.
fn look(m: &mut Maker) {
    let queue = &m.model.reassembly;
    let length = queue.held().len() as u64 / 4 + queue.bytes.min(POOL as u64) / 40;
    if m.rng.one_in(4 + length) {
        m.put(Call::RqState {});
    }
    if m.wild(16) {
        m.put(Call::RqWhole {});
    }
}

/// Takes and skips until nothing is held, and a look at it.
fn drain(m: &mut Maker) {
    if m.mode == Mode::Out {
        forge::settle_fragments(m);
    }
    while m.model.reassembly.sound().is_ok() && hand::take(m) {}
    let lists = match m.model.reassembly.sound() {
        Ok(()) => m.model.reassembly.view(),
        Err(_) => return,
    };
    if let Some(last) = lists.loose.last() {
        m.call(Call::RqForwardUnordered { tsn: last.row.tsn });
    }
    if let Some(last) = lists.ordered.last() {
        m.call(Call::RqForwardOrdered { ssn: last.row.ssn() });
    }
    for _ in 0..FRAGMENTS {
        if !hand::take(m) {
            break;
        }
    }
    m.put(Call::RqState {});
    if m.model.reassembly.count() == 0 {
        m.event(Event::Drained);
    }
}
