//! Runs of the sender's in-flight queue.
use super::tsns::base;
use super::{Maker, forge};
use crate::Mode;
use crate::coverage::Event;
use crate::domain;
use crate::model::tsns::TSNS;
use calls::{Call, Fields};

pub fn run(m: &mut Maker) {
    m.put(Call::IqNew {});
    if m.rng.one_in(3) {
        ask(m);
    }
    let base = base(&mut m.rng);
    match m.rng.below(60) {
        0 => full(m, base),
        1..12 => scattered(m, base),
        _ => send(m, base),
    }
    if m.rng.one_in(4) {
        again(m);
    }
    if m.rng.one_in(3) {
        let tsn = m.model.in_flight.held().last().map_or(0, |row| row.tsn);
        m.call(Call::IqPopUpTo { tsn });
        m.put(Call::IqIsEmpty {});
    }
}

/// A message's number: one of a few, beside one that differs from it in its high half, or any.
fn message(m: &mut Maker) -> u64 {
    let any = m.rng.number();
    let few = any % 5;
    m.rng.pick(&[few, few, few, few + (1 << 32), any, u64::MAX])
}

fn push(m: &mut Maker, tsn: u32) -> bool {
    let (identifier, message) = (m.identifier(), message(m));
    let rng = &mut m.rng;
    let size = rng.number() as u16;
    let fields = Fields { flags: rng.byte(), tsn, stream: rng.below(4) as u16, ssn: rng.pick(&[0, 1, 65_535]), identifier };
    let size = rng.pick(&[0, 1, size % 1_500, size, u16::MAX]);
    m.call(Call::IqPush { fields, size, message })
}

/// As a sender does: TSNs from a base on are pushed in their order, some of them acknowledged, and what the peer has is popped.
fn send(m: &mut Maker, base: u32) {
    for i in 0..m.rng.within(2, 40) as u32 {
        push(m, base.wrapping_add(i));
        step_on(m);
    }
}

/// TSNs all over an arc, at both of its ends too; outside the domain anywhere.
fn scattered(m: &mut Maker, base: u32) {
    for _ in 0..m.rng.within(5, 40) {
        let any = m.rng.number() as u32;
        let offset = m.rng.pick(&[any % 8, any % (1 << 31), (1 << 31) - 1 - any % 3, 1 << 31]);
        let tsn = if m.wild(4) { any } else { base.wrapping_add(offset) };
        push(m, tsn);
        step_on(m);
    }
}

/// To the last place of the table, and outside the domain past it, with held TSNs and others.
fn full(m: &mut Maker, base: u32) {
    for i in 0..TSNS as u32 + 3 {
        push(m, base.wrapping_add(i * 3 / 2));
    }
    if m.model.in_flight.count == TSNS as u64 {
        m.event(Event::Full);
    }
    for _ in 0..20 {
        step_on(m);
        if m.mode == Mode::Out {
            let tsn = some_tsn(m);
            push(m, tsn);
        }
    }
}

/// What happens beside the pushes: marks, questions, looks at the state, and, outside the domain, forging.
fn step_on(m: &mut Maker) {
    if m.rng.one_in(2) {
        mark(m);
    }
    if m.rng.one_in(3) {
        ask(m);
    }
    if m.wild(8) {
        forge::in_flight(m);
        while m.model.in_flight.sound().is_err() && !m.rng.one_in(4) {
            mark(m);
            ask(m);
        }
    }
    if m.mode == Mode::Out && m.model.in_flight.sound().is_err() && m.rng.one_in(4) {
        forge::settle_in_flight(m);
    }
    if m.rng.one_in(4 + m.model.in_flight.held().len() as u64 / 6) {
        m.put(Call::IqState {});
    }
    if m.wild(9) {
        m.put(Call::IqWhole {});
    }
}

/// A mark; some are set twice, and an abandoned chunk acknowledged.
fn mark(m: &mut Maker) {
    let tsn = some_tsn(m);
    let message = some_message(m);
    let call = match m.rng.below(8) {
        0..4 => Call::IqAcked { tsn },
        4 | 5 => Call::IqAbandon { message },
        _ => Call::IqRetransmit {},
    };
    let twice = m.rng.one_in(4);
    m.call(call.clone());
    if twice {
        m.call(call);
    }
}

/// A TSN that is held, beside one, half way from it, or any.
fn some_tsn(m: &mut Maker) -> u32 {
    let held = m.model.in_flight.held();
    let any = m.rng.number() as u32;
    let one = if held.is_empty() { any } else { held[m.rng.below(held.len() as u64) as usize].tsn };
    let near = m.rng.pick(&[one, one, one, one.wrapping_add(1 << 31), any]);
    near.wrapping_add(m.rng.pick(&[0, 0, 0, 1, u32::MAX]))
}

/// The number of a held record, one that differs from it in its high half, or another.
fn some_message(m: &mut Maker) -> u64 {
    let n = m.model.in_flight.held().len() as u64;
    let other = message(m);
    let one = if n == 0 { other } else { m.model.in_flight.messages[m.rng.below(n) as usize] };
    m.rng.pick(&[one, one, one ^ (1 << 32), other])
}

/// One question, or a call that takes records out.
fn ask(m: &mut Maker) {
    let tsn = some_tsn(m);
    let first = m.model.in_flight.held().first().map_or(tsn, |row| row.tsn);
    let call = match m.rng.below(12) {
        0..3 => Call::IqGet { tsn },
        3..6 => Call::IqPop { tsn: first },
        6 => Call::IqPop { tsn },
        7 => Call::IqPopUpTo { tsn },
        8 => Call::IqNumBytes {},
        9 => Call::IqLen {},
        _ => Call::IqIsEmpty {},
    };
    m.call(call);
}

/// A TSN that is in flight already: difference 29. The Rust takes it and miscounts, so in mode `in` a fresh queue follows.
fn again(m: &mut Maker) {
    let tsn = m.model.in_flight.held().first().map_or(0, |row| row.tsn);
    let fields = Fields { tsn, identifier: m.identifier(), ..Fields::default() };
    let call = Call::IqPush { fields, size: 1, message: 0 };
    if m.mode == Mode::Out {
        m.put(call);
        m.put(Call::IqWhole {});
    } else if domain::sent_again(&m.model, &call) {
        m.put(call);
        m.put(Call::IqNew {});
    }
}
