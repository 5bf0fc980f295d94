//! Runs of the TSN queue.
use super::{Maker, forge, forward};
use crate::Mode;
use crate::coverage::Event;
use crate::domain;
use crate::model::tsns::{LOG, TSNS};
use crate::rng::Rng;
use calls::{Call, Fields, LIST_MOST};

pub fn run(m: &mut Maker) {
    m.put(Call::PqNew {});
    if m.rng.one_in(3) {
        ask(m, 0);
    }
    match m.rng.below(80) {
        0 => full(m),
        1..23 => scattered(m),
        23..25 => {
            // A long run, in which the TSNs go on.
            let mut base = base(&mut m.rng);
            for _ in 0..m.rng.within(5, 25) {
                base = receive(m, base);
            }
        }
        _ => {
            let base = base(&mut m.rng);
            receive(m, base);
        }
    }
    if m.rng.one_in(3) {
        let tsn = m.model.tsns.held().last().map_or(0, |row| row.tsn);
        m.call(Call::PqPopUpTo { tsn });
        ask(m, tsn);
        m.put(Call::PqState {});
    }
    if m.rng.one_in(3) {
        opposed(m);
    }
}

/// A TSN opposite to the cumulative one, held or beside what is held: difference 24. The Rust stores it, or logs it, so in mode `in` a fresh queue follows.
fn opposed(m: &mut Maker) {
    let cumulative = m.rng.number() as u32;
    let tsn = some_tsn(m, cumulative);
    let fields = Fields { tsn, identifier: m.identifier(), ..Fields::default() };
    let call = Call::PqPush { fields, size: 1, cumulative: tsn.wrapping_add(1 << 31) };
    if m.mode == Mode::Out {
        m.put(call);
        m.put(Call::PqWhole {});
    } else if domain::opposed(&m.model, &call) {
        m.put(call);
        m.put(Call::PqNew {});
    }
}

/// Where a run's TSNs begin: about a wrap, about half way, or anywhere.
pub fn base(rng: &mut Rng) -> u32 {
    let any = rng.number() as u32;
    let near = (any % 64).wrapping_sub(48);
    rng.pick(&[near, near, near.wrapping_add(1 << 31), any])
}

fn push(m: &mut Maker, tsn: u32, cumulative: u32) -> bool {
    let identifier = m.identifier();
    let rng = &mut m.rng;
    let size = rng.number() as u16;
    let fields = Fields {
        flags: rng.byte(),
        tsn,
        stream: rng.below(4) as u16,
        ssn: rng.pick(&[0, 1, 65_535]),
        identifier,
    };
    let size = rng.pick(&[0, 1, size % 1_500, size, u16::MAX]);
    m.call(Call::PqPush { fields, size, cumulative })
}

/// As a receiver does: TSNs from a base on come in a shuffled order, each is pushed, and what follows the cumulative TSN is popped. Where they go on.
fn receive(m: &mut Maker, base: u32) -> u32 {
    let mut cumulative = base.wrapping_sub(1);
    let step = m.rng.pick(&[1, 1, 1, 2, 3, 900, 40_000]);
    let window = m.rng.pick(&[1, 3, 10, 50]);
    let mut due = vec![base];
    for _ in 0..m.rng.within(2, 40) {
        due.push(due[due.len() - 1].wrapping_add(m.rng.within(1, step) as u32));
    }
    let end = due[due.len() - 1].wrapping_add(1);
    while !due.is_empty() {
        let at = m.rng.below(due.len().min(window) as u64) as usize;
        let tsn = due.remove(at);
        if !m.rng.one_in(25) {
            push(m, tsn, cumulative);
        }
        while m.tsns_first() == Some(cumulative.wrapping_add(1)) && !m.rng.one_in(4) {
            cumulative = cumulative.wrapping_add(1);
            m.call(Call::PqPop { tsn: cumulative });
        }
        step_on(m, &mut cumulative);
    }
    end
}

/// TSNs all over an arc, at both of its ends too; outside the domain anywhere.
fn scattered(m: &mut Maker) {
    let base = base(&mut m.rng);
    let mut cumulative = base.wrapping_sub(m.rng.below(3) as u32);
    for _ in 0..m.rng.within(5, 40) {
        let any = m.rng.number() as u32;
        let offset = m.rng.pick(&[any % 8, any % (1 << 31), (1 << 31) - 1 - any % 3, 65_530 + any % 10, 1 << 31]);
        let tsn = if m.wild(4) { any } else { base.wrapping_add(offset) };
        push(m, tsn, cumulative);
        step_on(m, &mut cumulative);
    }
}

/// To the last place of the table and of the log, and outside the domain past it.
fn full(m: &mut Maker) {
    let base = base(&mut m.rng);
    let mut cumulative = base.wrapping_sub(2);
    let mut due: Vec<u32> = (0..TSNS as u32 + 4).map(|i| base.wrapping_add(i * 3 / 2)).collect();
    while !due.is_empty() {
        let at = m.rng.below(due.len().min(20) as u64) as usize;
        let tsn = due.remove(at);
        push(m, tsn, cumulative);
    }
    look(m);
    for _ in 0..LOG + 3 {
        let tsn = some_tsn(m, cumulative);
        push(m, tsn, cumulative);
    }
    if m.model.tsns.count == TSNS as u64 {
        m.event(Event::Full);
    }
    for _ in 0..30 {
        step_on(m, &mut cumulative);
    }
}

/// What happens beside the pushes: questions, duplicates, skips, looks at the state, and, outside the domain, forging.
fn step_on(m: &mut Maker, cumulative: &mut u32) {
    if m.rng.one_in(3) {
        ask(m, *cumulative);
    }
    if m.rng.one_in(7) {
        let tsn = some_tsn(m, *cumulative);
        push(m, tsn, *cumulative);
    }
    if m.rng.one_in(25) {
        let tsn = some_tsn(m, *cumulative);
        m.call(Call::PqPopUpTo { tsn });
        *cumulative = if m.rng.one_in(2) { tsn } else { *cumulative };
    }
    if m.rng.one_in(20) {
        forward::tsns(m, cumulative);
    }
    if m.wild(8) {
        forge::tsns(m);
        while m.model.tsns.sound().is_err() && !m.rng.one_in(4) {
            ask(m, *cumulative);
        }
    }
    if m.mode == Mode::Out && m.model.tsns.sound().is_err() && m.rng.one_in(4) {
        forge::settle_tsns(m);
    }
    look(m);
}

/// A TSN that is held, beside one, beside the cumulative one, half way from it, or any.
pub fn some_tsn(m: &mut Maker, cumulative: u32) -> u32 {
    let rng = &mut m.rng;
    let held = m.model.tsns.held();
    let any = rng.number() as u32;
    let one = if held.is_empty() { any } else { held[rng.below(held.len() as u64) as usize].tsn };
    let near = rng.pick(&[one, one, cumulative, cumulative.wrapping_add(1 << 31), any]);
    near.wrapping_add(rng.pick(&[0, 0, 0, 1, u32::MAX]))
}

/// One question, or a call that may change the queue.
fn ask(m: &mut Maker, cumulative: u32) {
    let tsn = some_tsn(m, cumulative);
    let first = m.tsns_first().unwrap_or(tsn);
    let call = match m.rng.below(15) {
        0 => Call::PqCanPush { tsn, cumulative },
        1 => Call::PqGet { tsn },
        2..5 => return report(m, cumulative),
        5 => Call::PqLastTsn {},
        6 => Call::PqNumBytes {},
        7 => Call::PqLen {},
        8 => Call::PqIsEmpty {},
        9 => Call::PqContainsStream { stream: m.rng.below(6) as u16 },
        10 | 11 => Call::PqPop { tsn: m.rng.pick(&[tsn, first]) },
        12 => Call::PqCanPush { tsn: tsn.wrapping_add(1), cumulative },
        13 if m.mode == Mode::Out => Call::PqApplyForward { cumulative, point: tsn },
        _ => Call::PqPopDuplicates {},
    };
    m.call(call);
}

/// A gap report from the cumulative TSN or from one some way below a held one, into lists that are long enough; outside the domain also too short.
fn report(m: &mut Maker, cumulative: u32) {
    let below = m.rng.pick(&[0, 0, 0, 1, 2, 65_534, 65_535, 65_536]);
    let from = if below == 0 { cumulative } else { some_tsn(m, cumulative).wrapping_sub(below) };
    let blocks = m.model.tsns.blocks(from).len() as u16;
    let short = m.rng.within(1, 2) as u16;
    let mut room = || if m.rng.one_in(800) { LIST_MOST as u16 } else { blocks + m.rng.pick(&[0, 0, 1, 3]) };
    let (mut starts, mut ends) = (room(), room());
    if m.wild(5) {
        let list = if m.rng.one_in(2) { &mut starts } else { &mut ends };
        *list = blocks.saturating_sub(short);
    }
    let fill = m.rng.number() as u16;
    m.call(Call::PqGapAckBlocks { cumulative: from, starts, ends, fill });
}

/// The state, more often where it is short.
fn look(m: &mut Maker) {
    if m.model.tsns.dups == LOG as u64 {
        m.event(Event::Full);
    }
    if m.rng.one_in(4 + m.model.tsns.held().len() as u64 / 6) {
        m.put(Call::PqState {});
    }
    if m.wild(9) {
        m.put(Call::PqWhole {});
    }
}

impl Maker {
    fn tsns_first(&self) -> Option<u32> {
        self.model.tsns.held().first().map(|row| row.tsn)
    }
}
