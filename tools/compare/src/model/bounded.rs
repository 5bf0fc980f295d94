//! Skips held over a stream reset: document 02, M-110. A refusal is `Err` with its number.
use super::fault::Fault;
use super::fragments::{Fragment, Reassembly, sets};

/// The TSNs that a set's message lacks, as far as the set shows them: the one before a first fragment that is not B, the one after each fragment that the
/// next does not follow, the one after a last fragment that is not E.
fn lacked(queue: &Reassembly, set: &[Fragment]) -> Vec<u32> {
    let (first, last) = (set[0].row, set[set.len() - 1].row);
    let ahead = (!first.begins() && !queue.serial.wrong.is(Fault::FirstIsBegun)).then(|| first.tsn.wrapping_sub(1));
    let after = |pair: &[Fragment]| pair[0].row.tsn.wrapping_add(1);
    let gaps = set.windows(2).filter(|pair| pair[1].row.tsn != after(pair)).map(after);
    let behind = (!last.ends()).then(|| last.tsn.wrapping_add(1));
    ahead.into_iter().chain(gaps).chain(behind).collect()
}

/// Whether a cumulative point reaches a set: a complete one with all of its TSNs, an incomplete one with a TSN that it lacks.
fn reaches(queue: &Reassembly, set: &[Fragment], point: u32) -> bool {
    let up_to = |tsn: u32| queue.serial.tsn_at_or_before(tsn, point);
    match queue.complete(set) {
        true if queue.serial.wrong.is(Fault::ReachedByFirst) => up_to(set[0].row.tsn),
        true => set.iter().all(|f| up_to(f.row.tsn)),
        false => lacked(queue, set).into_iter().any(up_to),
    }
}

fn ssn_of(set: &[Fragment]) -> u16 {
    set[0].row.ssn()
}

/// The one "that a left-to-right pass over the held sets keeps".
fn kept<T: Copy>(numbers: impl Iterator<Item = T>, better: impl Fn(T, T) -> bool) -> Option<T> {
    numbers.reduce(|kept, n| if better(n, kept) { n } else { kept })
}

/// The lowest SSN of the sets at or before s that the point does not reach, if there is one.
pub fn held_back(queue: &Reassembly, s: u16, point: u32) -> Option<u16> {
    let serial = queue.serial;
    let lists = queue.view();
    let unreached = sets(&lists.ordered).filter(|set| serial.ssn_at_or_before(ssn_of(set), s) && !reaches(queue, set, point));
    kept(unreached.map(ssn_of), |a, b| serial.ssn_before(a, b))
}

/// Incomplete sets at or before s that the point reaches go. The expected SSN moves on to the lowest SSN of the sets at or before s that it does not
/// reach, else to s + 1, if it is before that.
pub fn forward(queue: &mut Reassembly, s: u16, point: u32) -> Result<(), u8> {
    queue.sound()?;
    let wrong = queue.serial.wrong;
    let limit = held_back(queue, s, point).filter(|_| !wrong.is(Fault::PastUnreached)).unwrap_or(s.wrapping_add(1));
    let mut lists = queue.view();
    let reached = |set: &[Fragment]| reaches(queue, set, point) || wrong.is(Fault::UnreachedDropped);
    let goes = |set: &[Fragment]| queue.serial.ssn_at_or_before(ssn_of(set), s) && !queue.complete(set) && reached(set);
    lists.ordered = sets(&lists.ordered).filter(|set| !goes(set)).flatten().cloned().collect();
    queue.lay(&lists);
    if queue.serial.ssn_before(queue.expected, limit) || wrong.is(Fault::ExpectedBack) {
        queue.expected = limit;
    }
    Ok(())
}

/// How far such a skip applies: to s where the expected SSN is after it, where the set of s is held and is the expected one or reached, or where the lowest
/// TSN held in sets at or after s is at or before the peer's last; else to the highest SSN of the sets from the expected one on and before s that are
/// reached or whose first TSN is at or before the peer's last; else not at all.
pub fn applicable(queue: &Reassembly, s: u16, point: u32, peer: u32) -> Result<Option<u16>, u8> {
    queue.sound()?;
    let (serial, wrong) = (queue.serial, queue.serial.wrong);
    let lists = queue.view();
    let settled = |set: &[Fragment]| ssn_of(set) == s && (ssn_of(set) == queue.expected || reaches(queue, set, point));
    let from_s = lists.ordered.iter().filter(|f| serial.ssn_at_or_before(s, f.row.ssn())).map(|f| f.row.tsn);
    let lowest = kept(from_s, |a, b| serial.tsn_before(a, b)).filter(|_| !wrong.is(Fault::LaterIgnored));
    let own = sets(&lists.ordered).any(settled) && !wrong.is(Fault::OwnSetIgnored);
    if serial.ssn_before(s, queue.expected) || own || lowest.is_some_and(|tsn| serial.tsn_at_or_before(tsn, peer)) {
        return Ok(Some(s));
    }
    let begun = |set: &[Fragment]| {
        let which = if wrong.is(Fault::PartByLast) { set.len() - 1 } else { 0 };
        serial.tsn_at_or_before(set[which].row.tsn, peer)
    };
    let within = |ssn: u16| serial.ssn_at_or_before(queue.expected, ssn) && serial.ssn_before(ssn, s);
    let parts = sets(&lists.ordered).filter(|set| within(ssn_of(set)) && (reaches(queue, set, point) || begun(set)));
    Ok(kept(parts.map(ssn_of), |a, b| serial.ssn_before(b, a) != wrong.is(Fault::LowestPart)))
}
