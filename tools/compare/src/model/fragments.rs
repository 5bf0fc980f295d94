//! Reassembly of one stream: document 01, 'Reassembly, one stream'. A refusal is `Err` with its number.
//!
//! Records stand in one table and their bytes in one pool, both in this order: finished unordered messages, oldest first; loose unordered fragments;
//! ordered sets. What is held afterwards goes to the front of both, and the rest of each stays as it was.
use super::fault::Fault;
use super::rows::{Row, place};
use super::serial::{Order, Serial};
use calls::{Fields, POOL, U};
use std::ops::Range;

/// At most 512 fragments and 65,536 payload bytes held.
pub const FRAGMENTS: usize = 512;
pub const BYTES: u64 = 65_536;

#[derive(Clone)]
pub struct Fragment {
    pub row: Row,
    pub bytes: Vec<u8>,
}

/// What is held.
#[derive(Clone)]
pub struct Lists {
    pub finished: Vec<Fragment>,
    pub loose: Vec<Fragment>,
    pub ordered: Vec<Fragment>,
}

/// The message that is next to be taken: which of its list's fragments it is.
pub struct Next {
    pub finished: bool,
    pub fragments: Range<usize>,
}

/// A message that was taken.
pub struct Message {
    pub ssn: u16,
    pub identifier: u32,
    pub bytes: Vec<u8>,
}

#[derive(Clone)]
pub struct Reassembly {
    pub stream: u16,
    pub expected: u16,
    pub maximum: u32,
    pub finished: u64,
    pub loose: u64,
    pub ordered: u64,
    pub bytes: u64,
    pub rows: Vec<Row>,
    pub pool: Vec<u8>,
    /// How many bytes of the pool are lent.
    pub lent: usize,
    pub serial: Serial,
}

fn total(fragments: &[Fragment]) -> u64 {
    fragments.iter().map(|f| f.bytes.len() as u64).sum()
}

/// The first set with that SSN; empty where there is none.
fn set_of(ordered: &[Fragment], ssn: u16) -> Range<usize> {
    let Some(first) = ordered.iter().position(|f| f.row.ssn() == ssn) else { return 0..0 };
    let run = ordered[first..].iter().take_while(|f| f.row.ssn() == ssn).count();
    first..first + run
}

/// All sets: runs of one SSN.
pub fn sets(ordered: &[Fragment]) -> impl Iterator<Item = &[Fragment]> {
    ordered.chunk_by(|a, b| a.row.ssn() == b.row.ssn())
}

/// "Each B starts afresh; a break in TSN forgets the start; the first E reached" ends the run.
fn scan(loose: &[Fragment], serial: Serial) -> Option<Range<usize>> {
    let mut start = None;
    for (i, fragment) in loose.iter().enumerate() {
        if fragment.row.begins() {
            start = Some(i);
        } else if i > 0 && fragment.row.tsn != loose[i - 1].row.tsn.wrapping_add(1) && !serial.wrong.is(Fault::ScanGoesOn) {
            start = None;
        }
        if let Some(start) = start.filter(|_| fragment.row.ends()) {
            return Some(start..i + 1);
        }
    }
    None
}

/// The bytes of the run that starts at a TSN and goes on by `step`, through the first fragment that is the last of it.
fn run(loose: &[Fragment], mut tsn: u32, step: u32, is_last: fn(&Row) -> bool) -> u64 {
    let mut sum = 0;
    while let Some(fragment) = loose.iter().find(|f| f.row.tsn == tsn) {
        sum += fragment.bytes.len() as u64;
        if is_last(&fragment.row) {
            break;
        }
        tsn = tsn.wrapping_add(step);
    }
    sum
}

/// The size of the message that a new unordered fragment belongs to, as far as it came.
fn reach(loose: &[Fragment], new: &Fragment) -> u64 {
    let down = if new.row.begins() { 0 } else { run(loose, new.row.tsn.wrapping_sub(1), u32::MAX, Row::begins) };
    let up = if new.row.ends() { 0 } else { run(loose, new.row.tsn.wrapping_add(1), 1, Row::ends) };
    new.bytes.len() as u64 + down + up
}

impl Reassembly {
    pub fn new(serial: Serial) -> Reassembly {
        Reassembly {
            stream: 0,
            expected: 0,
            maximum: 65_536,
            finished: 0,
            loose: 0,
            ordered: 0,
            bytes: 0,
            rows: vec![Row::default(); FRAGMENTS],
            pool: vec![0; POOL],
            lent: BYTES as usize,
            serial,
        }
    }

    /// A fresh queue of a stream; table and pool stay as they are.
    pub fn renew(&mut self, stream: u16, maximum: u32) {
        (self.stream, self.expected, self.maximum) = (stream, 0, maximum);
        (self.finished, self.loose, self.ordered, self.bytes) = (0, 0, 0, 0);
    }

    /// The number of fragments, which may be beyond the table.
    pub fn count(&self) -> u64 {
        self.finished.saturating_add(self.loose).saturating_add(self.ordered)
    }

    pub fn held(&self) -> &[Row] {
        &self.rows[..self.count().min(FRAGMENTS as u64) as usize]
    }

    pub fn sum(&self) -> u64 {
        self.held().iter().map(Row::long_length).sum()
    }

    /// Refusal 0: a count above its table, a pool shorter than its limit, a place outside the lent pool, a byte count that is not the sum.
    /// No two places share a byte, since the bytes of a record stand behind those of the one before it.
    pub fn sound(&self) -> Result<(), u8> {
        let pool = (self.lent as u64) < BYTES || self.sum() > self.lent as u64;
        if self.count() > FRAGMENTS as u64 || pool || self.sum() != self.bytes { Err(0) } else { Ok(()) }
    }

    pub fn view(&self) -> Lists {
        let mut at = 0;
        let mut all = Vec::new();
        for row in self.held() {
            let end = at + row.long_length() as usize;
            all.push(Fragment { row: *row, bytes: self.pool[at..end].to_vec() });
            at = end;
        }
        let ordered = all.split_off((self.finished + self.loose) as usize);
        let loose = all.split_off(self.finished as usize);
        Lists { finished: all, loose, ordered }
    }

    pub fn lay(&mut self, lists: &Lists) {
        if self.serial.wrong.is(Fault::RestCleared) {
            self.rows.fill(Row::default());
        }
        (self.finished, self.loose, self.ordered) = (lists.finished.len() as u64, lists.loose.len() as u64, lists.ordered.len() as u64);
        let (mut n, mut at) = (0, 0);
        for fragment in lists.finished.iter().chain(&lists.loose).chain(&lists.ordered) {
            self.rows[n] = fragment.row;
            self.pool[at..at + fragment.bytes.len()].copy_from_slice(&fragment.bytes);
            n += 1;
            at += fragment.bytes.len();
        }
        self.bytes = at as u64;
    }

    pub fn push(&mut self, fields: &Fields, data: Vec<u8>) -> Result<bool, u8> {
        self.sound()?;
        if fields.stream != self.stream {
            return Ok(false);
        }
        let mut row = Row::new(fields, data.len() as u32);
        if self.serial.wrong.is(Fault::IdentifierCut) {
            row.identifier %= 1 << 16;
        }
        let new = Fragment { row, bytes: data };
        if fields.flags & U != 0 { self.push_unordered(new) } else { self.push_ordered(new) }
    }

    /// 8: no room.
    fn room_for(&self, new: &Fragment) -> Result<(), u8> {
        let most = if self.serial.wrong.is(Fault::RoomOneLess) { FRAGMENTS - 1 } else { FRAGMENTS };
        if self.count() + 1 > most as u64 || self.bytes + new.bytes.len() as u64 > BYTES { Err(8) } else { Ok(()) }
    }

    fn push_ordered(&mut self, mut new: Fragment) -> Result<bool, u8> {
        let mut lists = self.view();
        let at = set_of(&lists.ordered, new.row.ssn());
        let set = &lists.ordered[at.clone()];
        let old = self.serial.ssn_before(new.row.ssn(), self.expected);
        if old && self.serial.wrong.is(Fault::OldBeforeSize) {
            return Ok(false);
        }
        if total(set) + new.bytes.len() as u64 > self.maximum as u64 {
            return Err(6);
        }
        if old {
            return Ok(false);
        }
        if set.iter().any(|f| f.row.tsn == new.row.tsn) {
            if self.serial.wrong.is(Fault::DuplicateCounted) {
                self.bytes += new.bytes.len() as u64;
            }
            return Ok(false);
        }
        self.room_for(&new)?;
        let ssn = new.row.ssn();
        if let Some(first) = set.first() {
            let index = at.start + place(set, |f| self.serial.tsn_before(f.row.tsn, new.row.tsn));
            new.row.identifier = if self.serial.wrong.is(Fault::LastIdentifier) { new.row.identifier } else { first.row.identifier };
            lists.ordered.insert(index, new);
        } else {
            let by_ssn = place(&lists.ordered, |f| self.serial.ssn_before(f.row.ssn(), ssn));
            let index = if self.serial.wrong.is(Fault::SetsByArrival) { lists.ordered.len() } else { by_ssn };
            lists.ordered.insert(index, new);
        }
        self.lay(&lists);
        Ok(self.complete(&lists.ordered[set_of(&lists.ordered, ssn)]))
    }

    /// "First is B, last is E, TSNs rise by 1; inner flags are not looked at."
    pub fn complete(&self, set: &[Fragment]) -> bool {
        if self.serial.wrong.is(Fault::RestartAtB) {
            return scan(set, self.serial).is_some();
        }
        let rises = set.windows(2).all(|pair| pair[1].row.tsn == pair[0].row.tsn.wrapping_add(1));
        set.first().is_some_and(|f| f.row.begins()) && set.last().is_some_and(|f| f.row.ends()) && rises
    }

    fn push_unordered(&mut self, new: Fragment) -> Result<bool, u8> {
        let mut lists = self.view();
        if reach(&lists.loose, &new) > self.maximum as u64 {
            return Err(6);
        }
        if lists.loose.iter().any(|f| f.row.tsn == new.row.tsn) && !self.serial.wrong.is(Fault::DuplicateKept) {
            return Ok(false);
        }
        self.room_for(&new)?;
        let index = place(&lists.loose, |f| self.serial.tsn_before(f.row.tsn, new.row.tsn));
        lists.loose.insert(index, new);
        let found = scan(&lists.loose, self.serial);
        if let Some(run) = found.clone() {
            lists.finished.extend(lists.loose.drain(run));
        }
        self.lay(&lists);
        Ok(found.is_some())
    }

    /// "Oldest finished unordered message; else the first ordered set if complete and its SSN is not after the expected one; else nothing."
    /// A finished message goes through its first E; where a forged table has none, it is all of the list.
    pub fn next(&self, lists: &Lists) -> Option<Next> {
        if !lists.finished.is_empty() {
            let end = lists.finished.iter().position(|f| f.row.ends()).map_or(lists.finished.len(), |e| e + 1);
            return Some(Next { finished: true, fragments: 0..end });
        }
        let set = sets(&lists.ordered).next()?;
        let after = self.serial.ssn_before(self.expected, set[0].row.ssn());
        (self.complete(set) && !after).then_some(Next { finished: false, fragments: 0..set.len() })
    }

    pub fn is_readable(&self) -> Result<bool, u8> {
        self.sound()?;
        Ok(self.next(&self.view()).is_some())
    }

    /// Take. 10: there is a message and the buffer is too short for it.
    pub fn read(&mut self, buffer: &mut [u8]) -> Result<Option<Message>, u8> {
        self.sound()?;
        let mut lists = self.view();
        let Some(next) = self.next(&lists) else { return Ok(None) };
        let list = if next.finished { &mut lists.finished } else { &mut lists.ordered };
        let fragments: Vec<Fragment> = list.drain(next.fragments).collect();
        let bytes: Vec<u8> = fragments.iter().flat_map(|f| f.bytes.iter().copied()).collect();
        buffer.get_mut(..bytes.len()).ok_or(10)?.copy_from_slice(&bytes);
        self.lay(&lists);
        let first = fragments[0].row;
        let ssn = if next.finished && !self.serial.wrong.is(Fault::FinishedSsn) { 0 } else { first.ssn() };
        if !next.finished && ssn == self.expected && !self.serial.wrong.is(Fault::ExpectedStays) {
            self.expected = self.expected.wrapping_add(1);
        }
        let identifier = self.serial.wrong.told(Fault::HandFolded, first.identifier);
        Ok(Some(Message { ssn, identifier, bytes }))
    }

    /// "Incomplete sets at or before s go; if the expected SSN is at or before s it becomes s + 1."
    pub fn forward_ordered(&mut self, s: u16) -> Result<(), u8> {
        self.sound()?;
        let mut lists = self.view();
        let complete = |set: &[Fragment]| self.complete(set) && !self.serial.wrong.is(Fault::SkipDropsComplete);
        let stays = |set: &[Fragment]| complete(set) || !self.serial.ssn_at_or_before(set[0].row.ssn(), s);
        lists.ordered = sets(&lists.ordered).filter(|set| stays(set)).flatten().cloned().collect();
        self.lay(&lists);
        if self.serial.ssn_at_or_before(self.expected, s) {
            self.expected = s.wrapping_add(1);
        }
        Ok(())
    }

    /// "Fragments go from the front of the list up to the first one after t; finished messages stay."
    pub fn forward_unordered(&mut self, t: u32) -> Result<(), u8> {
        self.sound()?;
        let mut lists = self.view();
        let before = self.bytes;
        let stops = |tsn| self.serial.wrong.is(Fault::SkipStopsAtOpposite) && self.serial.compared(32, tsn, t) == Order::Opposite;
        let stay = lists.loose.iter().position(|f| self.serial.tsn_before(t, f.row.tsn) || stops(f.row.tsn)).unwrap_or(lists.loose.len());
        lists.loose.drain(..stay);
        self.lay(&lists);
        if self.serial.wrong.is(Fault::SkipKeepsBytes) {
            self.bytes = before;
        }
        Ok(())
    }
}
