//! The rules of documents 01 and 02 in plain Rust, with `Vec`s: what the archive's answers are compared with.
use sctp_receive::{ChunkPayloadData, Error, Queued};

pub fn before32(a: u32, b: u32) -> bool {
    (b.wrapping_sub(a) as i32) > 0
}

pub fn before16(a: u16, b: u16) -> bool {
    (b.wrapping_sub(a) as i16) > 0
}

/// Right after the last one that is before it, or first.
fn place<T>(held: &[T], is_before: impl Fn(&T) -> bool) -> usize {
    held.iter().rposition(is_before).map_or(0, |i| i + 1)
}

// ---- the TSN queue ----

#[derive(Default)]
pub struct Tsns {
    pub held: Vec<Queued>,
    pub log: Vec<u32>,
}

impl Tsns {
    pub fn can_push(&self, tsn: u32, cumulative: u32) -> bool {
        !(self.held.iter().any(|h| h.chunk.tsn == tsn) || tsn == cumulative || before32(tsn, cumulative))
    }

    pub fn push(&mut self, chunk: ChunkPayloadData, size: u16, cumulative: u32) -> Result<bool, Error> {
        if chunk.tsn.wrapping_sub(cumulative) == 1 << 31 {
            return Err(Error::OppositeTsn);
        }
        if !self.can_push(chunk.tsn, cumulative) {
            if self.log.len() < 64 {
                self.log.push(chunk.tsn);
            }
            return Ok(false);
        }
        if self.held.len() == 1024 {
            return Err(Error::Full);
        }
        let at = place(&self.held, |h| before32(h.chunk.tsn, chunk.tsn));
        self.held.insert(at, Queued { chunk, size });
        Ok(true)
    }

    pub fn pop(&mut self, tsn: u32) -> Option<Queued> {
        (self.held.first()?.chunk.tsn == tsn).then(|| self.held.remove(0))
    }

    pub fn pop_up_to(&mut self, tsn: u32) {
        self.held.retain(|h| !(h.chunk.tsn == tsn || before32(h.chunk.tsn, tsn)));
    }

    pub fn apply_forward_tsn(&mut self, cumulative: u32, point: u32) {
        if !(point == cumulative || before32(point, cumulative)) {
            self.pop_up_to(point);
        }
    }

    pub fn get(&self, tsn: u32) -> Option<Queued> {
        self.held.iter().find(|h| h.chunk.tsn == tsn).copied()
    }

    pub fn gap_ack_blocks(&self, cumulative: u32) -> Vec<(u16, u16)> {
        let mut blocks: Vec<(u16, u16)> = Vec::new();
        for h in &self.held {
            let Ok(offset) = u16::try_from(h.chunk.tsn.wrapping_sub(cumulative)) else { continue };
            match blocks.last_mut() {
                _ if offset == 0 => {}
                Some(last) if u32::from(last.1) + 1 == u32::from(offset) => last.1 = offset,
                _ => blocks.push((offset, offset)),
            }
        }
        blocks
    }
}

// ---- reassembly ----

#[derive(Clone)]
struct Frag {
    chunk: ChunkPayloadData,
    data: Vec<u8>,
}

#[derive(Clone, Debug, PartialEq, Eq)]
pub struct Message {
    pub ssn: u16,
    pub ppi: u32,
    pub bytes: Vec<u8>,
}

fn bytes(frags: &[Frag]) -> usize {
    frags.iter().map(|f| f.data.len()).sum()
}

fn complete(set: &[Frag]) -> bool {
    let rises = set.windows(2).all(|w| w[0].chunk.tsn.wrapping_add(1) == w[1].chunk.tsn);
    rises && set.first().is_some_and(|f| f.chunk.beginning_fragment) && set.last().is_some_and(|f| f.chunk.ending_fragment)
}

pub struct Stream {
    si: u16,
    pub next_ssn: u16,
    max: usize,
    finished: Vec<Vec<Frag>>,
    loose: Vec<Frag>,
    /// Each with the payload identifier of its first arrival.
    sets: Vec<(u32, Vec<Frag>)>,
}

impl Stream {
    pub fn new(si: u16, max: u32) -> Self {
        Stream { si, next_ssn: 0, max: max as usize, finished: vec![], loose: vec![], sets: vec![] }
    }

    fn all(&self) -> impl Iterator<Item = &Frag> {
        self.finished.iter().flatten().chain(&self.loose).chain(self.sets.iter().flat_map(|s| &s.1))
    }

    pub fn num_bytes(&self) -> usize {
        self.all().map(|f| f.data.len()).sum()
    }

    fn no_room(&self, data: &[u8]) -> bool {
        self.all().count() == 512 || self.num_bytes() + data.len() > 65536
    }

    pub fn push(&mut self, chunk: ChunkPayloadData, data: &[u8]) -> Result<bool, Error> {
        if chunk.stream_identifier != self.si {
            return Ok(false);
        }
        if chunk.unordered { self.push_unordered(chunk, data) } else { self.push_ordered(chunk, data) }
    }

    fn push_ordered(&mut self, chunk: ChunkPayloadData, data: &[u8]) -> Result<bool, Error> {
        let ssn = |set: &(u32, Vec<Frag>)| set.1[0].chunk.stream_sequence_number;
        let at = self.sets.iter().position(|s| ssn(s) == chunk.stream_sequence_number);
        if at.map_or(0, |i| bytes(&self.sets[i].1)) + data.len() > self.max {
            return Err(Error::InboundPacketTooLarge);
        }
        if before16(chunk.stream_sequence_number, self.next_ssn) {
            return Ok(false);
        }
        if at.is_some_and(|i| self.sets[i].1.iter().any(|f| f.chunk.tsn == chunk.tsn)) {
            return Ok(false);
        }
        if self.no_room(data) {
            return Err(Error::Full);
        }
        let at = at.unwrap_or_else(|| {
            let at = place(&self.sets, |s| before16(ssn(s), chunk.stream_sequence_number));
            self.sets.insert(at, (chunk.payload_type, vec![]));
            at
        });
        let set = &mut self.sets[at].1;
        let i = place(set, |f| before32(f.chunk.tsn, chunk.tsn));
        set.insert(i, Frag { chunk, data: data.to_vec() });
        Ok(complete(set))
    }

    /// The bytes of the run of loose fragments beside a TSN, by TSN value, up to and with the one where it stops.
    fn run(&self, mut tsn: u32, step: u32, stops: impl Fn(&Frag) -> bool) -> usize {
        let mut sum = 0;
        loop {
            tsn = tsn.wrapping_add(step);
            let Some(f) = self.loose.iter().find(|f| f.chunk.tsn == tsn) else { return sum };
            sum += f.data.len();
            if stops(f) {
                return sum;
            }
        }
    }

    fn push_unordered(&mut self, chunk: ChunkPayloadData, data: &[u8]) -> Result<bool, Error> {
        let down = if chunk.beginning_fragment { 0 } else { self.run(chunk.tsn, u32::MAX, |f| f.chunk.beginning_fragment) };
        let up = if chunk.ending_fragment { 0 } else { self.run(chunk.tsn, 1, |f| f.chunk.ending_fragment) };
        if data.len() + down + up > self.max {
            return Err(Error::InboundPacketTooLarge);
        }
        if self.loose.iter().any(|f| f.chunk.tsn == chunk.tsn) {
            return Ok(false);
        }
        if self.no_room(data) {
            return Err(Error::Full);
        }
        let at = place(&self.loose, |f| before32(f.chunk.tsn, chunk.tsn));
        self.loose.insert(at, Frag { chunk, data: data.to_vec() });
        let mut start = None;
        for i in 0..self.loose.len() {
            let f = &self.loose[i].chunk;
            if f.beginning_fragment {
                start = Some(i);
            } else if i > 0 && self.loose[i - 1].chunk.tsn.wrapping_add(1) != f.tsn {
                start = None;
            }
            if let (true, Some(from)) = (f.ending_fragment, start) {
                self.finished.push(self.loose.drain(from..=i).collect());
                return Ok(true);
            }
        }
        Ok(false)
    }

    /// The message in turn, and whether it is an unordered one.
    fn in_turn(&self) -> Option<(bool, Message)> {
        let joined = |frags: &[Frag]| frags.iter().flat_map(|f| f.data.clone()).collect();
        if let Some(m) = self.finished.first() {
            return Some((true, Message { ssn: 0, ppi: m[0].chunk.payload_type, bytes: joined(m) }));
        }
        let (ppi, set) = self.sets.first()?;
        let ssn = set[0].chunk.stream_sequence_number;
        (complete(set) && !before16(self.next_ssn, ssn)).then(|| (false, Message { ssn, ppi: *ppi, bytes: joined(set) }))
    }

    pub fn is_readable(&self) -> bool {
        self.in_turn().is_some()
    }

    pub fn read(&mut self, room: usize) -> Result<Option<Message>, Error> {
        let Some((unordered, m)) = self.in_turn() else { return Ok(None) };
        if m.bytes.len() > room {
            return Err(Error::NoRoom);
        }
        if unordered {
            self.finished.remove(0);
        } else {
            self.sets.remove(0);
            if m.ssn == self.next_ssn {
                self.next_ssn = self.next_ssn.wrapping_add(1);
            }
        }
        Ok(Some(m))
    }

    pub fn skip_ordered(&mut self, ssn: u16) {
        let at_or_before = |s: u16| s == ssn || before16(s, ssn);
        self.sets.retain(|s| complete(&s.1) || !at_or_before(s.1[0].chunk.stream_sequence_number));
        if at_or_before(self.next_ssn) {
            self.next_ssn = ssn.wrapping_add(1);
        }
    }

    pub fn skip_unordered(&mut self, tsn: u32) {
        let n = self.loose.iter().position(|f| before32(tsn, f.chunk.tsn)).unwrap_or(self.loose.len());
        self.loose.drain(..n);
    }

    pub fn apply_forward_tsn(&mut self, cumulative: u32, point: u32, pairs: &[(u16, u16)]) {
        if point == cumulative || before32(point, cumulative) {
            return;
        }
        for (stream, ssn) in pairs {
            if *stream == self.si {
                self.skip_ordered(*ssn);
            }
        }
        self.skip_unordered(point);
    }
}
