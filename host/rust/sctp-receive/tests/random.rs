//! Random runs of every call, through the archive, held to the plain model of documents 01 and 02 in `model`. The runs are fixed by their seeds.
mod model;

use model::{Stream, Tsns};
use sctp_receive::*;

/// A small generator (xorshift), so that the runs are the same everywhere.
struct Random(u64);

impl Random {
    fn next(&mut self) -> u64 {
        self.0 ^= self.0 << 13;
        self.0 ^= self.0 >> 7;
        self.0 ^= self.0 << 17;
        self.0
    }

    fn below(&mut self, n: u64) -> u64 {
        (self.next() >> 8) % n
    }

    fn often(&mut self, percent: u64) -> bool {
        self.below(100) < percent
    }

    /// A chunk with numbers near a base, so that neighbours meet, also over the wrap.
    fn chunk(&mut self, base: u32, span: u64) -> ChunkPayloadData {
        let near = self.below(span) as u32;
        ChunkPayloadData {
            unordered: self.often(40),
            beginning_fragment: self.often(40),
            ending_fragment: self.often(40),
            immediate_sack: self.often(10),
            tsn: base.wrapping_add(near),
            stream_identifier: if self.often(95) { 3 } else { 4 },
            stream_sequence_number: ((base as u16).wrapping_add(self.below(4) as u16)),
            payload_type: if self.often(70) { 49 + self.below(11) as u32 } else { self.next() as u32 },
        }
    }
}

/// How often each branch was taken: a run that never comes to one tests less than it says.
#[derive(Debug, Default)]
struct Seen {
    yes: u32,
    no: u32,
    full: u32,
    large: u32,
    opposite: u32,
    short: u32,
    found: u32,
    applied: u32,
    unchanged: u32,
}

impl Seen {
    fn count(&mut self, answer: Result<bool, Error>) {
        match answer {
            Ok(true) => self.yes += 1,
            Ok(false) => self.no += 1,
            Err(Error::Full) => self.full += 1,
            Err(Error::InboundPacketTooLarge) => self.large += 1,
            Err(Error::OppositeTsn) => self.opposite += 1,
            Err(e) => panic!("{e}"),
        }
    }

    /// A FORWARD TSN chunk that changed what is held, or did not.
    fn forward(&mut self, changed: bool) {
        *if changed { &mut self.applied } else { &mut self.unchanged } += 1;
    }
}

#[test]
fn tsn_queue() {
    let mut seen = Seen::default();
    for seed in 1..=60 {
        let mut r = Random(0x9E37_79B9_7F4A_7C15u64.wrapping_mul(seed));
        let (mut q, mut m) = (PayloadQueue::new(), Tsns::default());
        let base = [0, u32::MAX - 40, 1 << 31, 65_500][seed as usize % 4];
        let span = [30, 600, 70_000][seed as usize % 3];
        let mut cumulative = base.wrapping_sub(5);
        for _ in 0..2_000 {
            let (chunk, size) = (r.chunk(base, span), r.below(65_536) as u16);
            match r.below(100) {
                0..70 => {
                    // Now and then an opposite TSN, held or not, comes ahead of it.
                    let opposite = r.often(3).then_some(chunk.tsn.wrapping_add(1 << 31));
                    for from in opposite.into_iter().chain([cumulative]) {
                        assert_eq!(q.can_push(chunk.tsn, from), m.can_push(chunk.tsn, from));
                        let wanted = m.push(chunk, size, from);
                        assert_eq!(q.push(&chunk, size, from), wanted);
                        seen.count(wanted);
                    }
                }
                70..85 => {
                    let tsn = m.held.first().map_or(chunk.tsn, |h| if r.often(80) { h.chunk.tsn } else { chunk.tsn });
                    let wanted = m.pop(tsn);
                    assert_eq!(q.pop(tsn), wanted);
                    seen.found += u32::from(wanted.is_some());
                }
                85..87 => {
                    let tsn = base.wrapping_add(r.below(span / 4) as u32);
                    q.pop_up_to(tsn);
                    m.pop_up_to(tsn);
                }
                87..89 => {
                    let point = cumulative.wrapping_add(r.below(span / 4) as u32).wrapping_sub(8);
                    let held = m.held.len();
                    q.apply_forward_tsn(cumulative, point);
                    m.apply_forward_tsn(cumulative, point);
                    seen.forward(m.held.len() < held);
                }
                89..91 => {
                    let log = q.pop_duplicates();
                    assert_eq!(log.as_slice(), std::mem::take(&mut m.log));
                    assert!(log.tsns[log.count..].iter().all(|t| *t == 0));
                }
                91..93 => cumulative = cumulative.wrapping_add(r.below(3) as u32),
                _ => gap_report(&q, &m, cumulative, r.below(300) as usize, &mut seen),
            }
            assert_eq!(q.get(chunk.tsn), m.get(chunk.tsn));
            assert_eq!((q.len(), q.is_empty()), (m.held.len(), m.held.is_empty()));
            assert_eq!(q.get_num_bytes(), m.held.iter().map(|h| usize::from(h.size)).sum::<usize>());
            assert_eq!(q.get_last_tsn_received(), m.held.last().map(|h| h.chunk.tsn));
            assert_eq!(q.contains_stream(4), m.held.iter().any(|h| h.chunk.stream_identifier == 4));
        }
    }
    assert!(seen.yes > 1_000 && seen.no > 1_000 && seen.full > 100 && seen.found > 100 && seen.short > 100, "{seen:?}");
    assert!(seen.opposite > 100 && seen.applied > 100 && seen.unchanged > 100, "{seen:?}");
}

/// The report into lists of so many places, which may be too few; what stands behind the blocks stays.
fn gap_report(q: &PayloadQueue, m: &Tsns, cumulative: u32, room: usize, seen: &mut Seen) {
    let (mut starts, mut ends) = (vec![7; room], vec![8; room]);
    let blocks = m.gap_ack_blocks(cumulative);
    let got = q.get_gap_ack_blocks(cumulative, &mut starts, &mut ends);
    let n = if blocks.len() > room { 0 } else { blocks.len() };
    assert_eq!(got, if blocks.len() > room { Err(Error::NoRoom) } else { Ok(n) });
    seen.short += u32::from(got.is_err());
    assert!(starts.iter().zip(&ends).take(n).eq(blocks.iter().take(n).map(|(s, e)| (s, e))));
    assert!(starts[n..].iter().all(|s| *s == 7) && ends[n..].iter().all(|e| *e == 8));
}

#[test]
fn reassembly() {
    let mut seen = Seen::default();
    for seed in 1..=60 {
        let mut r = Random(0xD134_2543_DE82_EF95u64.wrapping_mul(seed));
        let max = [40, 2_000, 72_000][seed as usize % 3];
        let mut base = [0, u32::MAX - 30, 1 << 31][seed as usize / 3 % 3];
        let (mut q, mut m) = (ReassemblyQueue::new(3, max), Stream::new(3, max));
        q.forward_tsn_for_ordered((base as u16).wrapping_sub(1));
        m.skip_ordered((base as u16).wrapping_sub(1));
        for _ in 0..2_000 {
            let chunk = r.chunk(base, [24, 400][seed as usize % 2]);
            match r.below(100) {
                0..75 => {
                    let most = if max > 2_000 { 2_500 } else { 30 };
                    let data: Vec<u8> = (0..r.below(most)).map(|_| r.next() as u8).collect();
                    let wanted = m.push(chunk, &data);
                    assert_eq!(q.push(&chunk, &data), wanted);
                    seen.count(wanted);
                }
                75..90 => take(&mut q, &mut m, &mut r, &mut seen),
                90..93 => {
                    q.forward_tsn_for_unordered(chunk.tsn);
                    m.skip_unordered(chunk.tsn);
                }
                93..95 => {
                    q.forward_tsn_for_ordered(chunk.stream_sequence_number);
                    m.skip_ordered(chunk.stream_sequence_number);
                }
                95..97 => {
                    let pair = |r: &mut Random| (2 + r.below(3) as u16, chunk.stream_sequence_number.wrapping_add(r.below(3) as u16));
                    let pairs: Vec<_> = (0..r.below(4)).map(|_| pair(&mut r)).collect();
                    let bytes: Vec<u8> = pairs.iter().flat_map(|p| [p.0.to_be_bytes(), p.1.to_be_bytes()].concat()).collect();
                    let cumulative = chunk.tsn.wrapping_add(r.below(8) as u32).wrapping_sub(6);
                    let held = (m.num_bytes(), m.next_ssn);
                    q.apply_forward_tsn(cumulative, chunk.tsn, ForwardTsnStreams(&bytes));
                    m.apply_forward_tsn(cumulative, chunk.tsn, &pairs);
                    seen.forward((m.num_bytes(), m.next_ssn) != held);
                }
                _ => base = base.wrapping_add(r.below(3) as u32),
            }
            assert_eq!((q.get_num_bytes(), q.is_readable()), (m.num_bytes(), m.is_readable()));
        }
    }
    assert!(seen.yes > 1_000 && seen.no > 1_000 && seen.full > 100 && seen.large > 100, "{seen:?}");
    assert!(seen.found > 1_000 && seen.short > 100, "{seen:?}");
    assert!(seen.applied > 100 && seen.unchanged > 100, "{seen:?}");
}

/// A take into a buffer that may be too short; then the message is read whole and in pieces.
fn take(q: &mut ReassemblyQueue, m: &mut Stream, r: &mut Random, seen: &mut Seen) {
    let mut buffer = vec![9; if r.often(70) { 72_000 } else { r.below(60) as usize }];
    let wanted = m.read(buffer.len());
    let mut got = match q.read(&mut buffer) {
        Ok(Some(got)) => got,
        Ok(None) => return assert_eq!(wanted, Ok(None)),
        Err(e) => {
            seen.short += 1;
            assert_eq!(wanted, Err(e));
            return assert!(buffer.iter().all(|b| *b == 9));
        }
    };
    let wanted = wanted.unwrap().unwrap();
    seen.found += 1;
    assert_eq!((got.ssn(), got.ppi(), got.len()), (wanted.ssn, wanted.ppi, wanted.bytes.len()));
    assert_eq!(got.is_empty(), wanted.bytes.is_empty());
    let mut out = vec![5; r.below(wanted.bytes.len() as u64 + 3) as usize];
    let n = out.len().min(got.len());
    assert_eq!(got.read(&mut out), if out.len() < got.len() { Err(Error::ShortBuffer) } else { Ok(n) });
    assert!(out[..n] == wanted.bytes[..n] && out[n..].iter().all(|b| *b == 5));
    let most = 1 + r.below(40) as usize;
    let mut pieces = Vec::new();
    while let Some(piece) = got.next(most) {
        pieces.push(piece);
    }
    assert_eq!(pieces.len(), wanted.bytes.len().div_ceil(most).max(1));
    assert!(pieces.iter().all(|p| p.len() <= most) && pieces.concat() == wanted.bytes);
    let held = wanted.bytes.len();
    assert!(buffer[held..].iter().all(|b| *b == 9));
}

#[test]
fn chunks_written_and_read() {
    let mut r = Random(0xC0FF_EE11);
    for _ in 0..3_000 {
        let base = r.next() as u32;
        let (chunk, user) = (r.chunk(base, 1 << 20), vec![r.next() as u8; r.below(200) as usize]);
        let mut out = vec![6; r.below(240) as usize];
        let written = chunk.marshal_to(&mut out, &user);
        if user.is_empty() || out.len() < 16 + user.len() {
            let refusal = if user.is_empty() { Error::NoUserData } else { Error::NoRoom };
            assert!(written == Err(refusal) && out.iter().all(|b| *b == 6));
            continue;
        }
        let n = written.unwrap();
        assert_eq!((n, usize::from(ChunkHeader::unmarshal(&out).unwrap().length)), (16 + user.len(), n));
        assert_eq!((ChunkPayloadData::unmarshal(&out), ChunkPayloadData::user_data(&out)), (Ok(chunk), Ok(&user[..])));
        assert!(out[n..].iter().all(|b| *b == 6));
        let (a, b) = (vec![r.next() as u16; r.below(20) as usize], r.next() as u32);
        let dups = vec![b; r.below(9) as usize];
        let mut out = vec![6; 16 + 4 * (a.len() + dups.len())];
        assert_eq!(ChunkSelectiveAck::marshal_to(&mut out, base, b, &a, &a, &dups), Ok(out.len()));
        let s = ChunkSelectiveAck::unmarshal(&out).unwrap();
        assert_eq!((s.cumulative_tsn_ack, s.advertised_receiver_window_credit), (base, b));
        assert_eq!((usize::from(s.gap_ack_blocks), usize::from(s.duplicate_tsns)), (a.len(), dups.len()));
        assert!(ChunkSelectiveAck::gap_ack_blocks(&out).unwrap().iter().map(|b| b.end).eq(a.iter().copied()));
        assert!(ChunkSelectiveAck::duplicate_tsns(&out).unwrap().iter().eq(dups));
        let mut out = vec![6; 8 + 4 * a.len()];
        assert_eq!(ChunkForwardTsn::marshal_to(&mut out, base, &a, &a), Ok(out.len()));
        let f = ChunkForwardTsn::unmarshal(&out).unwrap();
        assert_eq!((f.new_cumulative_tsn, usize::from(f.streams)), (base, a.len()));
        assert!(ChunkForwardTsn::streams(&out).unwrap().iter().map(|p| p.sequence).eq(a));
    }
}

/// Any bytes: a reader answers as the documents say of their first fields, by hand.
#[test]
fn any_bytes() {
    let mut r = Random(0xBADD_CAFE);
    let mut accepted = [0, 0, 0];
    for _ in 0..100_000 {
        let mut raw: Vec<u8> = (0..r.below(40)).map(|_| r.next() as u8).collect();
        for (i, small) in [(0, 4), (2, 1), (3, 48), (12, 1), (13, 3), (14, 1), (15, 3)] {
            if let (Some(b), true) = (raw.get_mut(i), r.often(90)) {
                *b = r.below(small) as u8;
            }
        }
        if let (Some(b), true) = (raw.first_mut(), r.often(30)) {
            *b = 192;
        }
        let at = |i: usize| usize::from(raw[i]) * 256 + usize::from(raw[i + 1]);
        let wanted = |typ: u8| match raw.len() {
            0..4 => Err(Error::NoHeader),
            _ if at(2) < 4 || at(2) > raw.len() => Err(Error::BadLength),
            _ if raw[0] != typ => Err(Error::ChunkTypeNotAskedFor),
            _ if typ == 0 && at(2) < 16 => Err(Error::ChunkPayloadSmall),
            _ if typ == 0 && at(2) == 16 => Err(Error::NoUserData),
            _ if typ == 3 && (at(2) < 16 || at(2) < 16 + 4 * at(12) + 4 * at(14)) => Err(Error::SackTooSmall),
            _ if typ == 192 && (at(2) < 8 || at(2) % 4 != 0) => Err(Error::ChunkTooShort),
            _ => Ok(at(2)),
        };
        assert_eq!(ChunkPayloadData::user_data(&raw).map(|d| d.len() + 16), wanted(0));
        assert_eq!(ChunkPayloadData::unmarshal(&raw).map(|_| ()), wanted(0).map(|_| ()));
        assert_eq!(ChunkSelectiveAck::unmarshal(&raw).map(|_| ()), wanted(3).map(|_| ()));
        assert_eq!(ChunkForwardTsn::unmarshal(&raw).map(|f| 4 * usize::from(f.streams) + 8), wanted(192));
        assert_eq!(ChunkForwardTsn::streams(&raw).map(|p| p.0.len() + 8), wanted(192));
        for (n, typ) in accepted.iter_mut().zip([0, 3, 192]) {
            *n += u32::from(wanted(typ).is_ok());
        }
    }
    assert!(accepted.iter().all(|n| *n > 500), "{accepted:?}");
}
