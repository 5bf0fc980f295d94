//! The in-flight queue from Rust: document 02's sentences, and random calls against a list of records.
use sctp_receive::{ChunkPayloadData, Error, InFlightQueue, Queued, Sent, TSNS};

fn chunk(tsn: u32) -> ChunkPayloadData {
    ChunkPayloadData { tsn, beginning_fragment: true, stream_identifier: 3, payload_type: 51, ..Default::default() }
}

fn sent(tsn: u32, size: u16, message_id: u64) -> Sent {
    Sent { queued: Queued { chunk: chunk(tsn), size }, message_id, ..Default::default() }
}

#[test]
fn acknowledging_twice_releases_bytes_once() {
    let mut q = InFlightQueue::new();
    q.push_no_check(&chunk(10), 100, 1).unwrap();
    q.mark_all_to_retransmit();
    assert_eq!(q.get(10), Some(Sent { retransmit: true, ..sent(10, 100, 1) }));
    assert_eq!((q.mark_as_acked(10), q.mark_as_acked(10), q.mark_as_acked(11)), (100, 0, 0));
    assert_eq!((q.get_num_bytes(), q.len()), (0, 1));
    q.mark_all_to_retransmit();
    assert_eq!(q.pop(10), Some(Sent { acked: true, ..sent(10, 0, 1) }));
    assert!(q.is_empty());
}

#[test]
fn a_message_is_abandoned_with_all_its_chunks() {
    let mut q = InFlightQueue::new();
    for (tsn, size, message) in [(u32::MAX, 1, u64::MAX), (0, 2, 7), (1, 4, u64::MAX), (2, 8, u64::MAX - 1)] {
        q.push_no_check(&chunk(tsn), size, message).unwrap();
    }
    assert_eq!((q.abandon_message(u64::MAX), q.abandon_message(u64::MAX), q.abandon_message(1)), (5, 0, 0));
    assert_eq!(q.get(1), Some(Sent { abandoned: true, ..sent(1, 0, u64::MAX) }));
    assert_eq!((q.get(0), q.get_num_bytes()), (Some(sent(0, 2, 7)), 10));
    q.pop_up_to(0);
    assert_eq!((q.len(), q.get_num_bytes(), q.get(2)), (2, 8, Some(sent(2, 8, u64::MAX - 1))));
}

#[test]
fn a_held_tsn_is_18_also_in_a_full_table() {
    let mut q = InFlightQueue::new();
    for tsn in 0..TSNS as u32 {
        q.push_no_check(&chunk(tsn), 1, tsn.into()).unwrap();
    }
    assert_eq!(q.push_no_check(&chunk(5), 9, 9), Err(Error::InFlight));
    assert_eq!(q.push_no_check(&chunk(TSNS as u32), 9, 9), Err(Error::Full));
    assert_eq!((q.len(), q.get_num_bytes(), q.get(5)), (TSNS, TSNS, Some(sent(5, 1, 5))));
}

/// Numbers from a seed (xorshift).
struct Random(u64);

impl Random {
    fn below(&mut self, n: u64) -> u64 {
        self.0 ^= self.0 << 13;
        self.0 ^= self.0 >> 7;
        self.0 ^= self.0 << 17;
        self.0 % n
    }
}

/// Records in the order of their TSNs, on an arc that begins at `BASE`.
const BASE: u32 = u32::MAX - 20;

fn ahead(tsn: u32) -> u32 {
    tsn.wrapping_sub(BASE)
}

fn bytes(held: &[Sent]) -> usize {
    held.iter().map(|s| usize::from(s.queued.size)).sum()
}

fn release(s: &mut Sent) -> usize {
    s.retransmit = false;
    usize::from(core::mem::take(&mut s.queued.size))
}

#[test]
fn random_calls_as_on_a_list() {
    for seed in 1..40 {
        let (mut random, mut q, mut held) = (Random(seed), InFlightQueue::new(), Vec::<Sent>::new());
        for _ in 0..400 {
            let tsn = BASE.wrapping_add(random.below(48) as u32);
            let message = random.below(6);
            match random.below(10) {
                0..4 => {
                    let new = sent(tsn, random.below(65_536) as u16, message);
                    let done = q.push_no_check(&new.queued.chunk, new.queued.size, message);
                    if held.iter().any(|s| s.queued.chunk.tsn == tsn) {
                        assert_eq!(done, Err(Error::InFlight));
                    } else {
                        assert_eq!(done, Ok(()));
                        let at = held.partition_point(|s| ahead(s.queued.chunk.tsn) < ahead(tsn));
                        held.insert(at, new);
                    }
                }
                4 | 5 => {
                    let released = held.iter_mut().find(|s| s.queued.chunk.tsn == tsn).map_or(0, |s| {
                        s.acked = true;
                        release(s)
                    });
                    assert_eq!(q.mark_as_acked(tsn), released);
                }
                6 => {
                    q.mark_all_to_retransmit();
                    held.iter_mut().filter(|s| !s.acked && !s.abandoned).for_each(|s| s.retransmit = true);
                }
                7 => {
                    let mut released = 0;
                    for s in held.iter_mut().filter(|s| s.message_id == message) {
                        s.abandoned = true;
                        released += release(s);
                    }
                    assert_eq!(q.abandon_message(message), released);
                }
                8 => {
                    let first = held.first().is_some_and(|s| s.queued.chunk.tsn == tsn).then(|| held.remove(0));
                    assert_eq!(q.pop(tsn), first);
                }
                _ if random.below(8) == 0 => {
                    q.pop_up_to(tsn);
                    held.retain(|s| ahead(s.queued.chunk.tsn) > ahead(tsn));
                }
                _ => assert_eq!(q.get(tsn), held.iter().find(|s| s.queued.chunk.tsn == tsn).copied()),
            }
            assert_eq!((q.len(), q.get_num_bytes(), q.is_empty()), (held.len(), bytes(&held), held.is_empty()));
        }
        for s in held {
            assert_eq!(q.pop(s.queued.chunk.tsn), Some(s));
        }
    }
}
