//! Refusal 0: every call on a queue or message whose numbers contradict what is lent beside it answers 0, gives 0 and false, and changes nothing. The
//! queues of this crate cannot come to such numbers, so the calls are made through `ffi`.
use crate::ChunkPayloadData;
use crate::ffi::{self, BYTES, FRAGMENT_WORDS, FRAGMENTS, Hand, LOG, Numbers, TSN_WORDS, TSNS};
use std::vec;

type Tsns = (usize, usize, usize, [u32; LOG], [u32; TSN_WORDS]);

/// Too many TSNs, too many logged duplicates, bytes that nothing held has.
const UNSOUND: [(usize, usize, usize); 3] = [(TSNS + 1, 0, 0), (0, 0, LOG + 1), (0, 1, 0)];

fn tsns((count, bytes, dups): (usize, usize, usize)) -> Tsns {
    (count, bytes, dups, [7; LOG], [0; TSN_WORDS])
}

#[test]
fn tsn_calls_that_look() {
    for counts in UNSOUND {
        let (c, b, d, log, table) = &tsns(counts);
        let (mut is, mut n, mut tsn) = (true, 9, 9);
        assert_eq!(ffi::sctp_receive_payload_queue_can_push(*c, *b, *d, log, table, 1, 0, &mut is), 0);
        assert!(!core::mem::replace(&mut is, true));
        assert_eq!(ffi::sctp_receive_payload_queue_is_empty(*c, *b, *d, log, table, &mut is), 0);
        assert!(!core::mem::replace(&mut is, true));
        assert_eq!(ffi::sctp_receive_payload_queue_contains_stream(*c, *b, *d, log, table, 0, &mut is), 0);
        assert!(!core::mem::replace(&mut is, true));
        assert_eq!(ffi::sctp_receive_payload_queue_len(*c, *b, *d, log, table, &mut n), 0);
        assert_eq!(core::mem::replace(&mut n, 9), 0);
        assert_eq!(ffi::sctp_receive_payload_queue_get_num_bytes(*c, *b, *d, log, table, &mut n), 0);
        assert_eq!(core::mem::replace(&mut n, 9), 0);
        assert_eq!(ffi::sctp_receive_payload_queue_get_last_tsn_received(*c, *b, *d, log, table, &mut is, &mut tsn), 0);
        assert_eq!((core::mem::replace(&mut is, true), tsn), (false, 0));
        let (mut starts, mut ends) = ([5; 300], [6; 300]);
        assert_eq!(ffi::payload_queue_get_gap_ack_blocks(counts, log, table, 0, &mut starts, &mut ends, &mut n), 0);
        assert_eq!((n, starts, ends), (0, [5; 300], [6; 300]));
    }
}

#[test]
fn tsn_calls_that_find() {
    for counts in UNSOUND {
        let mut q = tsns(counts);
        let before = q;
        for take in [false, true] {
            let (mut found, mut u, mut b, mut e, mut i) = (true, true, true, true, true);
            let (mut tsn, mut stream, mut ssn, mut ppi, mut size) = (9, 9, 9, 9, 9);
            let result = if take {
                ffi::sctp_receive_payload_queue_pop(
                    &mut q.0,
                    &mut q.1,
                    &mut q.2,
                    &mut q.3,
                    &mut q.4,
                    0,
                    &mut found,
                    &mut u,
                    &mut b,
                    &mut e,
                    &mut i,
                    &mut tsn,
                    &mut stream,
                    &mut ssn,
                    &mut ppi,
                    &mut size,
                )
            } else {
                ffi::sctp_receive_payload_queue_get(
                    q.0,
                    q.1,
                    q.2,
                    &q.3,
                    &q.4,
                    0,
                    &mut found,
                    &mut u,
                    &mut b,
                    &mut e,
                    &mut i,
                    &mut tsn,
                    &mut stream,
                    &mut ssn,
                    &mut ppi,
                    &mut size,
                )
            };
            assert_eq!((result, found, u, b, e, i, tsn, stream, ssn, ppi, size), (0, false, false, false, false, false, 0, 0, 0, 0, 0));
            assert!(q == before);
        }
    }
}

#[test]
fn tsn_calls_that_change() {
    for counts in UNSOUND {
        let mut q = tsns(counts);
        let before = q;
        let (mut is, mut n, mut out) = (true, 9, [9; LOG]);
        let result = ffi::sctp_receive_payload_queue_push(
            &mut q.0, &mut q.1, &mut q.2, &mut q.3, &mut q.4, false, true, true, false, 1, 0, 0, 51, 4, 0, &mut is,
        );
        assert_eq!((result, is), (0, false));
        assert_eq!(ffi::sctp_receive_payload_queue_pop_up_to(&mut q.0, &mut q.1, &mut q.2, &mut q.3, &mut q.4, 1), 0);
        assert_eq!(ffi::sctp_receive_forward_tsn_apply_to_tsns(&mut q.0, &mut q.1, &mut q.2, &mut q.3, &mut q.4, 0, 1), 0);
        let result = ffi::sctp_receive_payload_queue_pop_duplicates(&mut q.0, &mut q.1, &mut q.2, &mut q.3, &q.4, &mut n, &mut out);
        assert_eq!((result, n, out), (0, 0, [0; LOG]));
        assert!(q == before);
    }
}

#[test]
fn reassembly_calls() {
    let many = Numbers { finished: 60, unordered: 60, ordered: FRAGMENTS - 119, ..Numbers::default() };
    let bytes = Numbers { n_bytes: 1, ..Numbers::default() };
    for (numbers, room) in [(many, BYTES), (bytes, BYTES), (Numbers::default(), BYTES - 1)] {
        let (mut q, mut table, mut pool) = (numbers.clone(), [3; FRAGMENT_WORDS], vec![4; room]);
        let (mut is, mut n, mut found, mut buffer, chunk) = (true, 9, true, [8; 16], ChunkPayloadData::default());
        let mut hand = Hand { ssn: 9, ppi: 9, bytes: 9, position: 9, given: true };
        assert_eq!(ffi::reassembly_queue_push(&mut q, &mut table, &mut pool, &chunk, b"abc", &mut is), 0);
        assert!(!core::mem::replace(&mut is, true));
        assert_eq!(ffi::reassembly_queue_is_readable(&q, &table, &pool, &mut is), 0);
        assert!(!is);
        assert_eq!(ffi::reassembly_queue_read(&mut q, &mut table, &mut pool, &mut buffer, &mut found, &mut hand), 0);
        assert_eq!((found, hand, buffer), (false, Hand::default(), [8; 16]));
        assert_eq!(ffi::reassembly_queue_forward_tsn_for_ordered(&mut q, &mut table, &mut pool, 5), 0);
        assert_eq!(ffi::reassembly_queue_forward_tsn_for_unordered(&mut q, &mut table, &mut pool, 5), 0);
        assert_eq!(ffi::reassembly_queue_forward_tsn_for_ordered_bounded(&mut q, &mut table, &mut pool, (5, 5)), 0);
        let mut ssn = 9;
        found = true;
        let applicable =
            ffi::reassembly_queue_applicable_forward_tsn_for_ordered_bounded(&q, &table, &pool, (5, 5, 5), &mut found, &mut ssn);
        assert_eq!((applicable, found, ssn), (0, false, 0));
        assert_eq!(ffi::forward_tsn::apply_to_stream(&mut q, &mut table, &mut pool, (4, 5), &[0, 0, 0, 9]), 0);
        assert_eq!(ffi::reassembly_queue_get_num_bytes(&q, &table, &pool, &mut n), 0);
        assert_eq!(n, 0);
        assert!(q == numbers && table == [3; FRAGMENT_WORDS] && pool == vec![4; room]);
    }
}

#[test]
fn message_calls() {
    let long = Hand { bytes: 9, ..Hand::default() };
    let past = Hand { bytes: 3, position: 4, ..Hand::default() };
    for hand in [long, past] {
        let (mut m, buffer, mut out) = (hand.clone(), [1; 8], [2; 16]);
        let (mut n, mut is, mut found, mut start, mut size) = (9, true, true, 9, 9);
        assert_eq!(ffi::hand::len(&m, &buffer, &mut n), 0);
        assert_eq!(core::mem::replace(&mut n, 9), 0);
        assert_eq!(ffi::hand::is_empty(&m, &buffer, &mut is), 0);
        assert!(!is);
        assert_eq!(ffi::hand::read(&m, &buffer, &mut out, &mut n), 0);
        assert_eq!((n, out), (0, [2; 16]));
        assert_eq!(ffi::hand::next(&mut m, &buffer, 4, &mut found, &mut start, &mut size), 0);
        assert_eq!((found, start, size, m), (false, 0, 0, hand));
    }
}
