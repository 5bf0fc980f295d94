//! Calls on which the Rust's sort panics, since its comparison is no total order where what is held goes all the way round.
//!
//! With Rust 1.95 the sort was seen to notice it from 21 elements on, and never below. A push leaves every neighbour in order with the next, and
//! the sort then has nothing to notice; so one between two others must go first, which only a skip does: 22 pushes and the skip that drops one of them.
//! In reassembly another skip comes before it, to move the expected SSN on: what is let in from one expected SSN does not go all the way round.
mod common;
use calls::{B, Call, E, U};
use common::*;
use oracle::Oracle;

const PANIC: &str = "panic user-provided comparison function does not correctly implement a total order";

/// 18 SSNs, one unfinished, two that are before those 18, and one that is before the first of the two.
fn ordered() -> Vec<Call> {
    let mut list: Vec<Call> = (0..18).map(|ssn| push(B | E, 2 * ssn as u32, ssn, 0)).collect();
    list.push(Call::RqForwardOrdered { ssn: 20_000 });
    list.extend([push(B, 40, 30_000, 0), push(B | E, 42, 40_000, 0), push(B | E, 44, 50_000, 0)]);
    list.push(Call::RqForwardOrdered { ssn: 45_000 });
    list.push(push(B | E, 46, 9_464, 0));
    list
}

/// The same with TSNs; the cumulative TSN moves on from 0 to 2 and 4 thousand million.
fn tsns() -> Vec<Call> {
    let mut list: Vec<Call> = (1..=18).map(|tsn| queued(tsn, 0)).collect();
    list.extend([queued(1_000_000_000, 0), queued(3_000_000_000, 2_000_000_000), queued(4_000_000_000, 2_000_000_000)]);
    list.push(Call::PqPopUpTo { tsn: 2_500_000_000 });
    list.push(queued(1_205_032_704, 4_000_000_000));
    list
}

fn answers(list: &[Call]) -> Vec<String> {
    let mut oracle = Oracle::new();
    list.iter().map(|call| answer(&mut oracle, call)).collect()
}

/// The last call panics, the others do not, and without any one of them none does.
fn smallest(list: &[Call]) {
    let (last, others) = answers(list).split_last().map(|(l, o)| (l.clone(), o.to_vec())).unwrap();
    assert_eq!(last, PANIC);
    assert!(others.iter().all(|line| ["yes", "no", "done"].contains(&line.as_str())), "{others:?}");
    for i in 0..list.len() {
        let fewer = [&list[..i], &list[i + 1..]].concat();
        assert!(!answers(&fewer).contains(&PANIC.to_string()), "without call {}", i + 1);
    }
}

#[test]
fn twenty_two_ordered_pushes_and_two_skips() {
    let list = ordered();
    assert_eq!(list.len(), 24);
    smallest(&list);
}

#[test]
fn twenty_two_pushes_onto_the_tsn_queue_and_a_pop() {
    let list = tsns();
    assert_eq!(list.len(), 23);
    smallest(&list);
}

#[test]
fn a_fresh_queue_takes_the_place_of_one_that_panicked() {
    let mut list = vec![Call::RqNew { stream: 0, maximum: 99 }];
    list.extend(ordered());
    list.extend(tsns());
    list.extend([Call::RqState {}, Call::PqState {}]);
    assert_eq!(answers(&list)[list.len() - 2..], ["queue 0 0 99 0", "held 0 0"]);
}

/// Unordered fragments are sorted with their Bytes, which have an atomic in them, and of such the sort was never seen to notice it: a message
/// finished in the middle leaves the same disorder, and the push after it is answered.
#[test]
fn unordered_fragments_do_not_panic() {
    let mut list: Vec<Call> = (1..=18).map(|tsn| push(U, tsn, 0, 0)).collect();
    list.push(push(U | B, 1_000_000_000, 0, 0));
    list.extend([3_000_000_000, 3_100_000_000].map(|tsn| push(U, tsn, 0, 0)));
    list.push(push(U | E, 1_000_000_001, 0, 0));
    list.push(push(U, 905_032_704, 0, 0));
    let lines = answers(&list);
    assert_eq!(lines[..21], ["no"; 21]);
    assert_eq!(lines[21..], ["yes", "no"]);
}
