//! What the Rust itself does in a few places that may surprise, each by a short schedule.

mod common;

use common::*;
use oracle_paused::{Call, Ending, Oracle, Report};

/// Takes two counting calls through the same round again and again: no step of it ends a call.
fn put_off(oracle: &mut Oracle, rounds: u64) {
    let before = oracle.word();
    for _ in 0..rounds {
        for (record, count) in [(0, 1), (1, 4), (0, 3)] {
            steps(oracle, record, count);
        }
    }
    assert_eq!(oracle.word(), before + 2 * rounds);
}

#[test]
fn two_counts_put_each_other_off_for_ever_after_one_more_bump() {
    let mut oracle = Oracle::robust(1);
    start(&mut oracle, 1, request(Call::Borrowed));
    start(&mut oracle, 0, request(Call::Borrowed));
    steps(&mut oracle, 1, 1);
    start(&mut oracle, 2, request(Call::Borrowed));
    assert_eq!(finish(&mut oracle, 2), (done(0), 4));
    put_off(&mut oracle, 100_000);
    assert_eq!(finish(&mut oracle, 0).0, done(0));
}

/// Without any other bump the first of two counts to bump ends.
#[test]
fn of_two_counts_alone_one_ends() {
    let mut oracle = Oracle::robust(1);
    for record in [0, 1] {
        start(&mut oracle, record, request(Call::Borrowed));
        steps(&mut oracle, record, 3);
    }
    assert_eq!(finish(&mut oracle, 0), (done(0), 1));
}

#[test]
fn a_locking_release_and_a_count_put_each_other_off_for_ever() {
    let mut oracle = Oracle::robust(1);
    whole(&mut oracle, 0, acquire(7));
    start(&mut oracle, 1, request(Call::Borrowed));
    steps(&mut oracle, 1, 1);
    start(&mut oracle, 0, release(0, 7, 1));
    steps(&mut oracle, 0, 4);
    put_off(&mut oracle, 100_000);
    assert_eq!(finish(&mut oracle, 0), (done(1), 5));
    assert_eq!(finish(&mut oracle, 1), (done(0), 3));
}

#[test]
fn two_locking_releases_put_each_other_off_for_ever() {
    let mut oracle = Oracle::robust(2);
    for (record, owner) in [(0, 7), (1, 8)] {
        whole(&mut oracle, record, acquire(owner));
    }
    start(&mut oracle, 1, release(1, 8, 1));
    steps(&mut oracle, 1, 3 + 1 + 1);
    start(&mut oracle, 0, release(0, 7, 1));
    steps(&mut oracle, 0, 3 + 1);
    let before = oracle.word();
    for _ in 0..100_000 {
        for (record, count) in [(0, 1), (1, 5), (0, 4)] {
            steps(&mut oracle, record, count);
        }
    }
    assert_eq!(oracle.word(), before + 200_000);
    assert_eq!(oracle.cells(), [EMPTY, EMPTY]);
}

#[test]
fn an_index_is_granted_twice_after_65536_changes() {
    let mut oracle = Oracle::plain(3);
    for _ in 0..3 {
        whole(&mut oracle, 1, acquire(0));
    }
    whole(&mut oracle, 1, release(1, 0, 0));
    whole(&mut oracle, 1, release(0, 0, 0));
    start(&mut oracle, 0, acquire(0));
    steps(&mut oracle, 0, 2);
    let seen = oracle.word();
    assert_eq!(whole(&mut oracle, 1, acquire(0)).0, done(0));
    assert_eq!(whole(&mut oracle, 1, acquire(0)).0, done(1));
    whole(&mut oracle, 1, release(2, 0, 0));
    whole(&mut oracle, 1, release(0, 0, 0));
    for _ in 0..32_766 {
        whole(&mut oracle, 1, acquire(0));
        whole(&mut oracle, 1, release(0, 0, 0));
    }
    assert_eq!(oracle.word(), seen);
    assert_eq!(finish(&mut oracle, 0), (done(0), 2));
    assert_eq!(whole(&mut oracle, 2, acquire(0)).0, done(1));
}

/// R5, at its end: locked, and cell 1 still says 8.
fn locked_with_a_cell_populated() -> Oracle {
    let mut oracle = Oracle::robust(2);
    whole(&mut oracle, 0, acquire(7));
    start(&mut oracle, 1, acquire(8));
    steps(&mut oracle, 1, 2);
    start(&mut oracle, 0, release(0, 7, 1));
    steps(&mut oracle, 0, 9);
    steps(&mut oracle, 1, 1);
    assert_eq!(finish(&mut oracle, 0).0, done(1));
    assert_eq!(finish(&mut oracle, 1).0, failed(2));
    assert_eq!(oracle.cells(), [EMPTY, 8]);
    oracle
}

#[test]
fn a_locked_set_recovers_nothing() {
    let mut oracle = locked_with_a_cell_populated();
    let borrowed = whole(&mut oracle, 0, request(Call::Borrowed));
    assert_eq!(borrowed, (done(0), 1));
    let mut find = acquire(8);
    find.call = Call::Find;
    find.index_or_room = 9;
    assert_eq!(whole(&mut oracle, 0, find).0, done(1));
    assert_eq!(whole(&mut oracle, 0, recover(&[8], 1)), (done(1), 1));
    assert_eq!(oracle.cells(), [EMPTY, 8]);
    assert_eq!(whole(&mut oracle, 0, release(1, 8, 0)), (done(0), 2));
    assert_eq!(oracle.cells(), [EMPTY, EMPTY]);
}

#[test]
fn a_recover_that_finds_the_set_locked_at_its_bump_ends_before_the_other_cells() {
    let mut oracle = Oracle::robust(2);
    oracle.poke_word(u64::MAX - 1);
    oracle.cells_mut().copy_from_slice(&[7, 7]);
    start(&mut oracle, 0, recover(&[7], 0));
    steps(&mut oracle, 0, 2);
    let freed = oracle.step(0);
    assert_eq!(freed.report, Some(Report::Freed { index: 0, owner: 7 }));
    assert_eq!(finish(&mut oracle, 0), (done(1), 2));
    assert_eq!(oracle.cells(), [EMPTY, 7]);
}

/// With overflow checks, which this package has unless they are put off from outside, it panics there, after it has written the
/// slot; without them it locks the set.
#[test]
fn a_release_that_finds_nothing_borrowed() {
    let checked = option_env!("CARGO_PROFILE_RELEASE_OVERFLOW_CHECKS") != Some("false");
    let mut oracle = Oracle::plain(3);
    start(&mut oracle, 0, release(2, 0, 0));
    steps(&mut oracle, 0, 1);
    let written = oracle.step(0);
    assert_eq!(oracle.slots(), [1, 2, 0, 4]);
    assert_eq!(written.ending == Some(Ending::Panic), checked);
    if checked {
        assert_eq!(oracle.word(), 0);
        return;
    }
    assert_eq!(finish(&mut oracle, 0), (done(0), 1));
    assert_eq!(oracle.word(), 0x0000_0200_01FF_FFFF);
    assert_eq!(whole(&mut oracle, 0, request(Call::Locked)).0, done(1));
}

/// It opens the set: borrowed is 16,777,214 from then on.
#[test]
fn a_release_that_finds_the_set_locked() {
    let mut oracle = Oracle::plain(3);
    oracle.poke_word(0x0000_0000_00FF_FFFF);
    assert_eq!(whole(&mut oracle, 0, release(2, 0, 0)), (done(0), 3));
    assert_eq!(oracle.word(), 0x0000_0200_01FF_FFFE);
    assert_eq!(whole(&mut oracle, 0, request(Call::Locked)).0, done(0));
    assert_eq!(whole(&mut oracle, 0, acquire(0)).0, done(2));
    assert_eq!(whole(&mut oracle, 0, request(Call::Locked)).0, done(1));
}

#[test]
fn an_acquire_that_makes_borrowed_the_mark_locks() {
    let mut oracle = Oracle::plain(3);
    oracle.poke_word(0x0000_0000_00FF_FFFE);
    assert_eq!(whole(&mut oracle, 0, acquire(0)), (done(0), 4));
    assert_eq!(whole(&mut oracle, 0, request(Call::Locked)).0, done(1));
    assert_eq!(whole(&mut oracle, 0, request(Call::Borrowed)).0, done(0));
}

#[test]
fn a_call_that_dies_between_exchange_and_write_takes_its_index_along() {
    let mut oracle = Oracle::plain(1);
    start(&mut oracle, 0, acquire(0));
    steps(&mut oracle, 0, 3);
    oracle.abandon(0);
    assert_eq!(whole(&mut oracle, 1, acquire(0)), (failed(1), 1));
    assert_eq!(whole(&mut oracle, 1, request(Call::Borrowed)).0, done(1));
}

/// Beyond the capacity that its debug assertion allows, the last index granted is the lock's mark.
#[test]
fn the_capacity_that_is_asserted_only_in_debug_builds() {
    if cfg!(debug_assertions) {
        return;
    }
    let mut oracle = Oracle::plain(16_777_215);
    oracle.poke_word(0x00FF_FFFE_0000_0000 << 8 | 0x00FF_FFFE);
    assert_eq!(whole(&mut oracle, 0, acquire(0)), (done(16_777_214), 4));
    assert_eq!(whole(&mut oracle, 0, request(Call::Locked)).0, done(1));
}

/// A count uses a generation up; the last one locks, whoever holds an index.
#[test]
fn a_query_at_the_last_generation_locks() {
    let mut oracle = Oracle::robust(1);
    whole(&mut oracle, 0, acquire(7));
    oracle.poke_word(u64::MAX - 1);
    let borrowed = whole(&mut oracle, 1, request(Call::Borrowed));
    assert_eq!((borrowed, oracle.word()), ((done(1), 4), u64::MAX));
    assert_eq!(oracle.cells(), [7]);
    assert_eq!(whole(&mut oracle, 1, request(Call::Borrowed)).0, done(0));
}

/// R6: at each moment a cell is empty, and the next acquire finds it.
#[test]
fn out_of_indices_though_never_full() {
    let mut oracle = Oracle::robust(2);
    whole(&mut oracle, 0, acquire(7));
    start(&mut oracle, 1, acquire(8));
    steps(&mut oracle, 1, 2);
    start(&mut oracle, 2, acquire(9));
    steps(&mut oracle, 2, 2);
    start(&mut oracle, 0, release(0, 7, 0));
    steps(&mut oracle, 0, 1);
    steps(&mut oracle, 2, 1);
    assert_eq!(oracle.cells(), [EMPTY, 9]);
    assert_eq!(finish(&mut oracle, 1), (failed(1), 2));
    assert_eq!(whole(&mut oracle, 1, acquire(8)).0, done(0));
}
