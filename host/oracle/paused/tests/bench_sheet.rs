//! The scope's bench sheet by the oracle alone.

mod common;

use common::*;
use oracle_paused::{Access, Call, Ending, Moved, Oracle};

#[test]
fn p1_p2_p4() {
    let mut oracle = Oracle::plain(3);
    assert_eq!(
        (oracle.word(), oracle.slots()),
        (0, [1, 2, 3, 4].as_slice())
    );
    assert_eq!(whole(&mut oracle, 0, acquire(0)), (done(0), 4));
    assert_eq!(oracle.word(), 0x0000_0100_0100_0001);
    assert_eq!(oracle.slots(), [4, 2, 3, 4]);
    assert_eq!(whole(&mut oracle, 0, release(0, 0, 1)), (done(1), 3));
    assert_eq!(oracle.word(), 0x0000_0000_02FF_FFFF);
    assert_eq!(whole(&mut oracle, 0, acquire(0)), (failed(2), 1));
    assert_eq!(whole(&mut oracle, 0, request(Call::Borrowed)), (done(0), 1));
    assert_eq!(whole(&mut oracle, 0, request(Call::Locked)), (done(1), 1));
}

#[test]
fn p5() {
    let mut oracle = Oracle::plain(1);
    assert_eq!(whole(&mut oracle, 0, acquire(0)), (done(0), 4));
    assert_eq!(whole(&mut oracle, 0, acquire(0)), (failed(1), 1));
    assert_eq!(oracle.slots(), [2, 2]);
}

#[test]
fn p6() {
    let mut oracle = Oracle::plain(3);
    oracle.poke_word(0x0000_00FF_FF00_0000);
    whole(&mut oracle, 0, acquire(0));
    assert_eq!(oracle.word(), 0x0000_0100_0000_0001);
}

#[test]
fn p8() {
    let mut oracle = Oracle::plain(2);
    start(&mut oracle, 0, acquire(0));
    steps(&mut oracle, 0, 2);
    assert_eq!(whole(&mut oracle, 1, acquire(0)), (done(0), 4));
    let lost = oracle.step(0);
    assert_eq!((lost.won, lost.ending), (Some(false), None));
    assert_eq!(finish(&mut oracle, 0), (done(1), 3));
    assert_eq!(oracle.word(), 0x0000_0200_0200_0002);
    assert_eq!(oracle.slots(), [3, 3, 3]);
}

#[test]
fn one_access_in_each_step() {
    let mut oracle = Oracle::plain(3);
    start(&mut oracle, 0, acquire(0));
    let mut accesses = Vec::new();
    while let Some(access) = oracle.pending(0) {
        accesses.push(access);
        assert_eq!(oracle.step(0).access, access);
    }
    let exchange = Access::ExchangeWord {
        expected: 0,
        new: 0x0000_0100_0100_0001,
    };
    let slot = Access::Slot { index: 0 };
    assert_eq!(accesses, [Access::LookWord, slot, exchange, slot]);
}

#[test]
fn r1_r2() {
    let mut oracle = Oracle::robust(2);
    assert_eq!(whole(&mut oracle, 0, acquire(313)), (done(0), 4));
    assert_eq!(oracle.word(), 1);
    assert_eq!(whole(&mut oracle, 0, release(0, 314, 0)), (failed(6), 1));
    assert_eq!(
        (oracle.word(), oracle.cells()),
        (1, [313, EMPTY].as_slice())
    );
}

#[test]
fn r3() {
    let mut oracle = Oracle::robust(1);
    whole(&mut oracle, 0, acquire(7));
    assert_eq!(whole(&mut oracle, 0, release(0, 7, 1)), (done(1), 9));
    assert_eq!(oracle.word(), u64::MAX);
}

#[test]
fn r5() {
    let mut oracle = Oracle::robust(2);
    whole(&mut oracle, 0, acquire(7));
    start(&mut oracle, 1, acquire(8));
    steps(&mut oracle, 1, 2);
    start(&mut oracle, 0, release(0, 7, 1));
    steps(&mut oracle, 0, 3 + 1 + 5);
    steps(&mut oracle, 1, 1);
    assert_eq!(oracle.cells(), [EMPTY, 8]);
    assert_eq!(finish(&mut oracle, 0), (done(1), 1));
    assert_eq!(finish(&mut oracle, 1), (failed(2), 1));
    assert_eq!(oracle.cells(), [EMPTY, 8]);
    assert_eq!(whole(&mut oracle, 1, release(1, 8, 0)).0, done(0));
    assert_eq!(oracle.word(), u64::MAX);
}

#[test]
fn r6() {
    let mut oracle = Oracle::robust(2);
    whole(&mut oracle, 0, acquire(7));
    for (record, owner) in [(1, 8), (2, 9)] {
        start(&mut oracle, record, acquire(owner));
        steps(&mut oracle, record, 2);
    }
    start(&mut oracle, 0, release(0, 7, 0));
    steps(&mut oracle, 0, 1);
    let Moved { won, .. } = oracle.step(2);
    assert_eq!((won, oracle.cells()), (Some(true), [EMPTY, 9].as_slice()));
    assert_eq!(finish(&mut oracle, 1), (failed(1), 2));
}

#[test]
fn the_last_bump_locks() {
    let mut oracle = Oracle::robust(1);
    oracle.poke_word(u64::MAX - 1);
    assert_eq!(whole(&mut oracle, 0, acquire(7)), (failed(2), 4));
    assert_eq!((oracle.word(), oracle.cells()), (u64::MAX, [7].as_slice()));
}

#[test]
fn a_panic_is_told() {
    let mut oracle = Oracle::plain(1);
    start(&mut oracle, 0, release(0, 0, 0));
    steps(&mut oracle, 0, 1);
    assert_eq!(oracle.step(0).ending, Some(Ending::Panic));
}
