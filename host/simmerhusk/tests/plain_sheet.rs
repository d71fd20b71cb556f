//! The bench sheet's lines of the plain set.

mod common;

use common::{acquired, call, last_step, start, steps};
use simmerhusk::raw::{Buffers, Dock, Op, Port, Reply, RECORD_BYTES};
use simmerhusk::{
    AcquireFailure, Answer, Error, HeadWord, Index, PlainCall, PlainDock, Progress, RecordNumber,
    RecordState, ReleaseMode, ReleaseState,
};

const FIRST: RecordNumber = RecordNumber(0);
const SECOND: RecordNumber = RecordNumber(1);
const HELD_BY_FIRST: u32 = 2;
const HELD_BY_SECOND: u32 = 2 + 256;

fn fresh(capacity: u32, records: u8) -> Result<PlainDock, Error> {
    let mut dock = PlainDock::of_capacity(capacity, records)?;
    assert_eq!(dock.setup(capacity)?, Progress::Accepted);
    Ok(dock)
}

fn release(index: u32, mode: ReleaseMode) -> PlainCall {
    let index = Index(index);
    PlainCall::Release { index, mode }
}

fn after_p2() -> Result<PlainDock, Error> {
    let mut dock = fresh(3, 1)?;
    call(&mut dock, FIRST, PlainCall::Acquire, 4, acquired(0))?;
    Ok(dock)
}

#[test]
fn p1_a_fresh_set() -> Result<(), Error> {
    let mut dock = fresh(3, 2)?;
    assert_eq!((dock.capacity(), dock.records()), (3, 2));
    assert_eq!(dock.word(), HeadWord(0));
    assert_eq!(dock.slots()?, [1, 2, 3, 4]);
    assert_eq!(dock.custody()?, [0, 0, 0]);
    assert_eq!(dock.record_state(SECOND), Some(RecordState::Idle));
    assert_eq!(dock.record_state(RecordNumber(2)), None);
    Ok(())
}

#[test]
fn p2_an_acquire() -> Result<(), Error> {
    let mut dock = after_p2()?;
    assert_eq!(dock.word(), HeadWord(0x0000_0100_0100_0001));
    let word = dock.word();
    assert_eq!((word.head(), word.tag(), word.borrowed()), (Index(1), 1, 1));
    assert_eq!(dock.slots()?, [4, 2, 3, 4]);
    assert_eq!(dock.custody()?, [HELD_BY_FIRST, 0, 0]);
    Ok(())
}

#[test]
fn p4_the_last_release_locks() -> Result<(), Error> {
    let mut dock = after_p2()?;
    let locks = release(0, ReleaseMode::LockIfLastIndex);
    let locked = Answer::Released(ReleaseState::Locked);
    call(&mut dock, FIRST, locks, 3, locked)?;
    assert_eq!(dock.word(), HeadWord(0x0000_0000_02FF_FFFF));
    assert!(dock.word().is_locked());
    assert_eq!(dock.custody()?, [0, 0, 0]);
    let refused = Answer::NotAcquired(AcquireFailure::IsLocked);
    call(&mut dock, FIRST, PlainCall::Acquire, 1, refused)?;
    let none = Answer::Borrowed(0);
    call(&mut dock, FIRST, PlainCall::BorrowedIndices, 1, none)?;
    call(
        &mut dock,
        FIRST,
        PlainCall::IsLocked,
        1,
        Answer::Locked(true),
    )
}

#[test]
fn p5_the_only_index_is_taken() -> Result<(), Error> {
    let mut dock = fresh(1, 1)?;
    call(&mut dock, FIRST, PlainCall::Acquire, 4, acquired(0))?;
    let none_left = Answer::NotAcquired(AcquireFailure::OutOfIndices);
    call(&mut dock, FIRST, PlainCall::Acquire, 1, none_left)?;
    assert_eq!(dock.slots()?, [2, 2]);
    Ok(())
}

#[test]
fn p6_the_tag_wraps() -> Result<(), Error> {
    let mut port = Port::open()?;
    port.load(&Dock {
        buffers: Buffers::Plain {
            slots: vec![0; 4],
            custody: vec![0; 3],
        },
        records: vec![0; RECORD_BYTES],
        ..Dock::default()
    });
    let acquire = Op::Start {
        who: 0,
        call: 1,
        index_or_room: 0,
        owner: 0,
        mode: 0,
    };
    let budget = 10;
    port.queue(&Op::Setup { asked: 3 });
    port.queue(&Op::PokeWord(0x0000_00FF_FF00_0000));
    port.queue(&acquire);
    port.queue(&Op::Drain { who: 0, budget });
    let mut reply = Reply::default();
    for _ in 0..4 {
        port.try_reply(&mut reply)?;
    }
    let outcome = reply.outcome;
    assert_eq!((outcome.progress, outcome.number, outcome.value), (1, 0, 0));
    assert_eq!(outcome.steps, 4);
    assert_eq!(reply.dock.word, 0x0000_0100_0000_0001);
    Ok(())
}

#[test]
fn p8_an_exchange_that_fails_is_a_look() -> Result<(), Error> {
    let mut dock = fresh(2, 2)?;
    start(&mut dock, FIRST, PlainCall::Acquire)?;
    steps(&mut dock, FIRST, 2)?;
    call(&mut dock, SECOND, PlainCall::Acquire, 4, acquired(0))?;
    steps(&mut dock, FIRST, 3)?;
    last_step(&mut dock, FIRST, acquired(1))?;
    assert_eq!(dock.word(), HeadWord(0x0000_0200_0200_0002));
    assert_eq!(dock.slots()?, [3, 3, 3]);
    assert_eq!(dock.custody()?, [HELD_BY_SECOND, HELD_BY_FIRST]);
    Ok(())
}

#[test]
fn a_drain_stops_at_its_budget_and_at_the_answer() -> Result<(), Error> {
    let mut dock = fresh(3, 1)?;
    start(&mut dock, FIRST, PlainCall::Acquire)?;
    let part = dock.drain(FIRST, 3)?;
    assert_eq!((part.progress, part.steps), (Progress::Accepted, 3));
    let rest = dock.drain(FIRST, 3)?;
    assert_eq!(rest.progress, Progress::Answered(acquired(0)));
    assert_eq!(rest.steps, 1);
    Ok(())
}

#[test]
fn a_dock_too_large_to_be_replied_whole() -> Result<(), Error> {
    let mut dock = fresh(5000, 1)?;
    call(&mut dock, FIRST, PlainCall::Acquire, 4, acquired(0))?;
    let slots = dock.slots()?;
    assert_eq!((slots.len(), slots[0], slots[5000]), (5001, 5001, 5001));
    assert_eq!(dock.custody()?[..2], [HELD_BY_FIRST, 0]);
    Ok(())
}
