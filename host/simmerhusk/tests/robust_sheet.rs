//! The bench sheet's lines of the robust set.

mod common;

use common::{acquired, call, last_step, start, steps};
use simmerhusk::{
    AcquireFailure, Answer, Error, Generation, Index, InvalidOwnerValue, Noted, Owner, Progress,
    RecordNumber, RecordState, ReleaseMode, ReleaseState, RobustCall, RobustDock,
};

const A: RecordNumber = RecordNumber(0);
const B: RecordNumber = RecordNumber(1);
const C: RecordNumber = RecordNumber(2);
const EMPTY: u64 = u64::MAX;
const LOCKED: Generation = Generation(u64::MAX);

fn owner(value: u64) -> Owner {
    Owner::new(value).expect("an owner's number")
}

fn fresh(capacity: u32, records: u8) -> Result<RobustDock, Error> {
    let mut dock = RobustDock::of_capacity(capacity, records)?;
    assert_eq!(dock.setup(capacity)?, Progress::Accepted);
    assert_eq!(dock.generation(), Generation(0));
    Ok(dock)
}

fn acquire(value: u64) -> RobustCall {
    let owner = owner(value);
    RobustCall::Acquire { owner }
}

fn release(index: u32, value: u64, mode: ReleaseMode) -> RobustCall {
    RobustCall::Release {
        index: Index(index),
        owner: owner(value),
        mode,
    }
}

#[test]
fn the_empty_cells_mark_is_no_owner() {
    assert_eq!(Owner::new(u64::MAX), Err(InvalidOwnerValue));
    assert_eq!(Owner::new(u64::MAX - 1).map(Owner::value), Ok(u64::MAX - 1));
}

#[test]
fn r1_an_acquire() -> Result<(), Error> {
    let mut dock = fresh(2, 1)?;
    assert_eq!(dock.cells()?, [EMPTY, EMPTY]);
    call(&mut dock, A, acquire(313), 4, acquired(0))?;
    assert_eq!(dock.generation(), Generation(1));
    assert_eq!(dock.cells()?, [313, EMPTY]);
    Ok(())
}

#[test]
fn r2_a_release_by_another_owner() -> Result<(), Error> {
    let mut dock = fresh(2, 1)?;
    call(&mut dock, A, acquire(313), 4, acquired(0))?;
    let of_another = release(0, 314, ReleaseMode::Default);
    call(&mut dock, A, of_another, 1, Answer::NotOwned)?;
    assert_eq!(dock.generation(), Generation(1));
    assert_eq!(dock.cells()?, [313, EMPTY]);
    Ok(())
}

#[test]
fn r3_the_last_release_locks() -> Result<(), Error> {
    let mut dock = fresh(1, 1)?;
    call(&mut dock, A, acquire(7), 4, acquired(0))?;
    let locks = release(0, 7, ReleaseMode::LockIfLastIndex);
    let locked = Answer::Released(ReleaseState::Locked);
    call(&mut dock, A, locks, 9, locked)?;
    assert_eq!(dock.generation(), LOCKED);
    call(&mut dock, A, RobustCall::IsLocked, 1, Answer::Locked(true))
}

#[test]
fn r5_a_cell_won_as_the_set_is_locked() -> Result<(), Error> {
    let (of_seven, of_eight) = (A, B);
    let mut dock = fresh(2, 2)?;
    call(&mut dock, of_seven, acquire(7), 4, acquired(0))?;
    start(&mut dock, of_eight, acquire(8))?;
    steps(&mut dock, of_eight, 2)?;
    let locks = release(0, 7, ReleaseMode::LockIfLastIndex);
    start(&mut dock, of_seven, locks)?;
    steps(&mut dock, of_seven, 9)?;
    steps(&mut dock, of_eight, 1)?;
    assert_eq!(dock.cells()?, [EMPTY, 8]);
    let locked = Answer::Released(ReleaseState::Locked);
    last_step(&mut dock, of_seven, locked)?;
    assert_eq!(dock.generation(), LOCKED);
    let refused = Answer::NotAcquired(AcquireFailure::IsLocked);
    last_step(&mut dock, of_eight, refused)?;
    assert_eq!(dock.cells()?, [EMPTY, 8]);

    let unlocked = Answer::Released(ReleaseState::Unlocked);
    let gives_back = release(1, 8, ReleaseMode::Default);
    call(&mut dock, of_eight, gives_back, 2, unlocked)?;
    assert_eq!(dock.cells()?, [EMPTY, EMPTY]);
    Ok(())
}

#[test]
fn r6_out_of_indices_and_never_full() -> Result<(), Error> {
    let mut dock = fresh(2, 3)?;
    call(&mut dock, B, acquire(7), 4, acquired(0))?;
    for (who, value) in [(A, 1), (C, 3)] {
        start(&mut dock, who, acquire(value))?;
        steps(&mut dock, who, 2)?;
    }
    start(&mut dock, B, release(0, 7, ReleaseMode::Default))?;
    steps(&mut dock, B, 1)?;
    assert_eq!(dock.cells()?, [EMPTY, EMPTY]);
    steps(&mut dock, C, 1)?;
    assert_eq!(dock.cells()?, [EMPTY, 3]);
    steps(&mut dock, A, 1)?;
    let none_left = Answer::NotAcquired(AcquireFailure::OutOfIndices);
    last_step(&mut dock, A, none_left)?;
    assert_eq!(dock.generation(), Generation(1));
    Ok(())
}

#[test]
fn find_tells_each_index_in_its_step() -> Result<(), Error> {
    let mut dock = fresh(3, 1)?;
    call(&mut dock, A, acquire(7), 4, acquired(0))?;
    call(&mut dock, A, acquire(9), 5, acquired(1))?;
    call(&mut dock, A, acquire(7), 6, acquired(2))?;
    let find = RobustCall::Find {
        owner: owner(7),
        room: 4,
    };
    start(&mut dock, A, find)?;
    assert_eq!(dock.step(A)?.noted, Noted::Found(Index(0)));
    assert_eq!(dock.step(A)?.noted, Noted::Nothing);
    let last = dock.step(A)?;
    assert_eq!(last.noted, Noted::Found(Index(2)));
    assert_eq!(last.progress, Progress::Answered(Answer::Found(2)));
    Ok(())
}

#[test]
fn recover_frees_what_a_dead_record_left() -> Result<(), Error> {
    let mut dock = fresh(1, 2)?;
    call(&mut dock, A, acquire(7), 4, acquired(0))?;
    assert_eq!(dock.death(A)?, Progress::Accepted);
    assert_eq!(dock.record_state(A), Some(RecordState::Dead));
    assert_eq!(dock.list(B, &[owner(7)])?, Progress::Accepted);
    let mode = ReleaseMode::Default;
    start(&mut dock, B, RobustCall::Recover { mode })?;
    steps(&mut dock, B, 2)?;
    let freed = dock.step(B)?;
    assert_eq!(freed.noted, Noted::Freed(Index(0), owner(7)));
    steps(&mut dock, B, 2)?;
    let unlocked = Answer::Recovered(ReleaseState::Unlocked);
    last_step(&mut dock, B, unlocked)?;
    assert_eq!(dock.cells()?, [EMPTY]);
    Ok(())
}
