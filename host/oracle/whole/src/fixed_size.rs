//! The sets of fixed size, with the capacity that they are reduced to.

use std::panic::catch_unwind;

use crate::memory::RobustMirror;
use crate::mpmc::robust_unique_index_set::{
    OwnerId, RobustUniqueIndexSet, StaticRobustUniqueIndexSet,
};
use crate::mpmc::unique_index_set::{FixedSizeUniqueIndexSet, UniqueIndexSet};
use crate::mpmc::unique_index_set_enums::{ReleaseMode, UniqueIndexCreationError};
use crate::peek::Peek;
use crate::requests::{
    Answer, Call, Report, Request, acquired, call_plain, call_robust, found, owner_number,
    state_number,
};
use crate::whole_set::WholeSet;

/// The number that the scope has for a capacity that is refused.
fn refusal(error: UniqueIndexCreationError) -> u32 {
    match error {
        UniqueIndexCreationError::ProvidedCapacityGreaterThanMaxCapacity => 3,
        UniqueIndexCreationError::ProvidedCapacityIsZero => 4,
    }
}

/// The number for a capacity that the source panics at: no refusal of the scope's has it.
pub const PANICKED: u32 = 0;

fn made<Set: WholeSet + 'static>(
    make: fn(usize) -> Result<Set, UniqueIndexCreationError>,
    capacity: u32,
) -> Result<Box<dyn WholeSet>, u32> {
    match catch_unwind(|| make(capacity as usize)) {
        Ok(Ok(set)) => Ok(Box::new(set)),
        Ok(Err(error)) => Err(refusal(error)),
        Err(_panic) => Err(PANICKED),
    }
}

pub fn fixed_plain<const LIMIT: usize>(capacity: u32) -> Result<Box<dyn WholeSet>, u32> {
    made(
        FixedSizeUniqueIndexSet::<LIMIT>::new_with_reduced_capacity,
        capacity,
    )
}

pub fn fixed_robust<const LIMIT: usize>(capacity: u32) -> Result<Box<dyn WholeSet>, u32> {
    made(
        StaticRobustUniqueIndexSet::<LIMIT>::new_with_reduced_capacity,
        capacity,
    )
}

/// The entries that stand right behind a set in its fixed-size form.
///
/// # Safety
///
/// `whole` begins with a set of that size, and that many entries follow it.
unsafe fn behind<Whole, State, Entry: Copy>(whole: &Whole, count: usize) -> Vec<Entry> {
    assert!(size_of::<State>() + count * size_of::<Entry>() <= size_of::<Whole>());
    // SAFETY: the caller's.
    unsafe {
        let first = core::ptr::from_ref(whole)
            .cast::<State>()
            .add(1)
            .cast::<Entry>();
        core::slice::from_raw_parts(first, count).to_vec()
    }
}

impl<const LIMIT: usize> WholeSet for FixedSizeUniqueIndexSet<LIMIT> {
    fn call(&mut self, request: &Request, _reports: &mut Vec<Report>) -> Answer {
        match request.call {
            // SAFETY: the harness releases each index that it acquires, and only those.
            Call::Acquire => acquired(unsafe { self.acquire_raw_index() }.map(|i| i as usize)),
            Call::Borrowed => Answer::done(self.borrowed_indices() as u32),
            Call::Locked => Answer::done(u32::from(self.is_locked())),
            Call::Release if request.mode == 0 => Answer::done(state_number(unsafe {
                self.release_raw_index(request.index_or_room, ReleaseMode::Default)
            })),
            _ => call_plain(&self.state, request),
        }
    }

    fn capacity(&self) -> u32 {
        FixedSizeUniqueIndexSet::capacity(self)
    }

    fn word(&self) -> u64 {
        self.state.head.peek()
    }

    fn entries(&self) -> Vec<u64> {
        let count = WholeSet::capacity(self) as usize + 1;
        // SAFETY: the representation of C, and one slot more than the limit.
        let slots = unsafe { behind::<Self, UniqueIndexSet, u32>(self, count) };
        slots.into_iter().map(u64::from).collect()
    }
}

fn state<const LIMIT: usize>(set: &StaticRobustUniqueIndexSet<LIMIT>) -> &RobustUniqueIndexSet {
    // SAFETY: the representation of C, with the set first.
    unsafe { &*core::ptr::from_ref(set).cast::<RobustUniqueIndexSet>() }
}

impl<const LIMIT: usize> WholeSet for StaticRobustUniqueIndexSet<LIMIT> {
    fn call(&mut self, request: &Request, reports: &mut Vec<Report>) -> Answer {
        let owner = OwnerId::new(request.owner);
        let mut report = |report| reports.push(report);
        match (request.call, owner) {
            (Call::Acquire, Ok(owner)) => acquired(self.acquire(owner)),
            (Call::Find, Ok(owner)) => {
                let mut room = request.index_or_room;
                let count = self.find(owner, |index| found(index, &mut room, &mut report));
                Answer::done(count as u32)
            }
            (Call::Borrowed, _) => Answer::done(self.borrowed_indices() as u32),
            (Call::Locked, _) => Answer::done(u32::from(self.is_locked())),
            (Call::Recover, _) if request.mode == 0 => Answer::done(state_number(self.recover(
                ReleaseMode::Default,
                |owner, _index| request.owners().contains(&owner_number(owner)),
                |owner, index| {
                    report(Report::Freed {
                        index: index as u32,
                        owner: owner_number(owner),
                    })
                },
            ))),
            _ => call_robust(state(self), request, report),
        }
    }

    fn capacity(&self) -> u32 {
        StaticRobustUniqueIndexSet::capacity(self) as u32
    }

    fn word(&self) -> u64 {
        RobustMirror::of(state(self)).generation().peek()
    }

    fn entries(&self) -> Vec<u64> {
        let count = WholeSet::capacity(self) as usize;
        // SAFETY: the representation of C, and as many cells as the limit.
        unsafe { behind::<Self, RobustUniqueIndexSet, u64>(self, count) }
    }
}
