//! The calls in the numbers of the scope, made on either set.

use crate::callback_progression::CallbackProgression;
use crate::mpmc::robust_unique_index_set::{OwnerId, RobustUniqueIndexSet};
use crate::mpmc::unique_index_set::UniqueIndexSet;
use crate::mpmc::unique_index_set_enums::{
    ReleaseMode, ReleaseState, UniqueIndexSetAcquireFailure,
};

pub const LIST_LIMIT: usize = 8;

#[derive(Debug, Clone, Copy, PartialEq, Eq, Hash, PartialOrd, Ord)]
pub enum Call {
    Acquire,
    Release,
    Borrowed,
    Locked,
    Find,
    Recover,
}

/// A call and what it is given. What the call does not look at may be anything.
#[derive(Debug, Clone, Copy, PartialEq, Eq)]
pub struct Request {
    pub call: Call,
    pub index_or_room: u32,
    pub owner: u64,
    pub mode: u8,
    pub listed: u8,
    pub list: [u64; LIST_LIMIT],
}

impl Request {
    pub fn owners(&self) -> &[u64] {
        &self.list[..self.listed as usize]
    }

    fn release_mode(&self) -> ReleaseMode {
        match self.mode {
            0 => ReleaseMode::Default,
            1 => ReleaseMode::LockIfLastIndex,
            mode => panic!("there is no mode {mode}"),
        }
    }

    fn owner_id(&self) -> OwnerId {
        OwnerId::new(self.owner).expect("an owner")
    }
}

#[derive(Debug, Clone, Copy, PartialEq, Eq)]
pub struct Answer {
    pub number: u32,
    pub value: u32,
}

impl Answer {
    pub fn done(value: u32) -> Self {
        Self { number: 0, value }
    }

    fn failed(number: u32) -> Self {
        Self { number, value: 0 }
    }
}

#[derive(Debug, Clone, Copy, PartialEq, Eq)]
pub enum Report {
    Found { index: u32 },
    Freed { index: u32, owner: u64 },
}

fn narrow(value: usize) -> u32 {
    u32::try_from(value).expect("a value of 32 bits")
}

pub(crate) fn state_number(state: ReleaseState) -> u32 {
    match state {
        ReleaseState::Unlocked => 0,
        ReleaseState::Locked => 1,
    }
}

pub(crate) fn acquired(result: Result<usize, UniqueIndexSetAcquireFailure>) -> Answer {
    match result {
        Ok(index) => Answer::done(narrow(index)),
        Err(UniqueIndexSetAcquireFailure::OutOfIndices) => Answer::failed(1),
        Err(UniqueIndexSetAcquireFailure::IsLocked) => Answer::failed(2),
    }
}

/// The number within an owner, which the source keeps to itself.
pub(crate) fn owner_number(owner: OwnerId) -> u64 {
    // SAFETY: an OwnerId is a u64 in the representation of C.
    unsafe { core::mem::transmute::<OwnerId, u64>(owner) }
}

pub(crate) fn call_plain(set: &UniqueIndexSet, asks: &Request) -> Answer {
    match asks.call {
        // SAFETY: the set is initialized.
        Call::Acquire => acquired(unsafe { set.acquire_raw_index() }.map(|index| index as usize)),
        // SAFETY: the set is initialized, and the index is below its capacity.
        Call::Release => Answer::done(state_number(unsafe {
            set.release_raw_index(asks.index_or_room, asks.release_mode())
        })),
        Call::Borrowed => Answer::done(narrow(set.borrowed_indices())),
        Call::Locked => Answer::done(u32::from(set.is_locked())),
        call => panic!("{call:?} is no call of the plain set"),
    }
}

pub(crate) fn call_robust(
    set: &RobustUniqueIndexSet,
    asks: &Request,
    mut report: impl FnMut(Report),
) -> Answer {
    match asks.call {
        // SAFETY: the set is initialized.
        Call::Acquire => acquired(unsafe { set.acquire(asks.owner_id()) }),
        Call::Release => {
            let index = asks.index_or_room as usize;
            // SAFETY: the set is initialized, and the index is below its capacity.
            match unsafe { set.release(index, asks.owner_id(), asks.release_mode()) } {
                Ok(state) => Answer::done(state_number(state)),
                Err(_not_owned) => Answer::failed(6),
            }
        }
        Call::Borrowed => Answer::done(narrow(set.borrowed_indices())),
        Call::Locked => Answer::done(u32::from(set.is_locked())),
        Call::Find => {
            let mut room = asks.index_or_room;
            // SAFETY: the set is initialized.
            Answer::done(narrow(unsafe {
                set.find(asks.owner_id(), |index| {
                    found(index, &mut room, &mut report)
                })
            }))
        }
        Call::Recover => {
            // SAFETY: the set is initialized.
            Answer::done(state_number(unsafe {
                set.recover(
                    asks.release_mode(),
                    |owner, _index| asks.owners().contains(&owner_number(owner)),
                    |owner, index| {
                        report(Report::Freed {
                            index: narrow(index),
                            owner: owner_number(owner),
                        })
                    },
                )
            }))
        }
    }
}

/// The callback of find: a report, and stop where the room is full.
pub(crate) fn found(
    index: usize,
    room: &mut u32,
    report: &mut impl FnMut(Report),
) -> CallbackProgression {
    report(Report::Found {
        index: narrow(index),
    });
    *room = room.saturating_sub(1);
    match *room {
        0 => CallbackProgression::Stop,
        _ => CallbackProgression::Continue,
    }
}
