//! The robust set, `RobustUniqueIndexSet`.

use crate::body::{Body, Request};
use crate::kinds::{Generation, Index, Owner, RecordNumber, RecordState, ReleaseMode};
use crate::raw::Buffers;
use crate::read::Call;
use crate::reports::{Error, Progress, Turn};

/// What a record of a robust dock may be asked to do.
#[derive(Clone, Copy, Debug, PartialEq, Eq)]
pub enum RobustCall {
    Acquire {
        owner: Owner,
    },
    Release {
        index: Index,
        owner: Owner,
        mode: ReleaseMode,
    },
    BorrowedIndices,
    IsLocked,
    /// The owner's indices, each told in its step, until as many are found as there is room for.
    Find {
        owner: Owner,
        room: u32,
    },
    /// Frees the indices of the owners on the record's list, each told in its step. It uses the list up.
    Recover {
        mode: ReleaseMode,
    },
}

impl RobustCall {
    fn request(self) -> Request {
        let (call, index_or_room, owner, mode) = match self {
            RobustCall::Acquire { owner } => (Call::Acquire, 0, owner.value(), 0),
            RobustCall::Release { index, owner, mode } => {
                (Call::Release, index.0, owner.value(), mode.number())
            }
            RobustCall::BorrowedIndices => (Call::BorrowedIndices, 0, 0, 0),
            RobustCall::IsLocked => (Call::IsLocked, 0, 0, 0),
            RobustCall::Find { owner, room } => (Call::Find, room, owner.value(), 0),
            RobustCall::Recover { mode } => (Call::Recover, 0, 0, mode.number()),
        };
        Request {
            call,
            index_or_room,
            owner,
            mode,
        }
    }
}

/// A robust set with its cells and its thread records.
pub struct RobustDock {
    body: Body,
}

impl RobustDock {
    pub const CAPACITY_LIMIT: u32 = 4_096;

    /// Cells just enough for this capacity or, if it is above the limit, for the limit. A setup is still needed.
    pub fn of_capacity(capacity: u32, records: u8) -> Result<RobustDock, Error> {
        let length = capacity.min(RobustDock::CAPACITY_LIMIT) as usize;
        RobustDock::with_cells(vec![0; length], records)
    }

    /// Any number of cells, of any content. A setup is still needed: until then the capacity is 0.
    pub fn with_cells(cells: Vec<u64>, records: u8) -> Result<RobustDock, Error> {
        let body = Body::new(Buffers::Robust { cells }, records)?;
        Ok(RobustDock { body })
    }

    /// Empties the cells and idles every record.
    pub fn setup(&mut self, capacity: u32) -> Result<Progress, Error> {
        self.body.setup(capacity)
    }

    pub fn start(&mut self, who: RecordNumber, call: RobustCall) -> Result<Progress, Error> {
        self.body.start(who, call.request())
    }

    /// One shared access of the record's call.
    pub fn step(&mut self, who: RecordNumber) -> Result<Turn, Error> {
        self.body.step(who)
    }

    /// Steps of one record until its call is answered, at most so many. A find or a recover is refused, as each of its steps
    /// may have something to tell.
    pub fn drain(&mut self, who: RecordNumber, budget: u32) -> Result<Turn, Error> {
        self.body.drain(who, budget)
    }

    /// Whose indices the record's next recover frees, in place of an earlier list.
    pub fn list(&mut self, who: RecordNumber, owners: &[Owner]) -> Result<Progress, Error> {
        let owners = owners.iter().map(|owner| owner.value()).collect();
        self.body.list(who, owners)
    }

    /// The record stays dead until a setup.
    pub fn death(&mut self, who: RecordNumber) -> Result<Progress, Error> {
        self.body.death(who)
    }

    pub fn capacity(&self) -> u32 {
        self.body.capacity()
    }

    pub fn generation(&self) -> Generation {
        Generation(self.body.word())
    }

    pub fn records(&self) -> usize {
        self.body.records()
    }

    /// None if there is no such record.
    pub fn record_state(&self, who: RecordNumber) -> Option<RecordState> {
        self.body.record_state(who)
    }

    /// Each cell's owner, or `u64::MAX` where it is empty.
    pub fn cells(&mut self) -> Result<&[u64], Error> {
        Ok(match self.body.buffers()? {
            Buffers::Robust { cells } => cells,
            Buffers::Plain { .. } => &[],
        })
    }
}
