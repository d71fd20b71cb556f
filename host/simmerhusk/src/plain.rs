//! The plain set, `UniqueIndexSet`.

use crate::body::{Body, Request};
use crate::kinds::{HeadWord, Index, RecordNumber, RecordState, ReleaseMode};
use crate::raw::Buffers;
use crate::read::Call;
use crate::reports::{Error, Progress, Turn};

/// What a record of a plain dock may be asked to do.
#[derive(Clone, Copy, Debug, PartialEq, Eq)]
pub enum PlainCall {
    Acquire,
    Release { index: Index, mode: ReleaseMode },
    BorrowedIndices,
    IsLocked,
}

impl PlainCall {
    fn request(self) -> Request {
        let (call, index_or_room, mode) = match self {
            PlainCall::Acquire => (Call::Acquire, 0, 0),
            PlainCall::Release { index, mode } => (Call::Release, index.0, mode.number()),
            PlainCall::BorrowedIndices => (Call::BorrowedIndices, 0, 0),
            PlainCall::IsLocked => (Call::IsLocked, 0, 0),
        };
        Request {
            call,
            index_or_room,
            owner: 0,
            mode,
        }
    }
}

/// A plain set with its slots, its custody buffer and its thread records.
pub struct PlainDock {
    body: Body,
}

impl PlainDock {
    pub const CAPACITY_LIMIT: u32 = 16_777_214;

    /// Buffers just large enough for this capacity or, if it is above the limit, for the limit. A setup is still needed.
    pub fn of_capacity(capacity: u32, records: u8) -> Result<PlainDock, Error> {
        let length = capacity.min(PlainDock::CAPACITY_LIMIT) as usize;
        PlainDock::with_buffers(vec![0; length + 1], vec![0; length], records)
    }

    /// Buffers of any length and content. A setup is still needed: until then the capacity is 0.
    pub fn with_buffers(
        slots: Vec<u32>,
        custody: Vec<u32>,
        records: u8,
    ) -> Result<PlainDock, Error> {
        let body = Body::new(Buffers::Plain { slots, custody }, records)?;
        Ok(PlainDock { body })
    }

    /// Writes the slots, frees the custody and idles every record.
    pub fn setup(&mut self, capacity: u32) -> Result<Progress, Error> {
        self.body.setup(capacity)
    }

    pub fn start(&mut self, who: RecordNumber, call: PlainCall) -> Result<Progress, Error> {
        self.body.start(who, call.request())
    }

    /// One shared access of the record's call.
    pub fn step(&mut self, who: RecordNumber) -> Result<Turn, Error> {
        self.body.step(who)
    }

    /// Steps of one record until its call is answered, at most so many.
    pub fn drain(&mut self, who: RecordNumber, budget: u32) -> Result<Turn, Error> {
        self.body.drain(who, budget)
    }

    /// The record stays dead until a setup.
    pub fn death(&mut self, who: RecordNumber) -> Result<Progress, Error> {
        self.body.death(who)
    }

    pub fn capacity(&self) -> u32 {
        self.body.capacity()
    }

    pub fn word(&self) -> HeadWord {
        HeadWord(self.body.word())
    }

    pub fn records(&self) -> usize {
        self.body.records()
    }

    /// None if there is no such record.
    pub fn record_state(&self, who: RecordNumber) -> Option<RecordState> {
        self.body.record_state(who)
    }

    pub fn slots(&mut self) -> Result<&[u32], Error> {
        Ok(match self.body.buffers()? {
            Buffers::Plain { slots, .. } => slots,
            Buffers::Robust { .. } => &[],
        })
    }

    pub fn custody(&mut self) -> Result<&[u32], Error> {
        Ok(match self.body.buffers()? {
            Buffers::Plain { custody, .. } => custody,
            Buffers::Robust { .. } => &[],
        })
    }
}
