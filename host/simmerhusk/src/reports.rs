//! What a call comes back with.

use crate::kinds::{Index, Owner, ReleaseState};
use crate::raw::Outcome;
use std::fmt;
use std::io;

/// What was done: accepted with no answer yet, answered, or refused with nothing changed.
#[derive(Clone, Copy, Debug, PartialEq, Eq)]
pub enum Progress {
    Accepted,
    Answered(Answer),
    Refused(Refusal),
}

/// A step or a drain: how far it came, what it found or freed, how many steps it was.
#[derive(Clone, Copy, Debug, PartialEq, Eq)]
pub struct Turn {
    pub progress: Progress,
    pub noted: Noted,
    pub steps: u32,
}

/// What a step of find or recover tells beside its progress.
#[derive(Clone, Copy, Debug, PartialEq, Eq)]
pub enum Noted {
    Nothing,
    Found(Index),
    Freed(Index, Owner),
}

/// What a call that was not refused ends with.
#[derive(Clone, Copy, Debug, PartialEq, Eq)]
pub enum Answer {
    Acquired(Index),
    NotAcquired(AcquireFailure),
    Released(ReleaseState),
    /// The robust cell has another owner, or none.
    NotOwned,
    /// The plain set counts no index as borrowed, or is locked: the index is held again.
    NotBorrowed,
    Borrowed(u32),
    Locked(bool),
    /// How many indices find has found.
    Found(u32),
    Recovered(ReleaseState),
}

#[derive(Clone, Copy, Debug, PartialEq, Eq)]
pub enum AcquireFailure {
    OutOfIndices,
    /// A robust cell may have been won all the same, and stay so.
    IsLocked,
}

impl Answer {
    /// The number of the scope's table.
    pub fn number(self) -> u32 {
        match self {
            Answer::NotAcquired(AcquireFailure::OutOfIndices) => 1,
            Answer::NotAcquired(AcquireFailure::IsLocked) => 2,
            Answer::NotOwned => 6,
            Answer::NotBorrowed => 14,
            _ => 0,
        }
    }
}

/// Why nothing was done.
#[derive(Clone, Copy, Debug, PartialEq, Eq)]
pub enum Refusal {
    /// Or, at a setup, too large for the slots or cells.
    CapacityAboveLimit,
    CapacityZero,
    OwnerIsEmpty,
    IndexOutOfRange,
    /// The record does not hold the plain index.
    IndexNotHeld,
    /// There is no such record, it is dead, busy where a call or a list begins, or idle at a step.
    RecordNotReady,
    /// Or there are more than 16 records.
    BufferTooShort,
    /// The record remembers what no look may leave.
    RecordDamaged,
    /// An unknown call or mode, or one that cannot be asked here.
    NotKnown,
}

impl Refusal {
    const ALL: [Refusal; 9] = [
        Refusal::CapacityAboveLimit,
        Refusal::CapacityZero,
        Refusal::OwnerIsEmpty,
        Refusal::IndexOutOfRange,
        Refusal::IndexNotHeld,
        Refusal::RecordNotReady,
        Refusal::BufferTooShort,
        Refusal::RecordDamaged,
        Refusal::NotKnown,
    ];

    /// The number of the scope's table. Its 12 is a schedule's, which no call reads.
    pub fn number(self) -> u32 {
        match self {
            Refusal::CapacityAboveLimit => 3,
            Refusal::CapacityZero => 4,
            Refusal::OwnerIsEmpty => 5,
            Refusal::IndexOutOfRange => 7,
            Refusal::IndexNotHeld => 8,
            Refusal::RecordNotReady => 9,
            Refusal::BufferTooShort => 10,
            Refusal::RecordDamaged => 11,
            Refusal::NotKnown => 13,
        }
    }

    pub fn from_number(number: u32) -> Option<Refusal> {
        Refusal::ALL
            .into_iter()
            .find(|refusal| refusal.number() == number)
    }
}

/// No progress could be told. What became of the dock is not known then.
#[derive(Debug)]
pub enum Error {
    /// The calls cannot be reached.
    Port(io::Error),
    /// A call came back with numbers that have no meaning.
    Unreadable(Outcome),
}

impl From<io::Error> for Error {
    fn from(error: io::Error) -> Error {
        Error::Port(error)
    }
}

impl fmt::Display for Error {
    fn fmt(&self, to: &mut fmt::Formatter<'_>) -> fmt::Result {
        match self {
            Error::Port(error) => write!(to, "the exported calls cannot be reached: {error}"),
            Error::Unreadable(outcome) => write!(to, "an outcome has no meaning: {outcome:?}"),
        }
    }
}

impl std::error::Error for Error {
    fn source(&self) -> Option<&(dyn std::error::Error + 'static)> {
        match self {
            Error::Port(error) => Some(error),
            Error::Unreadable(_) => None,
        }
    }
}
