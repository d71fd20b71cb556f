//! What a turn must come back with and leave behind.

use oracle_paused::{Access, Call};
use simmerhusk::raw::{Op, Outcome, RECORD_BYTES};

use crate::shadow::{Kind, List};

pub const ACCEPTED: u32 = 0;
pub const ANSWERED: u32 = 1;
pub const REFUSED: u32 = 2;
pub const FOUND: u32 = 1;
pub const FREED: u32 = 2;

/// The bytes of the named record afterwards; all others are as they were.
#[derive(Debug, Clone, Copy, PartialEq, Eq)]
pub enum Named {
    /// No record has changed.
    Same,
    /// All of them are idle, their lists empty.
    AllIdle,
    Idle(List),
    /// In a call, before that access.
    Before(Call, Access, List),
    Dead,
    Listed(List),
    /// These bytes: a damaged record, and an op that says what becomes of it.
    Bytes([u8; RECORD_BYTES]),
    /// A damaged record has made steps of that call with that list. The Rust says nothing of it: only what
    /// no such step may change is compared, and the scene ends with it.
    Adrift(Call, List),
    /// As the op pokes them.
    Poked,
}

/// The access that a step made.
#[derive(Debug, Clone, Copy, PartialEq, Eq)]
pub struct Made {
    pub access: Access,
    pub won: Option<bool>,
}

/// Where the slots, custody and cells of a turn stand in the batch, or their digests.
#[derive(Debug, Clone, Copy, PartialEq, Eq)]
pub enum Contents {
    Whole {
        slots: (usize, usize),
        custody: (usize, usize),
        cells: (usize, usize),
    },
    Digests([u64; 2]),
}

#[derive(Debug, Clone)]
pub struct Expected {
    pub op: Op,
    pub outcome: Outcome,
    /// 1 of an accepted start, an accepted step, or a drain that made steps.
    pub compared: u64,
    /// The steps that a drain made: only where it ends is compared.
    pub within_drain: u64,
    pub kind: Kind,
    pub capacity: u32,
    pub word: u64,
    pub contents: Contents,
    pub named: Named,
    /// The call that the op belongs to, and the one access of a step.
    pub call: Option<Call>,
    pub made: Option<Made>,
}

/// FNV-1a 64.
pub fn digest(bytes: impl Iterator<Item = u8>) -> u64 {
    let mut hash = 0xcbf2_9ce4_8422_2325_u64;
    for byte in bytes {
        hash = (hash ^ u64::from(byte)).wrapping_mul(0x0000_0100_0000_01b3);
    }
    hash
}
