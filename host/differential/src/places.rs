//! The places of the port's records: which call each belongs to, and which access of the Rust it stands
//! before, with all that it remembers of it.

use oracle_paused::{Access, Call};

use crate::record_bytes::RecordBytes;
use crate::shadow::Kind;
use crate::words::{LOCKED, borrowed_of, head_of, tag_of, word_of};

const EMPTY: u64 = u64::MAX;
const LOCKED_GENERATION: u64 = u64::MAX;

pub fn call_at(kind: Kind, place: u8) -> Option<Call> {
    match (kind, place) {
        (Kind::Plain, 1..=4) | (Kind::Robust, 16..=20) => Some(Call::Acquire),
        (Kind::Plain, 5..=7) | (Kind::Robust, 32..=40) => Some(Call::Release),
        (Kind::Plain, 8) | (Kind::Robust, 48..=51) => Some(Call::Borrowed),
        (Kind::Plain, 9) | (Kind::Robust, 64) => Some(Call::Locked),
        (Kind::Robust, 80) => Some(Call::Find),
        (Kind::Robust, 96..=107) => Some(Call::Recover),
        _ => None,
    }
}

/// The access that a record's bytes stand before.
pub fn access_at(kind: Kind, record: RecordBytes<'_>) -> Option<Access> {
    match kind {
        Kind::Plain => plain_access(record),
        Kind::Robust => robust_access(record),
    }
}

fn plain_access(record: RecordBytes<'_>) -> Option<Access> {
    let seen = record.seen();
    let tag = tag_of(seen).wrapping_add(1);
    Some(match record.place() {
        1 | 5 | 8 | 9 => Access::LookWord,
        2 => Access::Slot {
            index: head_of(seen),
        },
        3 => Access::ExchangeWord {
            expected: seen,
            new: word_of(record.value(), tag, borrowed_of(seen) + 1),
        },
        4 | 6 => Access::Slot {
            index: record.index(),
        },
        7 => Access::ExchangeWord {
            expected: seen,
            new: word_of(record.index(), tag, given_back(record)),
        },
        _ => return None,
    })
}

fn given_back(record: RecordBytes<'_>) -> u32 {
    match (record.mode(), borrowed_of(record.seen())) {
        (1, 1) => LOCKED,
        (_, borrowed) => borrowed.wrapping_sub(1),
    }
}

fn robust_access(record: RecordBytes<'_>) -> Option<Access> {
    let (index, owner) = (record.index(), record.owner());
    Some(match record.place() {
        16 | 64 | 96 | 107 => Access::LookWord,
        17 => Access::ExchangeCell {
            index,
            expected: EMPTY,
            new: owner,
        },
        18 => Access::ExchangeWord {
            expected: record.generation(),
            new: record.generation(),
        },
        19 | 20 => bump_access(record, record.place() - 19),
        32 | 98 => Access::ExchangeCell {
            index,
            expected: owner,
            new: EMPTY,
        },
        33 | 34 => bump_access(record, record.place() - 33),
        35..=40 => lock_access(record, record.place() - 35),
        48..=51 => count_access(record, record.place() - 48),
        80 | 97 => Access::LoadCell { index },
        99 | 100 => bump_access(record, record.place() - 99),
        101..=106 => lock_access(record, record.place() - 101),
        _ => return None,
    })
}

fn bump_access(record: RecordBytes<'_>, part: u8) -> Access {
    let expected = record.bump_generation();
    match part {
        0 => Access::LookWord,
        _ => Access::ExchangeWord {
            expected,
            new: expected.wrapping_add(1),
        },
    }
}

fn lock_access(record: RecordBytes<'_>, part: u8) -> Access {
    match part {
        0 => Access::LookWord,
        1 => Access::ExchangeWord {
            expected: record.count_generation(),
            new: LOCKED_GENERATION,
        },
        part => count_access(record, part - 2),
    }
}

fn count_access(record: RecordBytes<'_>, part: u8) -> Access {
    match part {
        0 => Access::LookWord,
        1 => Access::LoadCell {
            index: record.count_cell(),
        },
        part => bump_access(record, part - 2),
    }
}
