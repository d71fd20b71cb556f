//! The driver's requests and replies as bytes; `host/driver/driver.c` says what they are.

use super::{Buffers, Dock, Op, Outcome, Reply};
use std::io;

const LOAD: u8 = 0;
const SETUP: u8 = 1;
const START: u8 = 2;
const STEP: u8 = 3;
const DRAIN: u8 = 4;
const LIST: u8 = 5;
const DEATH: u8 = 6;
const POKE_WORD: u8 = 7;
const POKE_SLOT: u8 = 8;
const POKE_CUSTODY: u8 = 9;
const POKE_CELL: u8 = 10;
const POKE_RECORDS: u8 = 11;
const FETCH: u8 = 12;

const PLAIN: u8 = 0;
const ROBUST: u8 = 1;

/// The driver takes no larger buffer.
pub const BUFFER_LIMIT: usize = 1 << 27;

const EXTENT_BYTES: usize = 24;
pub const REPLY_BYTES: usize = 64;

#[derive(Default)]
struct Request {
    op: u8,
    who: u8,
    call: u8,
    mode: u8,
    number: u32,
    wide: u64,
    follows: usize,
}

impl Request {
    fn put(&self, into: &mut Vec<u8>) {
        into.extend_from_slice(&[self.op, self.who, self.call, self.mode]);
        into.extend_from_slice(&self.number.to_le_bytes());
        into.extend_from_slice(&self.wide.to_le_bytes());
        into.extend_from_slice(&(self.follows as u64).to_le_bytes());
    }
}

fn put_u32s(values: &[u32], into: &mut Vec<u8>) {
    for value in values {
        into.extend_from_slice(&value.to_le_bytes());
    }
}

fn put_u64s(values: &[u64], into: &mut Vec<u8>) {
    for value in values {
        into.extend_from_slice(&value.to_le_bytes());
    }
}

/// How many bytes the slots or cells, the custody and the records have.
fn extent(dock: &Dock) -> [usize; 3] {
    let (first, custody) = match &dock.buffers {
        Buffers::Plain { slots, custody } => (4 * slots.len(), 4 * custody.len()),
        Buffers::Robust { cells } => (8 * cells.len(), 0),
    };
    [first, custody, dock.records.len()]
}

/// Whether the driver takes a dock of this size.
pub fn fits(dock: &Dock) -> bool {
    extent(dock).iter().all(|length| *length <= BUFFER_LIMIT)
}

pub fn put_load(dock: &Dock, into: &mut Vec<u8>) {
    let extent = extent(dock);
    let follows = EXTENT_BYTES + extent.iter().sum::<usize>();
    let set = match dock.buffers {
        Buffers::Plain { .. } => PLAIN,
        Buffers::Robust { .. } => ROBUST,
    };
    let request = Request {
        op: LOAD,
        call: set,
        number: dock.capacity,
        wide: dock.word,
        follows,
        ..Request::default()
    };
    request.put(into);
    into.reserve(follows);
    put_u64s(&extent.map(|length| length as u64), into);
    match &dock.buffers {
        Buffers::Plain { slots, custody } => {
            put_u32s(slots, into);
            put_u32s(custody, into);
        }
        Buffers::Robust { cells } => put_u64s(cells, into),
    }
    into.extend_from_slice(&dock.records);
}

pub fn put_fetch(into: &mut Vec<u8>) {
    let request = Request {
        op: FETCH,
        ..Request::default()
    };
    request.put(into);
}

/// Whether the driver takes what this op brings.
pub fn brings_no_more_than_fits(op: &Op) -> bool {
    match op {
        Op::List { owners, .. } => owners.len() <= BUFFER_LIMIT / 8,
        Op::PokeRecords(_, bytes) => bytes.len() <= BUFFER_LIMIT,
        _ => true,
    }
}

pub fn put_op(op: &Op, into: &mut Vec<u8>) {
    request_of(op).put(into);
    match op {
        Op::List { owners, .. } => put_u64s(owners, into),
        Op::PokeRecords(_, bytes) => into.extend_from_slice(bytes),
        _ => (),
    }
}

fn request_of(op: &Op) -> Request {
    match *op {
        Op::Setup { asked } => poke(SETUP, asked, 0),
        Op::Start {
            who,
            call,
            index_or_room,
            owner,
            mode,
        } => Request {
            op: START,
            who,
            call,
            mode,
            number: index_or_room,
            wide: owner,
            follows: 0,
        },
        Op::Step { who } => of_record(STEP, who, 0, 0),
        Op::Drain { who, budget } => of_record(DRAIN, who, budget, 0),
        Op::List { who, ref owners } => of_record(LIST, who, 0, 8 * owners.len()),
        Op::Death { who } => of_record(DEATH, who, 0, 0),
        Op::PokeWord(word) => poke(POKE_WORD, 0, word),
        Op::PokeSlot(which, value) => poke(POKE_SLOT, which, value.into()),
        Op::PokeCustody(which, value) => poke(POKE_CUSTODY, which, value.into()),
        Op::PokeCell(which, value) => poke(POKE_CELL, which, value),
        Op::PokeRecords(offset, ref bytes) => Request {
            follows: bytes.len(),
            ..poke(POKE_RECORDS, offset, 0)
        },
    }
}

fn of_record(op: u8, who: u8, number: u32, follows: usize) -> Request {
    Request {
        op,
        who,
        number,
        follows,
        ..Request::default()
    }
}

fn poke(op: u8, number: u32, wide: u64) -> Request {
    Request {
        op,
        number,
        wide,
        ..Request::default()
    }
}

/// The fixed part of a reply, and what it says of the rest.
pub struct Head {
    outcome: Outcome,
    word: u64,
    capacity: u32,
    robust: bool,
    digested: bool,
    first: usize,
    custody: usize,
    records: usize,
}

impl Head {
    pub fn read(bytes: &[u8; REPLY_BYTES]) -> io::Result<Head> {
        let set = u32_at(bytes, 44);
        if set > 3 {
            let what = format!("the driver replies for a set {set}, and there is none");
            return Err(io::Error::new(io::ErrorKind::InvalidData, what));
        }
        Ok(Head {
            outcome: outcome(bytes),
            word: u64_at(bytes, 32),
            capacity: u32_at(bytes, 40),
            robust: set % 2 == 1,
            digested: set / 2 == 1,
            first: u32_at(bytes, 48) as usize,
            custody: u32_at(bytes, 52) as usize,
            records: u32_at(bytes, 56) as usize,
        })
    }

    /// How many bytes come after it.
    pub fn follows(&self) -> usize {
        let buffers = if self.digested {
            16
        } else {
            self.first + self.custody
        };
        buffers + self.records
    }

    /// Keeps the reply whose other bytes are these, [`Head::follows`] of them.
    pub fn keep(&self, bytes: &[u8], into: &mut Reply) {
        let (buffers, records) = bytes.split_at(bytes.len() - self.records);
        into.outcome = self.outcome;
        into.dock.word = self.word;
        into.dock.capacity = self.capacity;
        into.dock.records.clear();
        into.dock.records.extend_from_slice(records);
        into.digests = [0, 0];
        if self.digested {
            into.digests = [u64_at(buffers, 0), u64_at(buffers, 8)];
            keep_buffers(self.robust, &[], &[], &mut into.dock.buffers);
        } else {
            let (first, custody) = buffers.split_at(self.first);
            keep_buffers(self.robust, first, custody, &mut into.dock.buffers);
        }
    }
}

fn outcome(bytes: &[u8]) -> Outcome {
    Outcome {
        noted_owner: u64_at(bytes, 0),
        progress: u32_at(bytes, 8),
        number: u32_at(bytes, 12),
        value: u32_at(bytes, 16),
        noted: u32_at(bytes, 20),
        noted_index: u32_at(bytes, 24),
        steps: u32_at(bytes, 28),
    }
}

fn keep_buffers(robust: bool, first: &[u8], second: &[u8], into: &mut Buffers) {
    match (robust, &mut *into) {
        (false, Buffers::Plain { slots, custody }) => {
            keep_u32s(first, slots);
            keep_u32s(second, custody);
        }
        (true, Buffers::Robust { cells }) => keep_u64s(first, cells),
        (false, _) => {
            *into = Buffers::default();
            keep_buffers(robust, first, second, into);
        }
        (true, _) => {
            *into = Buffers::Robust { cells: Vec::new() };
            keep_buffers(robust, first, second, into);
        }
    }
}

fn keep_u32s(bytes: &[u8], into: &mut Vec<u32>) {
    into.clear();
    into.extend(bytes.chunks_exact(4).map(|chunk| u32_at(chunk, 0)));
}

fn keep_u64s(bytes: &[u8], into: &mut Vec<u64>) {
    into.clear();
    into.extend(bytes.chunks_exact(8).map(|chunk| u64_at(chunk, 0)));
}

fn u32_at(bytes: &[u8], at: usize) -> u32 {
    u32::from_le_bytes([bytes[at], bytes[at + 1], bytes[at + 2], bytes[at + 3]])
}

fn u64_at(bytes: &[u8], at: usize) -> u64 {
    u64::from(u32_at(bytes, at)) | u64::from(u32_at(bytes, at + 4)) << 32
}
