//! Entries to bytes: a length of two bytes, counting what follows, a kind of
//! two bytes and a body; all little-endian.

pub const PLAIN: u8 = 0;
pub const ROBUST: u8 = 1;

pub const ACQUIRE: u8 = 1;
pub const RELEASE: u8 = 2;
pub const BORROWED: u8 = 3;
pub const LOCKED: u8 = 4;
pub const FIND: u8 = 5;
pub const RECOVER: u8 = 6;

/// The owner that no call may name.
pub const NOBODY: u64 = u64::MAX;

/// The largest capacity that a trace program takes.
pub const CAPACITY_LIMIT: u32 = 1024;

/// The most owners that a list may name.
pub const LIST_LIMIT: u64 = 8;

/// What a start asks.
#[derive(Clone, Copy, PartialEq, Eq, Debug)]
pub struct Ask {
    pub call: u8,
    pub index_or_room: u32,
    pub owner: u64,
    pub mode: u8,
}

#[derive(Clone, PartialEq, Eq, Debug)]
pub enum Entry {
    Setup { set: u8, records: u8, capacity: u32 },
    Start(u8, Ask),
    Step(u8),
    Death(u8),
    List(u8, Vec<u64>),
}

impl Entry {
    pub fn bytes(&self) -> Vec<u8> {
        match self {
            Entry::Setup {
                set,
                records,
                capacity,
            } => {
                let mut body = vec![*set, *records];
                body.extend(capacity.to_le_bytes());
                framed(1, &body)
            }
            Entry::Start(record, ask) => {
                let mut body = vec![*record, ask.call];
                body.extend(ask.index_or_room.to_le_bytes());
                body.extend(ask.owner.to_le_bytes());
                body.push(ask.mode);
                framed(2, &body)
            }
            Entry::Step(record) => framed(3, &[*record]),
            Entry::Death(record) => framed(4, &[*record]),
            Entry::List(record, owners) => {
                let mut body = vec![*record, owners.len() as u8];
                body.extend(owners.iter().flat_map(|owner| owner.to_le_bytes()));
                framed(5, &body)
            }
        }
    }
}

/// A body behind its length and kind.
pub fn framed(kind: u16, body: &[u8]) -> Vec<u8> {
    let length = body.len() as u16 + 2;
    let mut bytes = length.to_le_bytes().to_vec();
    bytes.extend(kind.to_le_bytes());
    bytes.extend(body);
    bytes
}

/// A good schedule's bytes, and where each of its entries begins.
pub struct Schedule {
    pub bytes: Vec<u8>,
    pub begins: Vec<usize>,
}

impl Schedule {
    pub fn new() -> Schedule {
        Schedule {
            bytes: Vec::new(),
            begins: Vec::new(),
        }
    }

    pub fn put(&mut self, entry: &Entry) {
        self.begins.push(self.bytes.len());
        self.bytes.extend(entry.bytes());
    }

    /// Where an entry ends.
    pub fn end(&self, entry: usize) -> usize {
        match self.begins.get(entry + 1) {
            Some(&next) => next,
            None => self.bytes.len(),
        }
    }
}
