//! The exported calls on plain numbers, bytes and buffers, as `host/simmerhusk.h` has them, over one resident dock.

#[cfg(not(linked))]
mod driver;
#[cfg(linked)]
mod linked;
#[cfg(not(linked))]
mod wire;

use std::io;

#[cfg(not(linked))]
use driver::Reached;
#[cfg(linked)]
use linked::Reached;

/// How many bytes a thread record has.
pub const RECORD_BYTES: usize = 132;

/// A dock with more slots, custody entries and cells than this is replied with digests in their place.
pub const WHOLE_LIMIT: usize = 4096;

#[derive(Clone, Debug, PartialEq, Eq)]
pub enum Buffers {
    Plain { slots: Vec<u32>, custody: Vec<u32> },
    Robust { cells: Vec<u64> },
}

impl Buffers {
    /// How many slots, custody entries and cells there are together.
    pub fn entries(&self) -> usize {
        match self {
            Buffers::Plain { slots, custody } => slots.len() + custody.len(),
            Buffers::Robust { cells } => cells.len(),
        }
    }
}

impl Default for Buffers {
    fn default() -> Buffers {
        Buffers::Plain {
            slots: Vec::new(),
            custody: Vec::new(),
        }
    }
}

/// A set with all that it is lent. `records` has [`RECORD_BYTES`] for each.
#[derive(Clone, Debug, Default, PartialEq, Eq)]
pub struct Dock {
    pub capacity: u32,
    /// The plain set's head word, the robust set's generation.
    pub word: u64,
    pub buffers: Buffers,
    pub records: Vec<u8>,
}

/// What is done to the resident dock. A poke writes what is resident, and its reply has an outcome of zeros.
#[derive(Clone, Debug, PartialEq, Eq)]
pub enum Op {
    Setup {
        asked: u32,
    },
    Start {
        who: u8,
        call: u8,
        index_or_room: u32,
        owner: u64,
        mode: u8,
    },
    Step {
        who: u8,
    },
    Drain {
        who: u8,
        budget: u32,
    },
    List {
        who: u8,
        owners: Vec<u64>,
    },
    Death {
        who: u8,
    },
    PokeWord(u64),
    /// Which slot, and its value.
    PokeSlot(u32, u32),
    PokeCustody(u32, u32),
    PokeCell(u32, u64),
    /// At which byte of the records, and the bytes.
    PokeRecords(u32, Vec<u8>),
}

/// What a call comes back with, in the header's numbers.
#[repr(C)]
#[derive(Clone, Copy, Debug, Default, PartialEq, Eq)]
pub struct Outcome {
    pub noted_owner: u64,
    pub progress: u32,
    pub number: u32,
    pub value: u32,
    pub noted: u32,
    pub noted_index: u32,
    pub steps: u32,
}

/// An op's outcome, and the dock after it. Beyond [`WHOLE_LIMIT`] the dock's buffers are empty here, and `digests` stand for them:
/// FNV-1a of the slots' and the custody's little-endian bytes, or of the cells' and 0. Else they are zeros.
#[derive(Clone, Debug, Default, PartialEq, Eq)]
pub struct Reply {
    pub outcome: Outcome,
    pub dock: Dock,
    pub digests: [u64; 2],
}

/// The way to the calls: the archive in this process, or the driver in one of its own. Ops may be queued far ahead of their
/// replies. What goes wrong with an op comes up where its reply is asked for.
pub struct Port {
    reached: Reached,
}

impl Port {
    /// Fails if there is no driver where one is needed.
    pub fn open() -> io::Result<Port> {
        Ok(Port {
            reached: Reached::open()?,
        })
    }

    /// Replaces what is resident. It takes its place in the queue, and has no reply.
    pub fn load(&mut self, dock: &Dock) {
        self.reached.load(dock);
    }

    pub fn queue(&mut self, op: &Op) {
        self.reached.queue(op);
    }

    /// Sends what is queued.
    pub fn flush(&mut self) {
        self.reached.flush();
    }

    /// The reply to the oldest op that has none yet.
    ///
    /// # Panics
    /// Where [`Port::try_reply`] fails.
    pub fn reply(&mut self, into: &mut Reply) {
        if let Err(error) = self.try_reply(into) {
            panic!("no reply of the exported calls: {error}");
        }
    }

    /// As [`Port::reply`]. Fails if no op waits for its reply, if one was a poke outside of its buffer, and if the driver ended.
    pub fn try_reply(&mut self, into: &mut Reply) -> io::Result<()> {
        self.reached.reply(into)
    }

    /// The resident dock, whole however large it is. Fails as [`Port::try_reply`], and if an op still waits for its reply.
    pub fn fetch(&mut self, into: &mut Dock) -> io::Result<()> {
        self.reached.fetch(into)
    }
}

const NONE_WAITS: &str = "no op waits for its reply";
const ONE_WAITS: &str = "an op still waits for its reply";

fn invalid_input(why: &str) -> io::Error {
    io::Error::new(io::ErrorKind::InvalidInput, why)
}
