//! What the dock must look like beside the oracle's word and entries: records, lists, custody, and the
//! entries beyond the set's own.

use oracle_paused::{Call, LIST_LIMIT, Request};
use simmerhusk::raw::{Buffers, Dock, RECORD_BYTES};

pub const PLAIN_LIMIT: u32 = 16_777_214;
pub const ROBUST_LIMIT: u32 = 4_096;
pub const RECORD_LIMIT: usize = 16;

#[derive(Debug, Clone, Copy, PartialEq, Eq, Hash, PartialOrd, Ord)]
pub enum Kind {
    Plain,
    Robust,
}

impl Kind {
    pub fn limit(self) -> u32 {
        match self {
            Kind::Plain => PLAIN_LIMIT,
            Kind::Robust => ROBUST_LIMIT,
        }
    }
}

#[derive(Debug, Clone, Copy, PartialEq, Eq)]
pub enum Life {
    Idle,
    Calling(Request),
    Dead,
}

/// A list of owners, 0 beyond its count unless its bytes were poked.
#[derive(Debug, Clone, Copy, PartialEq, Eq, Default)]
pub struct List {
    pub count: u8,
    pub owners: [u64; LIST_LIMIT],
}

impl List {
    pub fn of(owners: &[u64]) -> Self {
        let mut list = Self {
            count: owners.len() as u8,
            ..Self::default()
        };
        list.owners[..owners.len()].copy_from_slice(owners);
        list
    }

    /// A poked one may have above 8 owners, or u64::MAX among those that it counts.
    pub fn is_good(&self) -> bool {
        let counted = self.owners.get(..self.count as usize);
        counted.is_some_and(|owners| !owners.contains(&u64::MAX))
    }
}

/// A record whose bytes were poked: it is gone by, not by its life.
#[derive(Debug, Clone, PartialEq, Eq)]
pub struct Damaged {
    pub who: u8,
    pub bytes: [u8; RECORD_BYTES],
}

#[derive(Debug, Clone)]
pub struct Shadow {
    pub kind: Kind,
    pub capacity: u32,
    pub lives: Vec<Life>,
    pub lists: Vec<List>,
    pub custody: Vec<u32>,
    /// How many slots or cells are lent.
    pub lent: usize,
    /// Those beyond the set's own, as they were lent; all of them if there is no set.
    pub slots_beyond: Vec<u32>,
    pub cells_beyond: Vec<u64>,
    /// The word while there is no set.
    pub word_alone: u64,
    pub damaged: Option<Damaged>,
}

impl Shadow {
    pub fn of(dock: &Dock) -> Self {
        let records = dock.records.len() / RECORD_BYTES;
        let (kind, lent) = match &dock.buffers {
            Buffers::Plain { slots, .. } => (Kind::Plain, slots.len()),
            Buffers::Robust { cells } => (Kind::Robust, cells.len()),
        };
        let mut shadow = Self {
            kind,
            capacity: dock.capacity,
            lives: vec![Life::Idle; records],
            lists: vec![List::default(); records],
            custody: Vec::new(),
            lent,
            slots_beyond: Vec::new(),
            cells_beyond: Vec::new(),
            word_alone: dock.word,
            damaged: None,
        };
        let own = shadow.own_entries();
        match &dock.buffers {
            Buffers::Plain { slots, custody } => {
                shadow.custody = custody.clone();
                shadow.slots_beyond = slots[own..].to_vec();
            }
            Buffers::Robust { cells } => shadow.cells_beyond = cells[own..].to_vec(),
        }
        shadow
    }

    /// How many slots or cells a capacity asks for.
    pub fn entries_for(&self, capacity: u32) -> usize {
        match self.kind {
            Kind::Plain => capacity as usize + 1,
            Kind::Robust => capacity as usize,
        }
    }

    pub fn is_short(&self) -> bool {
        let custody_is_short =
            self.kind == Kind::Plain && self.custody.len() < self.capacity as usize;
        self.lent < self.entries_for(self.capacity) || custody_is_short
    }

    /// How many of the lent entries are the set's own.
    pub fn own_entries(&self) -> usize {
        match self.has_set_buffers() {
            true => self.entries_for(self.capacity),
            false => 0,
        }
    }

    fn has_set_buffers(&self) -> bool {
        self.capacity != 0
            && self.capacity <= self.kind.limit()
            && self.lent >= self.entries_for(self.capacity)
    }

    pub fn is_busy(&self, who: u8) -> bool {
        matches!(self.lives.get(who as usize), Some(Life::Calling(_)))
    }

    pub fn is_idle(&self, who: u8) -> bool {
        matches!(self.lives.get(who as usize), Some(Life::Idle))
    }

    pub fn request(&self, who: u8) -> Option<Request> {
        match self.lives.get(who as usize) {
            Some(Life::Calling(request)) => Some(*request),
            _ => None,
        }
    }

    pub fn busy(&self) -> Vec<u8> {
        (0..self.lives.len() as u8)
            .filter(|who| self.is_busy(*who))
            .collect()
    }

    pub fn idle(&self) -> Vec<u8> {
        (0..self.lives.len() as u8)
            .filter(|who| self.is_idle(*who))
            .collect()
    }

    pub fn calls(&self, who: u8) -> Option<Call> {
        self.request(who).map(|request| request.call)
    }
}

/// The call of a number, if there is one.
pub fn call_of(number: u8) -> Option<Call> {
    match number {
        1 => Some(Call::Acquire),
        2 => Some(Call::Release),
        3 => Some(Call::Borrowed),
        4 => Some(Call::Locked),
        5 => Some(Call::Find),
        6 => Some(Call::Recover),
        _ => None,
    }
}
