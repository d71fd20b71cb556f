//! A thread record's bytes, and what the scope says of those that no call may leave (refusal 11).

pub use simmerhusk::raw::RECORD_BYTES;

use crate::shadow::{Kind, List};
use crate::words::{LOCKED, borrowed_of, head_of};

#[derive(Clone, Copy)]
pub struct RecordBytes<'a>(&'a [u8]);

impl<'a> RecordBytes<'a> {
    pub fn of(bytes: &'a [u8]) -> Self {
        assert_eq!(bytes.len(), RECORD_BYTES);
        Self(bytes)
    }

    fn four(&self, at: usize) -> u32 {
        u32::from_le_bytes(self.0[at..at + 4].try_into().expect("four bytes"))
    }

    fn eight(&self, at: usize) -> u64 {
        u64::from_le_bytes(self.0[at..at + 8].try_into().expect("eight bytes"))
    }

    pub fn is_dead(&self) -> bool {
        self.0[0] != 0
    }

    pub fn place(&self) -> u8 {
        self.0[1]
    }

    pub fn mode(&self) -> u8 {
        self.0[2]
    }

    pub fn listed(&self) -> u8 {
        self.0[3]
    }

    pub fn index(&self) -> u32 {
        self.four(4)
    }

    pub fn value(&self) -> u32 {
        self.four(8)
    }

    pub fn reported(&self) -> u32 {
        self.four(12)
    }

    pub fn room(&self) -> u32 {
        self.four(16)
    }

    pub fn count_cell(&self) -> u32 {
        self.four(20)
    }

    pub fn counted(&self) -> u32 {
        self.four(24)
    }

    pub fn seen(&self) -> u64 {
        self.eight(28)
    }

    pub fn owner(&self) -> u64 {
        self.eight(36)
    }

    pub fn generation(&self) -> u64 {
        self.eight(44)
    }

    pub fn count_generation(&self) -> u64 {
        self.eight(52)
    }

    pub fn bump_generation(&self) -> u64 {
        self.eight(60)
    }

    fn listed_owner(&self, number: usize) -> u64 {
        self.eight(68 + 8 * number)
    }

    /// As it stands there, good or bad.
    pub fn list(&self) -> List {
        List {
            count: self.listed(),
            owners: std::array::from_fn(|number| self.listed_owner(number)),
        }
    }

    pub fn has_good_list(&self) -> bool {
        self.list().is_good()
    }

    /// Whether the call, from its place on, remembers only what some look may leave.
    pub fn opens(&self, kind: Kind, capacity: u32) -> bool {
        match kind {
            Kind::Plain => self.opens_plain(capacity),
            Kind::Robust => self.opens_robust(capacity),
        }
    }

    fn has_mode(&self) -> bool {
        self.mode() < 2
    }

    fn opens_plain(&self, capacity: u32) -> bool {
        let borrowed = borrowed_of(self.seen());
        let index = self.index() < capacity;
        match self.place() {
            1 | 8 | 9 => true,
            2 | 3 => head_of(self.seen()) < capacity && borrowed != LOCKED,
            4 => index,
            5 => index && self.has_mode(),
            6 | 7 => index && self.has_mode() && borrowed != 0 && borrowed != LOCKED,
            _ => false,
        }
    }

    fn opens_robust(&self, capacity: u32) -> bool {
        let place = self.place();
        let index = self.index() < capacity;
        let owner = self.owner() != u64::MAX;
        let generation = self.generation() != u64::MAX;
        match place {
            16 => owner,
            17 => owner && generation && index,
            18 => owner && generation,
            19 => index,
            20 => index && self.opens_bump(),
            32 => index && owner && self.has_mode(),
            33 => self.has_mode(),
            34 => self.has_mode() && self.opens_bump(),
            35..=40 => self.opens_lock(place - 35, capacity),
            48..=51 => self.opens_count(place - 48, capacity),
            64 => true,
            80 => {
                owner && index && self.reported() <= self.index() && self.reported() < self.room()
            }
            96..=107 => self.opens_recover(place - 96, capacity),
            _ => false,
        }
    }

    fn opens_bump(&self) -> bool {
        self.bump_generation() != u64::MAX
    }

    fn opens_lock(&self, part: u8, capacity: u32) -> bool {
        match part {
            0 | 1 => true,
            part => self.opens_count(part - 2, capacity),
        }
    }

    fn opens_count(&self, part: u8, capacity: u32) -> bool {
        let generation = self.count_generation() != u64::MAX;
        let (cell, counted) = (self.count_cell(), self.counted());
        match part {
            0 => true,
            1 => generation && cell < capacity && counted <= cell,
            2 => generation && counted <= capacity,
            _ => generation && counted <= capacity && self.opens_bump(),
        }
    }

    fn opens_recover(&self, part: u8, capacity: u32) -> bool {
        let index = self.index() < capacity;
        let cell_follows = u64::from(self.index()) + 1 < u64::from(capacity);
        let goes_on = !cell_follows || self.has_good_list();
        match part {
            0 => self.has_mode() && self.has_good_list(),
            1 => index && self.has_mode() && self.has_good_list(),
            2 => index && self.has_mode() && self.owner() != u64::MAX && goes_on,
            3 => index && self.has_mode() && goes_on,
            4 => index && self.has_mode() && goes_on && self.opens_bump(),
            5..=10 => {
                let rest = !cell_follows || self.has_mode() && self.has_good_list();
                index && rest && self.opens_lock(part - 5, capacity)
            }
            _ => true,
        }
    }
}

pub fn write_list(record: &mut [u8], list: List) {
    record[3] = list.count;
    for (number, owner) in list.owners.iter().enumerate() {
        let at = 68 + 8 * number;
        record[at..at + 8].copy_from_slice(&owner.to_le_bytes());
    }
}
