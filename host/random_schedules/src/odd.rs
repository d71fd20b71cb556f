//! Entries that are likely to be refused, for one reason or for several.

use crate::compose::Composer;
use crate::entries::{Ask, Entry, ACQUIRE, FIND, NOBODY, RECOVER, RELEASE};
use crate::plan::Purpose;

impl Composer<'_> {
    pub fn odd_entry(&mut self) {
        let record = self.odd_record();
        match self.dice.below(12) {
            0..=5 => {
                let ask = self.odd_ask();
                self.begin(record, ask, 0);
            }
            6..=8 => {
                let owners = self.odd_list();
                self.list(record, owners);
            }
            9 => {
                let record = self.dead_or_missing_record();
                self.put(Entry::Death(record));
            }
            _ => self.put(Entry::Step(record)),
        }
    }

    /// A record, or one that is missing, or a dead one if there is any.
    fn odd_record(&mut self) -> u8 {
        match self.dice.below(8) {
            0 => self.missing_record(),
            1 | 2 => self.dead_or_missing_record(),
            _ => self.idle_record(),
        }
    }

    fn missing_record(&mut self) -> u8 {
        let records = self.plan.records;
        let choices = [records, records.saturating_add(1), 16, 17, 255];
        let record = self.dice.pick(&choices);
        record.max(records)
    }

    fn dead_or_missing_record(&mut self) -> u8 {
        let dead: Vec<u8> = (0..self.plan.records)
            .filter(|&record| self.guess.is_dead(record))
            .collect();
        if dead.is_empty() {
            return self.missing_record();
        }
        self.dice.pick(&dead)
    }

    fn idle_record(&mut self) -> u8 {
        let idle: Vec<u8> = (0..self.plan.records)
            .filter(|&record| self.guess.is_idle(record))
            .collect();
        if idle.is_empty() || self.dice.one_in(6) {
            return self.any_record(self.plan.records);
        }
        self.dice.pick(&idle)
    }

    /// A call with one or more fields that may be refused, each drawn by
    /// itself, so that several can be wrong at once.
    fn odd_ask(&mut self) -> Ask {
        let known = self
            .dice
            .pick(&[ACQUIRE, RELEASE, RELEASE, RELEASE, FIND, RECOVER]);
        let unknown = self.dice.pick(&[0, 7, 8, 127, 255]);
        let capacity = self.plan.capacity;
        let inside = self.dice.below(capacity.max(1) as u64) as u32;
        let outside = self
            .dice
            .pick(&[capacity, capacity.saturating_add(1), u32::MAX]);
        let owner = self.dice.pick(&self.plan.owners);
        let locking = (self.plan.purpose != Purpose::Long) as u64;
        let other_mode = self.dice.pick(&[2, 3, 128, 255]);
        Ask {
            call: self.dice.weighted(&[(5, known), (1, unknown)]),
            index_or_room: self.dice.weighted(&[(3, inside), (2, outside), (2, 0)]),
            owner: self.dice.weighted(&[(2, owner), (1, NOBODY)]),
            mode: self.dice.weighted(&[(2, 0), (locking, 1), (1, other_mode)]),
        }
    }

    /// A list with too many owners, or with one that no list may name, or on a
    /// plain set, or a good one.
    pub fn odd_list(&mut self) -> Vec<u64> {
        let some = self.dice.between(1, 8);
        let many = self.dice.between(10, 254);
        let count = self
            .dice
            .weighted(&[(1, 0), (6, some), (1, 8), (3, 9), (1, 255), (1, many)]);
        let mut owners = Vec::new();
        for _ in 0..count {
            owners.push(self.dice.pick(&self.plan.owners));
        }
        if count > 0 && self.dice.one_in(2) {
            let place = self.dice.place(owners.len());
            owners[place] = NOBODY;
        }
        owners
    }
}
