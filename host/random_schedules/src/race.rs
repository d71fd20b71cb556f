//! Races to the lock: records are in the middle of calls that lock the set, or
//! that a lock overtakes. A set is locked only once, so such a schedule is short,
//! there are many of them, and each has many records stand in a lock's way.

use crate::compose::Composer;
use crate::entries::{Ask, ACQUIRE, BORROWED, LOCKED, RECOVER, RELEASE};

impl Composer<'_> {
    pub fn race(&mut self) {
        self.take_some();
        if self.dice.one_in(4) {
            self.run_against_each_other();
        } else {
            self.overtake_the_others();
        }
    }

    /// The first records take indexes, for most of which there is one.
    fn take_some(&mut self) {
        let takers = self.dice.between(1, self.plan.capacity as u64 + 1) as u8;
        for record in 0..takers.min(self.plan.records) {
            self.take(record);
        }
    }

    fn take(&mut self, record: u8) {
        let ask = self.acquire(record);
        self.begin(record, ask, 0);
        self.run(record);
    }

    /// Every record begins a call, then the calls are run in turns of any
    /// length.
    fn run_against_each_other(&mut self) {
        let records = self.plan.records;
        for record in 0..records {
            self.enter(record);
        }
        while (0..records).any(|record| self.guess.is_busy(record)) && !self.is_done() {
            let record = self.any_record(records);
            let steps = self.dice.between(1, 14);
            self.take_steps(record, steps);
        }
    }

    /// One record gives back all that is held, while each of the others stands
    /// still anywhere in its call. Then they go on.
    fn overtake_the_others(&mut self) {
        let one = self.any_record(self.plan.records);
        let others: Vec<u8> = (0..self.plan.records).filter(|&r| r != one).collect();
        for &other in &others {
            if self.guess.held.is_empty() {
                self.take(one);
            }
            self.enter(other);
            let any = self.guess.steps_left(other);
            let steps = self.dice.below(any.clamp(8, 16));
            self.take_steps(other, steps);
        }
        if self.dice.one_in(2) {
            self.take(one);
        }
        if !self.dice.one_in(4) {
            self.give_back_all(one);
        }
        for &other in &others {
            self.run(other);
            for _ in 0..self.dice.below(5) {
                self.step(other);
            }
        }
    }

    /// Releases all that is held, as far as the record may; the last of them
    /// locks.
    fn give_back_all(&mut self, record: u8) {
        for held in self.guess.held.clone() {
            if self.plan.robust() || held.record == record {
                let ask = Ask {
                    call: RELEASE,
                    index_or_room: held.index,
                    owner: held.owner,
                    mode: 1,
                };
                self.begin(record, ask, 0);
                self.run(record);
            }
        }
    }

    fn take_steps(&mut self, record: u8, steps: u64) {
        for _ in 0..steps {
            self.step_if_busy(record);
        }
    }

    /// Begins a call that may lock, or that may meet a lock.
    fn enter(&mut self, record: u8) {
        let recover = if self.plan.robust() { 8 } else { 0 };
        let call = self.dice.weighted(&[
            (6, RELEASE),
            (recover, RECOVER),
            (6, ACQUIRE),
            (1, BORROWED),
            (1, LOCKED),
        ]);
        let mode = !self.dice.one_in(4) as u8;
        let ask = match call {
            RELEASE => Ask {
                mode,
                ..self.release(record)
            },
            RECOVER => {
                let all = self.plan.owners.clone();
                self.list(record, all);
                Ask {
                    mode,
                    ..self.bare(RECOVER)
                }
            }
            ACQUIRE => self.acquire(record),
            _ => self.bare(call),
        };
        self.begin(record, ask, 0);
    }
}
