//! What each record is likely to be doing, and who is likely to hold what.
//!
//! This is only for choosing entries that have something to do: how many steps
//! a call is likely to take, and which index it is likely to get. It has no
//! words, slots, cells or answers, and most of what may come between two steps
//! is left out. So it strays, and comes right again when a record has been given
//! enough steps.

use crate::entries::{
    Ask, ACQUIRE, BORROWED, CAPACITY_LIMIT, FIND, LIST_LIMIT, LOCKED, NOBODY, RECOVER, RELEASE,
};
use crate::plan::Plan;

/// An index that is likely to be held.
#[derive(Clone, Copy)]
pub struct Held {
    pub index: u32,
    pub record: u8,
    pub owner: u64,
}

/// A call that is likely to be in progress.
#[derive(Clone, Copy)]
struct Call {
    ask: Ask,
    steps_left: u64,
    /// How many steps are left when an index is granted or given back.
    effect_at: u64,
    /// How often the set had changed when the call last looked.
    looked: Option<u64>,
}

#[derive(Clone, Copy)]
enum State {
    Idle,
    Busy(Call),
    Dead,
}

struct Record {
    state: State,
    list: Vec<u64>,
}

pub struct Guess {
    robust: bool,
    cells: u64,
    records: Vec<Record>,
    /// The indexes that are likely to be free; on the plain set the next to be
    /// granted is the last of them, on the robust set the least.
    free: Vec<u32>,
    pub held: Vec<Held>,
    /// How often an index was likely granted or given back.
    changes: u64,
    locked: bool,
}

impl Guess {
    pub fn new(plan: &Plan) -> Guess {
        let cells = plan.capacity.min(CAPACITY_LIMIT);
        let idle = || Record {
            state: State::Idle,
            list: Vec::new(),
        };
        Guess {
            robust: plan.robust(),
            cells: cells as u64,
            records: (0..plan.records).map(|_| idle()).collect(),
            free: (0..cells).rev().collect(),
            held: Vec::new(),
            changes: 0,
            locked: false,
        }
    }

    pub fn is_idle(&self, record: u8) -> bool {
        matches!(self.state(record), Some(State::Idle))
    }

    pub fn is_busy(&self, record: u8) -> bool {
        matches!(self.state(record), Some(State::Busy(_)))
    }

    pub fn is_dead(&self, record: u8) -> bool {
        matches!(self.state(record), Some(State::Dead))
    }

    /// How many more steps the record's call is likely to take.
    pub fn steps_left(&self, record: u8) -> u64 {
        match self.state(record) {
            Some(State::Busy(call)) => call.steps_left,
            _ => 0,
        }
    }

    /// Whether no index is likely to be free.
    pub fn is_full(&self) -> bool {
        self.free.is_empty()
    }

    /// Whether nothing more is likely to come of this set.
    pub fn is_over(&self) -> bool {
        let is_dead = |record: &Record| matches!(record.state, State::Dead);
        self.locked || self.records.iter().all(is_dead)
    }

    fn state(&self, record: u8) -> Option<State> {
        self.records.get(record as usize).map(|found| found.state)
    }

    /// A start was written. `more` is for steps that the robust set's call may
    /// take beyond those that it takes alone.
    pub fn begin(&mut self, record: u8, ask: Ask, more: u64) {
        if self.is_idle(record) && self.may_begin(record, &ask) {
            let alone = self.steps_alone(record, &ask);
            let steps_left = if self.robust { alone + more } else { alone };
            let call = Call {
                ask,
                steps_left,
                effect_at: self.effect_at(ask.call, steps_left),
                looked: None,
            };
            self.records[record as usize].state = State::Busy(call);
        }
    }

    /// Where in so many steps a call grants or gives back; a recover, which
    /// may do so often, is taken to do all of it at its first cell.
    fn effect_at(&self, call: u8, steps: u64) -> u64 {
        match (call, self.robust) {
            (ACQUIRE, false) => 2,
            (ACQUIRE, true) => steps.min(3),
            (RELEASE, true) => steps,
            (RECOVER, true) => steps.max(3) - 2,
            _ => 1,
        }
    }

    /// Whether this is a call that the set is likely to enter.
    fn may_begin(&self, record: u8, ask: &Ask) -> bool {
        let named = !self.robust || ask.owner != NOBODY;
        match ask.call {
            ACQUIRE => named,
            RELEASE if self.robust => named && ask.mode < 2,
            RELEASE => ask.mode < 2 && self.holds(record, ask),
            BORROWED | LOCKED => true,
            FIND => self.robust && named && ask.index_or_room > 0,
            RECOVER => self.robust && ask.mode < 2,
            _ => false,
        }
    }

    /// Whether what a release asks for is there to be released.
    fn holds(&self, record: u8, ask: &Ask) -> bool {
        let by_asker = |held: &Held| {
            if self.robust {
                held.owner == ask.owner
            } else {
                held.record == record
            }
        };
        let asked = |held: &Held| held.index == ask.index_or_room && by_asker(held);
        self.held.iter().any(asked)
    }

    /// A step was written.
    pub fn step(&mut self, record: u8) {
        if let Some(State::Busy(mut call)) = self.state(record) {
            if self.loses(&mut call) {
                call.steps_left += 1;
            } else {
                if call.steps_left == call.effect_at {
                    self.take_effect(record, &call.ask);
                }
                call.steps_left -= 1;
            }
            if self.finds_none(&call) {
                call.steps_left = 0;
            }
            self.records[record as usize].state = if call.steps_left > 0 {
                State::Busy(call)
            } else {
                self.locked |= self.locks(&call.ask);
                State::Idle
            };
        }
    }

    /// A death was written.
    pub fn die(&mut self, record: u8) {
        if let Some(found) = self.records.get_mut(record as usize) {
            found.state = State::Dead;
        }
    }

    /// A list was written.
    pub fn list(&mut self, record: u8, owners: &[u64]) {
        let taken = owners.len() <= LIST_LIMIT as usize && !owners.contains(&NOBODY);
        if self.is_idle(record) && taken {
            self.records[record as usize].list = owners.to_vec();
        }
    }

    /// Whether this step is an exchange of the plain set that comes too late.
    /// That is also a look, as the first step is.
    fn loses(&self, call: &mut Call) -> bool {
        let exchanges = !self.robust
            && matches!(call.ask.call, ACQUIRE | RELEASE)
            && call.steps_left == call.effect_at;
        let lost = exchanges && call.looked != Some(self.changes);
        if lost || call.looked.is_none() {
            call.looked = Some(self.changes);
        }
        lost
    }

    /// Whether an acquire of the plain set that has just looked ends there.
    fn finds_none(&self, call: &Call) -> bool {
        let looked = call.steps_left == 3 && call.looked == Some(self.changes);
        !self.robust && call.ask.call == ACQUIRE && looked && self.is_full()
    }

    fn steps_alone(&self, record: u8, ask: &Ask) -> u64 {
        match (ask.call, self.robust) {
            (ACQUIRE, _) if self.locked => 1,
            (ACQUIRE, false) => 4,
            (ACQUIRE, true) => self
                .least_free()
                .map_or(self.cells + 2, |free| free as u64 + 4),
            (RELEASE, false) => 3,
            (RELEASE, true) if !self.holds(record, ask) => 1,
            (RELEASE, true) if ask.mode == 0 => 3,
            (RELEASE, true) => 8 + self.cells,
            (BORROWED, true) => 3 + self.cells,
            (FIND, true) => self.cells.max(1),
            (RECOVER, true) => 2 + self.cells + self.steps_of_freeing(record, ask.mode),
            _ => 1,
        }
    }

    fn steps_of_freeing(&self, record: u8, mode: u8) -> u64 {
        let list = &self.records[record as usize].list;
        let freed = self.held.iter().filter(|held| list.contains(&held.owner));
        let each = if mode == 0 { 3 } else { 8 + self.cells };
        freed.count() as u64 * each
    }

    fn least_free(&self) -> Option<u32> {
        self.free.iter().min().copied()
    }

    fn take_effect(&mut self, record: u8, ask: &Ask) {
        match ask.call {
            ACQUIRE => self.grant(record, ask.owner),
            RELEASE if self.holds(record, ask) => {
                self.give_back(|held| held.index == ask.index_or_room);
            }
            RECOVER => {
                let list = std::mem::take(&mut self.records[record as usize].list);
                self.give_back(|held| list.contains(&held.owner));
            }
            _ => {}
        }
    }

    fn locks(&self, ask: &Ask) -> bool {
        matches!(ask.call, RELEASE | RECOVER) && ask.mode == 1 && self.held.is_empty()
    }

    fn grant(&mut self, record: u8, owner: u64) {
        let next = if self.robust {
            self.least_free()
        } else {
            self.free.last().copied()
        };
        if let Some(index) = next {
            self.changes += 1;
            self.free.retain(|&free| free != index);
            let held = Held {
                index,
                record,
                owner,
            };
            self.held.push(held);
        }
    }

    fn give_back(&mut self, whether: impl Fn(&Held) -> bool) {
        let back: Vec<u32> = self
            .held
            .iter()
            .filter(|held| whether(held))
            .map(|held| held.index)
            .collect();
        self.changes += back.len() as u64;
        self.free.extend(back);
        self.held.retain(|held| !whether(held));
    }
}
