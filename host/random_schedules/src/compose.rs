//! The entries of a good schedule.
//!
//! A schedule goes in phases. Each has a way in which the records get their
//! turns and a mood, which calls are mostly made; both are drawn anew.

use crate::dice::Dice;
use crate::entries::{
    Ask, Entry, Schedule, ACQUIRE, BORROWED, FIND, LIST_LIMIT, LOCKED, RECOVER, RELEASE,
};
use crate::guess::{Guess, Held};
use crate::plan::{Plan, Purpose};

/// How the records get their turns.
#[derive(Clone, Copy, PartialEq, Eq)]
enum Turns {
    /// A call is run to its likely end.
    Whole,
    /// One entry each, in order, round and round.
    Alternate,
    /// One entry of any record.
    Any,
    /// Some entries of one record, then some of another.
    Bursts,
    /// Record 0 is seldom given a turn, so that the others overtake it.
    Stalled,
}

/// Which calls are mostly made.
#[derive(Clone, Copy, PartialEq, Eq)]
enum Mood {
    Mixed,
    Taking,
    Giving,
    Locking,
    Looking,
}

struct Phase {
    entries: u64,
    turns: Turns,
    mood: Mood,
    /// How many of the records have a part in it.
    among: u8,
}

impl Phase {
    fn draw(plan: &Plan, filling: bool, dice: &mut Dice) -> Phase {
        let few = dice.pick(&[1, 2, 2, 3]);
        let enough = plan.capacity.min(14) as u8 + 2;
        let among = dice.pick(&[few, enough, enough, plan.records]);
        let shortest = if plan.has_long_calls() { 400 } else { 10 };
        Phase {
            entries: shortest + dice.between(0, 300),
            turns: turns(plan, filling, dice),
            mood: mood(plan, filling, dice),
            among: among.min(plan.records),
        }
    }
}

fn turns(plan: &Plan, filling: bool, dice: &mut Dice) -> Turns {
    if plan.has_long_calls() || filling {
        return dice.weighted(&[(3, Turns::Whole), (2, Turns::Bursts), (1, Turns::Any)]);
    }
    dice.weighted(&[
        (2, Turns::Whole),
        (4, Turns::Alternate),
        (3, Turns::Any),
        (3, Turns::Bursts),
        (2, Turns::Stalled),
    ])
}

fn mood(plan: &Plan, filling: bool, dice: &mut Dice) -> Mood {
    if filling {
        return Mood::Taking;
    }
    let locking = (plan.purpose != Purpose::Long) as u64;
    dice.weighted(&[
        (16, Mood::Mixed),
        (8, Mood::Taking),
        (8, Mood::Giving),
        (2, Mood::Looking),
        (locking, Mood::Locking),
    ])
}

pub struct Composer<'a> {
    pub dice: &'a mut Dice,
    pub plan: &'a Plan,
    pub guess: Guess,
    schedule: Schedule,
    /// How many entries are still to be written.
    left: u64,
    cut_short: bool,
    was_full: bool,
    /// Whose turn it is where records alternate.
    next: u8,
}

/// A schedule to this plan: its setup and as many entries as are planned, or
/// fewer where nothing more is likely to happen.
pub fn compose(plan: &Plan, dice: &mut Dice) -> Schedule {
    let mut composer = Composer::new(plan, dice);
    while !composer.is_done() {
        if plan.purpose == Purpose::LockRace && !composer.cut_short {
            composer.race();
            composer.look_back();
        } else {
            composer.phase();
        }
    }
    composer.schedule
}

impl<'a> Composer<'a> {
    fn new(plan: &'a Plan, dice: &'a mut Dice) -> Composer<'a> {
        let mut schedule = Schedule::new();
        schedule.put(&Entry::Setup {
            set: plan.set,
            records: plan.records,
            capacity: plan.capacity,
        });
        Composer {
            dice,
            plan,
            guess: Guess::new(plan),
            schedule,
            left: plan.entries,
            cut_short: false,
            was_full: false,
            next: 0,
        }
    }

    pub fn is_done(&self) -> bool {
        self.left == 0
    }

    /// Writes an entry, if one is still to be written.
    pub fn put(&mut self, entry: Entry) {
        if !self.is_done() {
            self.schedule.put(&entry);
            self.left -= 1;
        }
    }

    fn phase(&mut self) {
        let filling = self.plan.purpose == Purpose::Filling && !self.was_full;
        let phase = Phase::draw(self.plan, filling, self.dice);
        let until = self.left.saturating_sub(phase.entries);
        while self.left > until {
            if self.dice.one_in(self.plan.odd_one_in) {
                self.odd_entry();
            } else if self.death_is_due() {
                self.death();
            } else {
                self.turn(&phase);
            }
            self.look_back();
        }
    }

    /// When all is locked or dead, some more entries are enough to see it.
    fn look_back(&mut self) {
        self.was_full |= self.guess.is_full();
        if self.guess.is_over() && !self.cut_short {
            self.left = self.left.min(self.dice.between(5, 150));
            self.cut_short = true;
        }
    }

    fn death_is_due(&mut self) -> bool {
        self.plan.deaths > 0 && self.dice.below(self.plan.entries) < self.plan.deaths
    }

    fn death(&mut self) {
        let record = self.any_record(self.plan.records);
        self.put(Entry::Death(record));
        self.guess.die(record);
    }

    fn turn(&mut self, phase: &Phase) {
        match phase.turns {
            Turns::Whole => {
                let record = self.any_record(phase.among);
                self.advance(record, phase);
                self.run(record);
            }
            Turns::Alternate => {
                self.next = if self.next + 1 < phase.among {
                    self.next + 1
                } else {
                    0
                };
                self.advance(self.next, phase);
            }
            Turns::Any => {
                let record = self.any_record(phase.among);
                self.advance(record, phase);
            }
            Turns::Bursts => {
                let record = self.any_record(phase.among);
                let most = if self.plan.has_long_calls() { 500 } else { 9 };
                for _ in 0..self.dice.between(1, most) {
                    self.advance(record, phase);
                }
            }
            Turns::Stalled => {
                let record = if self.dice.one_in(12) {
                    0
                } else {
                    self.any_record(phase.among)
                };
                self.advance(record, phase);
            }
        }
    }

    /// One of the first so many records, rather not a dead one.
    pub fn any_record(&mut self, among: u8) -> u8 {
        let mut record = 0;
        for _ in 0..3 {
            record = self.dice.below(among.max(1) as u64) as u8;
            if !self.guess.is_dead(record) {
                break;
            }
        }
        record
    }

    /// One entry of this record: a step, or a call where it is likely idle.
    fn advance(&mut self, record: u8, phase: &Phase) {
        if self.guess.is_idle(record) {
            self.start(record, phase);
        } else {
            self.step(record);
        }
    }

    pub fn step(&mut self, record: u8) {
        self.put(Entry::Step(record));
        self.guess.step(record);
    }

    pub fn step_if_busy(&mut self, record: u8) {
        if self.guess.is_busy(record) {
            self.step(record);
        }
    }

    /// A record's call to its likely end.
    pub fn run(&mut self, record: u8) {
        while self.guess.is_busy(record) && !self.is_done() {
            self.step(record);
        }
    }

    pub fn begin(&mut self, record: u8, ask: Ask, more: u64) {
        self.put(Entry::Start(record, ask));
        self.guess.begin(record, ask, more);
    }

    fn start(&mut self, record: u8, phase: &Phase) {
        let mut call = self.call(phase.mood);
        if call == ACQUIRE && self.guess.is_full() && !self.dice.one_in(4) {
            call = RELEASE;
        }
        self.lists(record, call == RECOVER, phase.mood);
        let mut ask = match call {
            ACQUIRE => self.acquire(record),
            RELEASE => self.release(record),
            FIND => self.find(),
            _ => self.bare(call),
        };
        if matches!(ask.call, RELEASE | RECOVER) {
            ask.mode = self.mode(phase.mood);
        }
        let alone = phase.turns == Turns::Whole || phase.among < 2;
        let more = if alone {
            0
        } else {
            self.dice.pick(&[0, 0, 0, 2, 4])
        };
        self.begin(record, ask, more);
    }

    fn call(&mut self, mood: Mood) -> u8 {
        // How often acquire, release, borrowed, locked, find and recover.
        let often: [u64; 6] = match mood {
            Mood::Mixed => [12, 11, 1, 1, 2, 2],
            Mood::Taking => [30, 3, 1, 1, 1, 1],
            Mood::Giving => [4, 30, 1, 1, 1, 3],
            Mood::Locking => [3, 9, 1, 1, 0, 3],
            Mood::Looking => [1, 1, 2, 2, 3, 1],
        };
        let of_the_set = if self.plan.robust() { 6 } else { 4 };
        let calls = [ACQUIRE, RELEASE, BORROWED, LOCKED, FIND, RECOVER];
        let choices: Vec<(u64, u8)> = often.into_iter().zip(calls).take(of_the_set).collect();
        self.dice.weighted(&choices)
    }

    pub fn acquire(&mut self, record: u8) -> Ask {
        let mut ask = self.bare(ACQUIRE);
        if self.plan.robust() {
            ask.owner = self.owner_of(record);
        }
        ask
    }

    /// A release in mode 0 of what is likely held, mostly; where nothing is,
    /// an acquire, mostly.
    pub fn release(&mut self, record: u8) -> Ask {
        let held = self.likely_held(record);
        if held.is_none() && !self.dice.one_in(4) {
            return self.acquire(record);
        }
        let mut ask = self.bare(RELEASE);
        ask.mode = 0;
        ask.index_or_room = self.dice.below(self.plan.capacity.max(1) as u64) as u32;
        if self.plan.robust() {
            ask.owner = self.owner_of(record);
        }
        if let Some(held) = held {
            if !self.dice.one_in(8) {
                ask.index_or_room = held.index;
            }
            if self.plan.robust() && !self.dice.one_in(8) {
                ask.owner = held.owner;
            }
        }
        ask
    }

    /// What this record may give back: on the plain set its own, on the robust
    /// set anything.
    fn likely_held(&mut self, record: u8) -> Option<Held> {
        let all = &self.guess.held;
        let own: Vec<Held> = all.iter().filter(|h| h.record == record).copied().collect();
        if !own.is_empty() && !self.dice.one_in(6) {
            return Some(self.dice.pick(&own));
        }
        if self.plan.robust() && !self.guess.held.is_empty() {
            return Some(self.dice.pick(&self.guess.held));
        }
        None
    }

    fn find(&mut self) -> Ask {
        let mut ask = self.bare(FIND);
        let some = self.dice.between(2, 20) as u32;
        let rooms = [1, 1, 2, some, self.plan.capacity.max(1), u32::MAX];
        ask.index_or_room = self.dice.pick(&rooms);
        ask.owner = self.dice.pick(&self.plan.owners);
        ask
    }

    /// The lists before a call: before a recover mostly one, and sometimes
    /// one more, which takes its place or is refused.
    fn lists(&mut self, record: u8, recovers: bool, mood: Mood) {
        let with_one = if recovers {
            !self.dice.one_in(4)
        } else {
            self.dice.one_in(40)
        };
        if self.plan.robust() && with_one {
            let owners = self.owners_to_list(mood);
            self.list(record, owners);
            if self.dice.one_in(3) {
                let owners = self.odd_list();
                self.list(record, owners);
            }
        }
    }

    pub fn list(&mut self, record: u8, owners: Vec<u64>) {
        self.guess.list(record, &owners);
        self.put(Entry::List(record, owners));
    }

    /// All owners that may hold something, or one of them behind strangers, or
    /// any of them among strangers.
    fn owners_to_list(&mut self, mood: Mood) -> Vec<u64> {
        if mood == Mood::Locking {
            return self.plan.owners.clone();
        }
        let behind = self.dice.one_in(4);
        let count = if behind {
            LIST_LIMIT
        } else {
            self.dice.between(0, LIST_LIMIT)
        };
        let mut owners = Vec::new();
        for place in 0..count {
            let last = place + 1 == LIST_LIMIT;
            let likely = if behind { last } else { self.dice.one_in(2) };
            owners.push(if likely {
                self.dice.pick(&self.plan.owners)
            } else {
                self.dice.between(1_000, 1_007)
            });
        }
        owners
    }

    fn mode(&mut self, mood: Mood) -> u8 {
        let locks = match mood {
            Mood::Locking => !self.dice.one_in(4),
            _ => self.dice.one_in(self.plan.locks_one_in),
        };
        locks as u8
    }

    /// The owner in whose name a record mostly works.
    fn owner_of(&mut self, record: u8) -> u64 {
        if self.dice.one_in(6) {
            return self.dice.pick(&self.plan.owners);
        }
        self.plan.owners[record as usize % self.plan.owners.len()]
    }

    /// A call with nothing in the fields that it does not look at, or with
    /// anything.
    pub fn bare(&mut self, call: u8) -> Ask {
        if self.dice.one_in(4) {
            return Ask {
                call,
                index_or_room: self.dice.any() as u32,
                owner: self.dice.pick(&[0, 7, u64::MAX]),
                mode: self.dice.byte(),
            };
        }
        Ask {
            call,
            index_or_room: 0,
            owner: 0,
            mode: 0,
        }
    }
}
