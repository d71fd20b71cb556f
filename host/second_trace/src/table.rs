//! The table of thread records over one set, and what one entry does to both.
//!
//! A refusal changes nothing: each test stands before the first change. The
//! tests come in the scope's order: 9 here, then 13, 5, 7 and 8 (those that belong to
//! a call stand in the set's `start`).

use crate::format::Action;
use crate::kinds::{After, Answer, Call, Owner, Refusal, Report, Request};

/// The most owners that a list may name.
const LIST_LIMIT: usize = 8;

/// What the table needs of a set.
pub trait IndexSet {
    /// Where a call stands.
    type Place: Copy;

    /// Whether owner lists belong to this set.
    const TAKES_LISTS: bool;

    /// Judges a request and enters its call; touches no shared word.
    fn start(&mut self, record: u8, call: Call, asks: &Request) -> Result<Self::Place, Refusal>;

    /// Makes the one shared access of this place. The list is the record's.
    fn step(
        &mut self,
        record: u8,
        place: Self::Place,
        list: &[Owner],
    ) -> (Option<Report>, After<Self::Place>);

    /// The word or generation that `end` shows.
    fn shown(&self) -> u64;
}

#[derive(Clone, Copy)]
enum Life<Place> {
    Idle,
    InCall(Call, Place),
    Dead,
}

/// A thread record, with the owner list that its next recover goes by.
struct Record<Place> {
    life: Life<Place>,
    list: Vec<Owner>,
}

/// What an accepted entry did.
#[derive(Clone, Copy, PartialEq, Eq, Debug)]
pub enum Event {
    Began,
    Listed,
    Died,
    Stepped(Option<Report>),
    Answered(Option<Report>, Answer),
}

pub struct Table<Set: IndexSet> {
    pub set: Set,
    records: Vec<Record<Set::Place>>,
    pub acquires: u64,
    pub steps: u64,
}

impl<Set: IndexSet> Table<Set> {
    pub fn new(set: Set, records: u8) -> Self {
        let idle = || Record {
            life: Life::Idle,
            list: Vec::new(),
        };
        Table {
            set,
            records: (0..records).map(|_| idle()).collect(),
            acquires: 0,
            steps: 0,
        }
    }

    /// What an entry does to its record and the set.
    pub fn turn(&mut self, record: u8, action: Action) -> Result<Event, Refusal> {
        match action {
            Action::Start(request) => self.start(record, request),
            Action::Step => self.step(record),
            Action::Death => self.death(record),
            Action::List(owners) => self.list(record, owners),
        }
    }

    fn start(&mut self, number: u8, request: Request) -> Result<Event, Refusal> {
        let record = idle(&mut self.records, number)?;
        let call = Call::read(request.call)?;
        let place = self.set.start(number, call, &request)?;
        record.life = Life::InCall(call, place);
        Ok(Event::Began)
    }

    fn step(&mut self, number: u8) -> Result<Event, Refusal> {
        let record = known(&mut self.records, number)?;
        let Life::InCall(call, place) = record.life else {
            return Err(Refusal::RecordNotReady);
        };
        self.steps += 1;
        let (report, after) = self.set.step(number, place, &record.list);
        match after {
            After::GoesOn(place) => {
                record.life = Life::InCall(call, place);
                Ok(Event::Stepped(report))
            }
            After::Answers(answer) => {
                record.life = Life::Idle;
                match (call, answer) {
                    (Call::Acquire, Answer::Done(_)) => self.acquires += 1,
                    (Call::Recover, _) => record.list.clear(),
                    _ => {}
                }
                Ok(Event::Answered(report, answer))
            }
        }
    }

    fn list(&mut self, number: u8, owners: Vec<Owner>) -> Result<Event, Refusal> {
        let record = idle(&mut self.records, number)?;
        if !Set::TAKES_LISTS || owners.len() > LIST_LIMIT {
            return Err(Refusal::UnknownCall);
        }
        for owner in &owners {
            owner.named()?;
        }
        record.list = owners;
        Ok(Event::Listed)
    }

    fn death(&mut self, number: u8) -> Result<Event, Refusal> {
        let record = known(&mut self.records, number)?;
        if let Life::Dead = record.life {
            return Err(Refusal::RecordNotReady);
        }
        record.life = Life::Dead;
        Ok(Event::Died)
    }
}

/// The record, if there is one (9).
fn known<Place>(table: &mut [Record<Place>], number: u8) -> Result<&mut Record<Place>, Refusal> {
    table
        .get_mut(number as usize)
        .ok_or(Refusal::RecordNotReady)
}

/// The record, if it is there and idle: neither dead nor busy (9).
fn idle<Place>(table: &mut [Record<Place>], number: u8) -> Result<&mut Record<Place>, Refusal> {
    let record = known(table, number)?;
    match record.life {
        Life::Idle => Ok(record),
        Life::InCall(..) | Life::Dead => Err(Refusal::RecordNotReady),
    }
}
