//! The robust set, `RobustUniqueIndexSet`: cells that say their owner, and a
//! generation counter.
//!
//! Each arm of `step` is one shared access and the local work up to the next.
//! Bump, count and lock are parts that several calls share, so their places
//! say what they are for, and `bump_ended`, `count_ended` and `lock_ended` say
//! how the call goes on after them.

use crate::kinds::{After, Answer, Call, Generation, Index, Mode, Owner, Refusal, Report, Request};
use crate::table::IndexSet;
use After::{Answers, GoesOn};

/// The access that a call makes next, and what it remembers.
#[derive(Clone, Copy, PartialEq, Eq, Debug)]
pub enum Place {
    AcquireLook {
        owner: Owner,
    },
    AcquireCell {
        owner: Owner,
        seen: Generation,
        cell: Index,
    },
    AcquireClose {
        owner: Owner,
        seen: Generation,
    },
    ReleaseCell {
        index: Index,
        owner: Owner,
        mode: Mode,
    },
    IsLockedLook,
    FindCell {
        owner: Owner,
        room: u32,
        cell: Index,
        reported: u32,
    },
    RecoverLook {
        mode: Mode,
    },
    RecoverLoad {
        mode: Mode,
        cell: Index,
    },
    RecoverExchange {
        mode: Mode,
        cell: Index,
        seen: Owner,
    },
    RecoverLastLook,
    BumpLook(BumpFor),
    BumpExchange(BumpFor, Generation),
    CountLook(CountFor),
    CountCell {
        purpose: CountFor,
        seen: Generation,
        cell: Index,
        counted: u32,
    },
    LockLook(LockFor),
    LockExchange(LockFor, Generation),
}

/// `increment_generation_counter`, and what comes after it.
#[derive(Clone, Copy, PartialEq, Eq, Debug)]
pub enum BumpFor {
    Acquire {
        won: Index,
    },
    Release {
        mode: Mode,
    },
    Recover {
        mode: Mode,
        cell: Index,
    },
    Count {
        purpose: CountFor,
        seen: Generation,
        counted: u32,
    },
}

/// `borrowed_indices_and_generation_counter`, and what comes after it.
#[derive(Clone, Copy, PartialEq, Eq, Debug)]
pub enum CountFor {
    Borrowed,
    Lock(LockFor),
}

/// `lock`, and what comes after it. A recover that locks has mode 1.
#[derive(Clone, Copy, PartialEq, Eq, Debug)]
pub enum LockFor {
    Release,
    Recover { cell: Index },
}

pub struct RobustSet {
    pub generation: Generation,
    pub cells: Vec<Owner>,
}

impl RobustSet {
    pub fn new(capacity: u32) -> RobustSet {
        RobustSet {
            generation: Generation(0),
            cells: vec![Owner::EMPTY; capacity as usize],
        }
    }

    /// The cell after this one, if there is one.
    fn cell_after(&self, cell: Index) -> Option<Index> {
        let next = cell.next();
        (next.at() < self.cells.len()).then_some(next)
    }

    fn exchange_cell(&mut self, cell: Index, old: Owner, new: Owner) -> bool {
        let won = self.cells[cell.at()] == old;
        if won {
            self.cells[cell.at()] = new;
        }
        won
    }

    /// Gives back the generation found if that is not `old`.
    fn exchange(&mut self, old: Generation, new: Generation) -> Result<(), Generation> {
        if self.generation != old {
            return Err(self.generation);
        }
        self.generation = new;
        Ok(())
    }

    /// What an acquire does with a generation it has seen, by its look or by
    /// a closing exchange that failed.
    fn acquire_saw(&self, owner: Owner, seen: Generation) -> After<Place> {
        if seen == Generation::LOCKED {
            return Answers(Answer::Locked);
        }
        let cell = Index::FIRST;
        GoesOn(Place::AcquireCell { owner, seen, cell })
    }

    /// A bump that has seen the generation, by its look or a failed exchange.
    fn bump_saw(&self, purpose: BumpFor, seen: Generation) -> After<Place> {
        if seen == Generation::LOCKED {
            return self.bump_ended(purpose, seen);
        }
        GoesOn(Place::BumpExchange(purpose, seen))
    }

    fn bump_ended(&self, purpose: BumpFor, ended: Generation) -> After<Place> {
        let locked = ended == Generation::LOCKED;
        match purpose {
            BumpFor::Acquire { .. } if locked => Answers(Answer::Locked),
            BumpFor::Acquire { won } => Answers(Answer::Done(won.0)),
            BumpFor::Release { mode } => match mode {
                Mode::Default => Answers(Answer::state(false)),
                Mode::LockIfLastIndex => GoesOn(Place::LockLook(LockFor::Release)),
            },
            BumpFor::Recover { .. } if locked => Answers(Answer::state(true)),
            BumpFor::Recover { mode, cell } => match mode {
                Mode::Default => self.recover_passed(mode, cell),
                Mode::LockIfLastIndex => GoesOn(Place::LockLook(LockFor::Recover { cell })),
            },
            BumpFor::Count {
                purpose,
                seen,
                counted,
            } => {
                if ended == seen.next() {
                    self.count_ended(purpose, counted, ended)
                } else {
                    GoesOn(Place::CountLook(purpose))
                }
            }
        }
    }

    fn count_ended(&self, purpose: CountFor, counted: u32, at: Generation) -> After<Place> {
        match purpose {
            CountFor::Borrowed => Answers(Answer::Done(counted)),
            CountFor::Lock(purpose) if counted == 0 => GoesOn(Place::LockExchange(purpose, at)),
            CountFor::Lock(purpose) => self.lock_ended(purpose, false),
        }
    }

    fn lock_ended(&self, purpose: LockFor, locked: bool) -> After<Place> {
        match purpose {
            LockFor::Release => Answers(Answer::state(locked)),
            LockFor::Recover { cell } => self.recover_passed(Mode::LockIfLastIndex, cell),
        }
    }

    /// A recover has done with a cell.
    fn recover_passed(&self, mode: Mode, cell: Index) -> After<Place> {
        match self.cell_after(cell) {
            Some(cell) => GoesOn(Place::RecoverLoad { mode, cell }),
            None => GoesOn(Place::RecoverLastLook),
        }
    }

    fn access(
        &mut self,
        place: Place,
        list: &[Owner],
        report: &mut Option<Report>,
    ) -> After<Place> {
        match place {
            Place::AcquireLook { owner } => self.acquire_saw(owner, self.generation),
            Place::AcquireCell { owner, seen, cell } => {
                if self.exchange_cell(cell, Owner::EMPTY, owner) {
                    return GoesOn(Place::BumpLook(BumpFor::Acquire { won: cell }));
                }
                match self.cell_after(cell) {
                    Some(cell) => GoesOn(Place::AcquireCell { owner, seen, cell }),
                    None => GoesOn(Place::AcquireClose { owner, seen }),
                }
            }
            Place::AcquireClose { owner, seen } => match self.exchange(seen, seen) {
                Ok(()) => Answers(Answer::OutOfIndices),
                Err(found) => self.acquire_saw(owner, found),
            },
            Place::ReleaseCell { index, owner, mode } => {
                if self.exchange_cell(index, owner, Owner::EMPTY) {
                    GoesOn(Place::BumpLook(BumpFor::Release { mode }))
                } else {
                    Answers(Answer::NotOwned)
                }
            }
            Place::IsLockedLook => Answers(Answer::state(self.generation == Generation::LOCKED)),
            Place::FindCell {
                owner,
                room,
                cell,
                mut reported,
            } => {
                if self.cells[cell.at()] == owner {
                    *report = Some(Report::Found(cell));
                    reported += 1;
                }
                match self.cell_after(cell) {
                    Some(cell) if reported < room => GoesOn(Place::FindCell {
                        owner,
                        room,
                        cell,
                        reported,
                    }),
                    _ => Answers(Answer::Done(reported)),
                }
            }
            Place::RecoverLook { mode } => {
                if self.generation == Generation::LOCKED {
                    return Answers(Answer::state(true));
                }
                let cell = Index::FIRST;
                GoesOn(Place::RecoverLoad { mode, cell })
            }
            Place::RecoverLoad { mode, cell } => {
                let seen = self.cells[cell.at()];
                if seen != Owner::EMPTY && list.contains(&seen) {
                    return GoesOn(Place::RecoverExchange { mode, cell, seen });
                }
                self.recover_passed(mode, cell)
            }
            Place::RecoverExchange { mode, cell, seen } => {
                if self.exchange_cell(cell, seen, Owner::EMPTY) {
                    *report = Some(Report::Freed(cell, seen));
                    return GoesOn(Place::BumpLook(BumpFor::Recover { mode, cell }));
                }
                self.recover_passed(mode, cell)
            }
            Place::RecoverLastLook => Answers(Answer::state(self.generation == Generation::LOCKED)),
            Place::BumpLook(purpose) => self.bump_saw(purpose, self.generation),
            Place::BumpExchange(purpose, seen) => match self.exchange(seen, seen.next()) {
                Ok(()) => self.bump_ended(purpose, seen.next()),
                Err(found) => self.bump_saw(purpose, found),
            },
            Place::CountLook(purpose) => {
                let seen = self.generation;
                if seen == Generation::LOCKED {
                    return self.count_ended(purpose, 0, seen);
                }
                GoesOn(Place::CountCell {
                    purpose,
                    seen,
                    cell: Index::FIRST,
                    counted: 0,
                })
            }
            Place::CountCell {
                purpose,
                seen,
                cell,
                mut counted,
            } => {
                if self.cells[cell.at()] != Owner::EMPTY {
                    counted += 1;
                }
                match self.cell_after(cell) {
                    Some(cell) => GoesOn(Place::CountCell {
                        purpose,
                        seen,
                        cell,
                        counted,
                    }),
                    None => GoesOn(Place::BumpLook(BumpFor::Count {
                        purpose,
                        seen,
                        counted,
                    })),
                }
            }
            Place::LockLook(purpose) => {
                if self.generation == Generation::LOCKED {
                    return self.lock_ended(purpose, true);
                }
                GoesOn(Place::CountLook(CountFor::Lock(purpose)))
            }
            Place::LockExchange(purpose, at) => match self.exchange(at, Generation::LOCKED) {
                Ok(()) => self.lock_ended(purpose, true),
                Err(_) => GoesOn(Place::CountLook(CountFor::Lock(purpose))),
            },
        }
    }
}

impl IndexSet for RobustSet {
    type Place = Place;
    const TAKES_LISTS: bool = true;

    fn start(&mut self, _record: u8, call: Call, request: &Request) -> Result<Place, Refusal> {
        match call {
            Call::Acquire => {
                let owner = request.owner.named()?;
                Ok(Place::AcquireLook { owner })
            }
            Call::Release => {
                let mode = Mode::read(request.mode)?;
                let owner = request.owner.named()?;
                let index = Index(request.index_or_room);
                if index.at() >= self.cells.len() {
                    return Err(Refusal::IndexAboveCapacity);
                }
                Ok(Place::ReleaseCell { index, owner, mode })
            }
            Call::Borrowed => Ok(Place::CountLook(CountFor::Borrowed)),
            Call::IsLocked => Ok(Place::IsLockedLook),
            Call::Find => {
                let room = request.index_or_room;
                if room == 0 {
                    return Err(Refusal::UnknownCall);
                }
                let owner = request.owner.named()?;
                Ok(Place::FindCell {
                    owner,
                    room,
                    cell: Index::FIRST,
                    reported: 0,
                })
            }
            Call::Recover => {
                let mode = Mode::read(request.mode)?;
                Ok(Place::RecoverLook { mode })
            }
        }
    }

    fn step(
        &mut self,
        _record: u8,
        place: Place,
        list: &[Owner],
    ) -> (Option<Report>, After<Place>) {
        let mut report = None;
        let after = self.access(place, list, &mut report);
        (report, after)
    }

    fn shown(&self) -> u64 {
        self.generation.0
    }
}
