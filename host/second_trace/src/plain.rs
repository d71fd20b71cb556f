//! The plain set, `UniqueIndexSet`: a head word over a chain of free slots,
//! and custody beside it.
//!
//! Each arm of `step` is one shared access and the local work up to the next.

use crate::kinds::{After, Answer, Call, Index, Mode, Owner, Refusal, Report, Request};
use crate::table::IndexSet;
use After::{Answers, GoesOn};

/// The borrowed count that means locked (`LOCK_ACQUIRE`).
const LOCKED: u32 = 0x00ff_ffff;

/// Bits 40..63 head, 24..39 tag, 0..23 borrowed.
#[derive(Clone, Copy, PartialEq, Eq, Debug)]
pub struct Word(pub u64);

#[derive(Clone, Copy, PartialEq, Eq, Debug)]
struct Tag(u16);

impl Word {
    fn new(head: Index, tag: Tag, borrowed: u32) -> Word {
        let head = (head.0 & 0x00ff_ffff) as u64;
        let borrowed = (borrowed & 0x00ff_ffff) as u64;
        Word(head << 40 | (tag.0 as u64) << 24 | borrowed)
    }

    fn head(self) -> Index {
        Index((self.0 >> 40) as u32)
    }

    fn next_tag(self) -> Tag {
        Tag(((self.0 >> 24) as u16).wrapping_add(1))
    }

    fn borrowed(self) -> u32 {
        self.0 as u32 & 0x00ff_ffff
    }

    fn is_locked(self) -> bool {
        self.borrowed() == LOCKED
    }
}

/// Who has an index; the record's place in the table stands beside it.
#[derive(Clone, Copy, PartialEq, Eq, Debug)]
pub enum Custody {
    Free,
    BeingGranted(u8),
    Held(u8),
    BeingGivenBack(u8),
}

/// The access that a call makes next, and what it remembers.
#[derive(Clone, Copy, PartialEq, Eq, Debug)]
pub enum Place {
    AcquireLook,
    AcquireRead {
        seen: Word,
    },
    AcquireExchange {
        seen: Word,
        following: Index,
    },
    AcquireWrite {
        won: Index,
    },
    ReleaseLook {
        index: Index,
        mode: Mode,
    },
    ReleaseWrite {
        index: Index,
        mode: Mode,
        seen: Word,
    },
    ReleaseExchange {
        index: Index,
        mode: Mode,
        seen: Word,
    },
    BorrowedLook,
    IsLockedLook,
}

pub struct PlainSet {
    pub capacity: u32,
    pub word: Word,
    pub slots: Vec<Index>,
    pub custody: Vec<Custody>,
}

impl PlainSet {
    pub fn new(capacity: u32) -> PlainSet {
        PlainSet {
            capacity,
            word: Word(0),
            slots: (0..=capacity).map(|i| Index(i + 1)).collect(),
            custody: vec![Custody::Free; capacity as usize],
        }
    }

    /// Compares the whole word; gives back what it found if that is not `seen`.
    fn exchange(&mut self, seen: Word, new: Word) -> Result<(), Word> {
        if self.word != seen {
            return Err(self.word);
        }
        self.word = new;
        Ok(())
    }

    /// What an acquire does with a word it has seen, by a look or by an
    /// exchange that failed.
    fn acquire_saw(&self, seen: Word) -> After<Place> {
        if seen.head().0 >= self.capacity {
            Answers(Answer::OutOfIndices)
        } else if seen.is_locked() {
            Answers(Answer::Locked)
        } else {
            GoesOn(Place::AcquireRead { seen })
        }
    }

    /// The same for a release, with 14 where the Rust would subtract from 0 or
    /// from the lock mark.
    fn release_saw(&mut self, record: u8, index: Index, mode: Mode, seen: Word) -> After<Place> {
        if seen.borrowed() == 0 || seen.is_locked() {
            self.custody[index.at()] = Custody::Held(record);
            return Answers(Answer::NothingBorrowed);
        }
        GoesOn(Place::ReleaseWrite { index, mode, seen })
    }

    fn access(&mut self, record: u8, place: Place) -> After<Place> {
        match place {
            Place::AcquireLook => self.acquire_saw(self.word),
            Place::AcquireRead { seen } => {
                let following = self.slots[seen.head().at()];
                GoesOn(Place::AcquireExchange { seen, following })
            }
            Place::AcquireExchange { seen, following } => {
                let new = Word::new(following, seen.next_tag(), seen.borrowed() + 1);
                match self.exchange(seen, new) {
                    Ok(()) => {
                        let won = seen.head();
                        self.custody[won.at()] = Custody::BeingGranted(record);
                        GoesOn(Place::AcquireWrite { won })
                    }
                    Err(found) => self.acquire_saw(found),
                }
            }
            Place::AcquireWrite { won } => {
                self.slots[won.at()] = Index(self.capacity + 1);
                self.custody[won.at()] = Custody::Held(record);
                Answers(Answer::Done(won.0))
            }
            Place::ReleaseLook { index, mode } => self.release_saw(record, index, mode, self.word),
            Place::ReleaseWrite { index, mode, seen } => {
                self.slots[index.at()] = seen.head();
                GoesOn(Place::ReleaseExchange { index, mode, seen })
            }
            Place::ReleaseExchange { index, mode, seen } => {
                let locks = mode == Mode::LockIfLastIndex && seen.borrowed() == 1;
                let borrowed = if locks { LOCKED } else { seen.borrowed() - 1 };
                match self.exchange(seen, Word::new(index, seen.next_tag(), borrowed)) {
                    Ok(()) => {
                        self.custody[index.at()] = Custody::Free;
                        Answers(Answer::state(locks))
                    }
                    Err(found) => self.release_saw(record, index, mode, found),
                }
            }
            Place::BorrowedLook if self.word.is_locked() => Answers(Answer::Done(0)),
            Place::BorrowedLook => Answers(Answer::Done(self.word.borrowed())),
            Place::IsLockedLook => Answers(Answer::state(self.word.is_locked())),
        }
    }
}

impl IndexSet for PlainSet {
    type Place = Place;
    const TAKES_LISTS: bool = false;

    /// Owners are never looked at on this set.
    fn start(&mut self, record: u8, call: Call, request: &Request) -> Result<Place, Refusal> {
        match call {
            Call::Acquire => Ok(Place::AcquireLook),
            Call::Release => {
                let mode = Mode::read(request.mode)?;
                let index = Index(request.index_or_room);
                if index.0 >= self.capacity {
                    return Err(Refusal::IndexAboveCapacity);
                }
                if self.custody[index.at()] != Custody::Held(record) {
                    return Err(Refusal::NotHeldByRecord);
                }
                self.custody[index.at()] = Custody::BeingGivenBack(record);
                Ok(Place::ReleaseLook { index, mode })
            }
            Call::Borrowed => Ok(Place::BorrowedLook),
            Call::IsLocked => Ok(Place::IsLockedLook),
            Call::Find | Call::Recover => Err(Refusal::UnknownCall),
        }
    }

    fn step(
        &mut self,
        record: u8,
        place: Place,
        _list: &[Owner],
    ) -> (Option<Report>, After<Place>) {
        (None, self.access(record, place))
    }

    fn shown(&self) -> u64 {
        self.word.0
    }
}
