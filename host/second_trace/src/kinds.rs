//! The words of the scope that both sets share. An index, an owner and a generation
//! are kinds of their own; the tag stays inside the plain set's head word.

/// Which slot or cell of a set.
#[derive(Clone, Copy, PartialEq, Eq, Debug)]
pub struct Index(pub u32);

impl Index {
    pub const FIRST: Index = Index(0);

    pub fn next(self) -> Index {
        Index(self.0 + 1)
    }

    /// Where it stands in a buffer.
    pub fn at(self) -> usize {
        self.0 as usize
    }
}

/// Who holds a cell of the robust set.
#[derive(Clone, Copy, PartialEq, Eq, Debug)]
pub struct Owner(pub u64);

impl Owner {
    /// What an empty cell says; no call may be made in this owner's name.
    pub const EMPTY: Owner = Owner(u64::MAX);

    /// Refusal 5.
    pub fn named(self) -> Result<Owner, Refusal> {
        if self == Owner::EMPTY {
            return Err(Refusal::OwnerIsEmpty);
        }
        Ok(self)
    }
}

/// The robust set's generation counter.
#[derive(Clone, Copy, PartialEq, Eq, Debug)]
pub struct Generation(pub u64);

impl Generation {
    pub const LOCKED: Generation = Generation(u64::MAX);

    /// One more. Asked only of a generation that is not locked.
    pub fn next(self) -> Generation {
        Generation(self.0 + 1)
    }
}

/// A start's call byte.
#[derive(Clone, Copy, PartialEq, Eq, Debug)]
pub enum Call {
    Acquire,
    Release,
    Borrowed,
    IsLocked,
    Find,
    Recover,
}

impl Call {
    pub fn read(byte: u8) -> Result<Call, Refusal> {
        match byte {
            1 => Ok(Call::Acquire),
            2 => Ok(Call::Release),
            3 => Ok(Call::Borrowed),
            4 => Ok(Call::IsLocked),
            5 => Ok(Call::Find),
            6 => Ok(Call::Recover),
            _ => Err(Refusal::UnknownCall),
        }
    }
}

/// The Rust's `ReleaseMode`, with the scope's numbers.
#[derive(Clone, Copy, PartialEq, Eq, Debug)]
pub enum Mode {
    Default,
    LockIfLastIndex,
}

impl Mode {
    pub fn read(byte: u8) -> Result<Mode, Refusal> {
        match byte {
            0 => Ok(Mode::Default),
            1 => Ok(Mode::LockIfLastIndex),
            _ => Err(Refusal::UnknownCall),
        }
    }
}

/// What a start asks, unjudged: which of it is looked at depends on the call.
#[derive(Clone, Copy, PartialEq, Eq, Debug)]
pub struct Request {
    pub call: u8,
    pub index_or_room: u32,
    pub owner: Owner,
    pub mode: u8,
}

/// Why an entry was refused; 11 cannot come up here (see lib.rs).
#[derive(Clone, Copy, PartialEq, Eq, Debug)]
pub enum Refusal {
    CapacityAboveLimit = 3,
    CapacityZero = 4,
    OwnerIsEmpty = 5,
    IndexAboveCapacity = 7,
    NotHeldByRecord = 8,
    RecordNotReady = 9,
    TooManyRecords = 10,
    BadEntry = 12,
    /// Also an unknown mode, a call of the other set, room 0, a list that is
    /// too long or on a plain set.
    UnknownCall = 13,
}

/// How a call ended.
#[derive(Clone, Copy, PartialEq, Eq, Debug)]
pub enum Answer {
    Done(u32),
    OutOfIndices,
    Locked,
    NotOwned,
    NothingBorrowed,
}

impl Answer {
    /// Unlocked is 0 and Locked is 1; the same for `is_locked`.
    pub fn state(locked: bool) -> Answer {
        Answer::Done(locked as u32)
    }

    /// the scope's number for it, and the value, 0 unless the number is 0.
    pub fn numbers(self) -> (u8, u32) {
        match self {
            Answer::Done(value) => (0, value),
            Answer::OutOfIndices => (1, 0),
            Answer::Locked => (2, 0),
            Answer::NotOwned => (6, 0),
            Answer::NothingBorrowed => (14, 0),
        }
    }
}

/// What a step of find or recover says besides.
#[derive(Clone, Copy, PartialEq, Eq, Debug)]
pub enum Report {
    Found(Index),
    Freed(Index, Owner),
}

/// Where a step leaves its call.
#[derive(Clone, Copy, PartialEq, Eq, Debug)]
pub enum After<Place> {
    GoesOn(Place),
    Answers(Answer),
}
