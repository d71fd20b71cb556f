//! The kinds of number that a dock deals in: mixing two does not compile.

use std::fmt;

/// Which slot or cell of a set.
#[derive(Clone, Copy, Debug, PartialEq, Eq, PartialOrd, Ord, Hash)]
pub struct Index(pub u32);

/// Which thread record of a dock.
#[derive(Clone, Copy, Debug, PartialEq, Eq, PartialOrd, Ord, Hash)]
pub struct RecordNumber(pub u8);

/// Who holds a cell of a robust set.
#[derive(Clone, Copy, Debug, PartialEq, Eq, PartialOrd, Ord, Hash)]
pub struct Owner(u64);

/// `u64::MAX` marks an empty cell, and is nobody's.
#[derive(Clone, Copy, Debug, PartialEq, Eq)]
pub struct InvalidOwnerValue;

impl Owner {
    const EMPTY: u64 = u64::MAX;

    pub fn new(value: u64) -> Result<Owner, InvalidOwnerValue> {
        if value == Owner::EMPTY {
            return Err(InvalidOwnerValue);
        }
        Ok(Owner(value))
    }

    pub fn value(self) -> u64 {
        self.0
    }
}

impl fmt::Display for InvalidOwnerValue {
    fn fmt(&self, to: &mut fmt::Formatter<'_>) -> fmt::Result {
        write!(
            to,
            "{} marks an empty cell, and is no owner's",
            Owner::EMPTY
        )
    }
}

impl std::error::Error for InvalidOwnerValue {}

/// The plain set's word: the head in bits 40 to 63, a tag in bits 24 to 39, the borrowed count below.
#[derive(Clone, Copy, PartialEq, Eq, Hash)]
pub struct HeadWord(pub u64);

impl HeadWord {
    const LOCKED: u32 = 0x00ff_ffff;

    pub fn head(self) -> Index {
        Index((self.0 >> 40) as u32)
    }

    pub fn tag(self) -> u16 {
        (self.0 >> 24) as u16
    }

    /// How many indices are borrowed, as the word counts them: none where it is locked.
    pub fn borrowed(self) -> u32 {
        match self.low_bits() {
            HeadWord::LOCKED => 0,
            borrowed => borrowed,
        }
    }

    pub fn is_locked(self) -> bool {
        self.low_bits() == HeadWord::LOCKED
    }

    fn low_bits(self) -> u32 {
        self.0 as u32 & 0x00ff_ffff
    }
}

impl fmt::Debug for HeadWord {
    fn fmt(&self, to: &mut fmt::Formatter<'_>) -> fmt::Result {
        write!(to, "HeadWord({:016X})", self.0)
    }
}

/// The robust set's word.
#[derive(Clone, Copy, Debug, PartialEq, Eq, Hash)]
pub struct Generation(pub u64);

impl Generation {
    pub fn is_locked(self) -> bool {
        self.0 == u64::MAX
    }
}

/// Whether a release that returns the last index locks the set.
#[derive(Clone, Copy, Debug, PartialEq, Eq)]
pub enum ReleaseMode {
    Default,
    LockIfLastIndex,
}

impl ReleaseMode {
    pub fn number(self) -> u8 {
        match self {
            ReleaseMode::Default => 0,
            ReleaseMode::LockIfLastIndex => 1,
        }
    }
}

#[derive(Clone, Copy, Debug, PartialEq, Eq)]
pub enum ReleaseState {
    Unlocked,
    Locked,
}

/// What a thread record is at.
#[derive(Clone, Copy, Debug, PartialEq, Eq)]
pub enum RecordState {
    Idle,
    Calling,
    Dead,
}
