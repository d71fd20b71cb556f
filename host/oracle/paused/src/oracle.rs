//! One set and the calls that are under way on it, moved one access at a time.

pub use crate::coroutine::Ending;
use crate::coroutine::{self, Coroutine, Job, Kind, Pause};
use crate::memory::{PlainSet, RobustSet};
use crate::mpmc::robust_unique_index_set::RobustUniqueIndexSet;
use crate::mpmc::unique_index_set::UniqueIndexSet;
use crate::requests::{Answer, Report, Request, call_plain, call_robust};

pub const RECORD_LIMIT: usize = 16;

/// A shared access. A slot's direction is that of the call: an acquire reads before its exchange is won
/// and writes afterwards, a release writes.
#[derive(Debug, Clone, Copy, PartialEq, Eq)]
pub enum Access {
    LookWord,
    ExchangeWord {
        expected: u64,
        new: u64,
    },
    Slot {
        index: u32,
    },
    LoadCell {
        index: u32,
    },
    ExchangeCell {
        index: u32,
        expected: u64,
        new: u64,
    },
    /// At no place of the set's.
    Elsewhere,
}

/// One step: the access made, whether an exchange was won, and what came of it.
#[derive(Debug, Clone, Copy, PartialEq, Eq)]
pub struct Moved {
    pub access: Access,
    pub won: Option<bool>,
    pub report: Option<Report>,
    pub ending: Option<Ending>,
}

pub enum Set {
    Plain(PlainSet),
    Robust(RobustSet),
}

impl Set {
    fn access(&self, pause: Pause) -> Access {
        let Pause { kind, address } = pause;
        let word = match self {
            Set::Plain(set) => set.word_address(),
            Set::Robust(set) => set.word_address(),
        };
        match (kind, self) {
            (Kind::Load, _) if address == word => Access::LookWord,
            (Kind::Exchange { expected, new }, _) if address == word => {
                Access::ExchangeWord { expected, new }
            }
            (Kind::Slot, Set::Plain(set)) => match set.slot_at(address) {
                Some(index) => Access::Slot { index },
                None => Access::Elsewhere,
            },
            (Kind::Load, Set::Robust(set)) => match set.cell_at(address) {
                Some(index) => Access::LoadCell { index },
                None => Access::Elsewhere,
            },
            (Kind::Exchange { expected, new }, Set::Robust(set)) => match set.cell_at(address) {
                Some(index) => Access::ExchangeCell {
                    index,
                    expected,
                    new,
                },
                None => Access::Elsewhere,
            },
            _ => Access::Elsewhere,
        }
    }

    fn job(&self, request: Request) -> Job {
        match self {
            Set::Plain(set) => Job {
                run: run_plain,
                set: core::ptr::from_ref(set.get()).cast(),
                request,
            },
            Set::Robust(set) => Job {
                run: run_robust,
                set: core::ptr::from_ref(set.get()).cast(),
                request,
            },
        }
    }
}

unsafe fn run_plain(set: *const (), request: &Request) -> Answer {
    // SAFETY: `Set::job` pairs this function with such a set, which outlives its calls.
    call_plain(unsafe { &*set.cast::<UniqueIndexSet>() }, request)
}

unsafe fn run_robust(set: *const (), request: &Request) -> Answer {
    // SAFETY: as above.
    let set = unsafe { &*set.cast::<RobustUniqueIndexSet>() };
    call_robust(set, request, coroutine::report)
}

pub struct Oracle {
    set: Set,
    coroutines: [Option<Box<Coroutine>>; RECORD_LIMIT],
}

impl Oracle {
    pub fn plain(capacity: u32) -> Self {
        Self::over(Set::Plain(PlainSet::new(capacity)))
    }

    pub fn robust(capacity: u32) -> Self {
        Self::over(Set::Robust(RobustSet::new(capacity)))
    }

    fn over(set: Set) -> Self {
        Self {
            set,
            coroutines: [const { None }; RECORD_LIMIT],
        }
    }

    /// A fresh plain set; all calls under way are abandoned, their stacks kept.
    pub fn renew_plain(&mut self, capacity: u32) {
        self.renew(Set::Plain(PlainSet::new(capacity)));
    }

    pub fn renew_robust(&mut self, capacity: u32) {
        self.renew(Set::Robust(RobustSet::new(capacity)));
    }

    fn renew(&mut self, set: Set) {
        for coroutine in self.coroutines.iter().flatten() {
            coroutine.abandon();
        }
        self.set = set;
    }

    pub fn word(&self) -> u64 {
        match &self.set {
            Set::Plain(set) => set.word(),
            Set::Robust(set) => set.word(),
        }
    }

    pub fn poke_word(&mut self, word: u64) {
        match &mut self.set {
            Set::Plain(set) => set.poke_word(word),
            Set::Robust(set) => set.poke_word(word),
        }
    }

    /// The plain set's slots; none of a robust set.
    pub fn slots(&self) -> &[u32] {
        match &self.set {
            Set::Plain(set) => set.slots(),
            Set::Robust(_) => &[],
        }
    }

    pub fn slots_mut(&mut self) -> &mut [u32] {
        match &mut self.set {
            Set::Plain(set) => set.slots_mut(),
            Set::Robust(_) => &mut [],
        }
    }

    /// The robust set's cells; none of a plain set.
    pub fn cells(&self) -> &[u64] {
        match &self.set {
            Set::Plain(_) => &[],
            Set::Robust(set) => set.cells(),
        }
    }

    pub fn cells_mut(&mut self) -> &mut [u64] {
        match &mut self.set {
            Set::Plain(_) => &mut [],
            Set::Robust(set) => set.cells_mut(),
        }
    }

    fn coroutine(&self, record: u8) -> &Coroutine {
        self.coroutines[record as usize]
            .as_deref()
            .expect("a record with a call under way")
    }

    /// Enters the call; an ending here is a call that made no access at all.
    pub fn start(&mut self, record: u8, request: Request) -> Option<Ending> {
        let job = self.set.job(request);
        let coroutine = self.coroutines[record as usize].get_or_insert_with(Coroutine::new);
        assert!(coroutine.paused().is_none(), "record {record} is in a call");
        coroutine.enter(job);
        coroutine.take_ending()
    }

    /// The access that the record's call is paused before; none if it is in no call.
    pub fn pending(&self, record: u8) -> Option<Access> {
        let coroutine = self.coroutines[record as usize].as_deref()?;
        coroutine.paused().map(|pause| self.set.access(pause))
    }

    pub fn step(&mut self, record: u8) -> Moved {
        let access = self.pending(record).expect("a call under way");
        let coroutine = self.coroutine(record);
        coroutine.step();
        Moved {
            access,
            won: coroutine.won(),
            report: coroutine.report(),
            ending: coroutine.take_ending(),
        }
    }

    /// The record's call is never run on.
    pub fn abandon(&mut self, record: u8) {
        if let Some(coroutine) = &self.coroutines[record as usize] {
            coroutine.abandon();
        }
    }
}
