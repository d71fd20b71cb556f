//! Stands in for `iceoryx2_bb_concurrency::atomic`: a 64-bit atomic pauses before each access.

pub use core::sync::atomic::{AtomicBool, Ordering, fence};

use crate::coroutine::{self, Kind};
use crate::peek::Peek;

#[repr(transparent)]
#[derive(Debug)]
pub struct AtomicU64(core::sync::atomic::AtomicU64);

impl AtomicU64 {
    pub const fn new(value: u64) -> Self {
        Self(core::sync::atomic::AtomicU64::new(value))
    }

    fn pause(&self, kind: Kind) {
        coroutine::pause(kind, core::ptr::from_ref(self) as usize);
    }

    pub fn load(&self, order: Ordering) -> u64 {
        self.pause(Kind::Load);
        self.0.load(order)
    }

    pub fn compare_exchange(
        &self,
        expected: u64,
        new: u64,
        success: Ordering,
        failure: Ordering,
    ) -> Result<u64, u64> {
        self.pause(Kind::Exchange { expected, new });
        let result = self.0.compare_exchange(expected, new, success, failure);
        coroutine::exchanged(result.is_ok());
        result
    }
}

impl Peek for AtomicU64 {
    fn peek(&self) -> u64 {
        self.0.peek()
    }

    fn poke(&self, value: u64) {
        self.0.poke(value);
    }
}
