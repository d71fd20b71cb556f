//! The harness's own looks and writes, which no call of the source makes.

use core::sync::atomic::{AtomicU64, Ordering};

pub trait Peek {
    fn peek(&self) -> u64;
    fn poke(&self, value: u64);
}

impl Peek for AtomicU64 {
    fn peek(&self) -> u64 {
        self.load(Ordering::Relaxed)
    }

    fn poke(&self, value: u64) {
        self.store(value, Ordering::Relaxed);
    }
}
