//! Stands in for `iceoryx2_bb_concurrency::cell`: asking for a slot's place pauses. The source reads or
//! writes it at once afterwards; of an assignment, the right side has been evaluated before.

use crate::coroutine::{self, Kind};

#[repr(transparent)]
#[derive(Debug)]
pub struct UnsafeCell<T>(core::cell::UnsafeCell<T>);

impl<T> UnsafeCell<T> {
    pub const fn new(value: T) -> Self {
        Self(core::cell::UnsafeCell::new(value))
    }

    pub fn get(&self) -> *mut T {
        coroutine::pause(Kind::Slot, core::ptr::from_ref(self) as usize);
        self.0.get()
    }
}
