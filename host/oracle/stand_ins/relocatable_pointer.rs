//! Stands in for `iceoryx2_bb_elementary::relocatable_pointer`: a distance from the pointer's own
//! address, so that a set and its memory may be moved together.

use core::marker::PhantomData;
use core::ptr::NonNull;

pub use crate::pointer::Pointer;

#[repr(C)]
#[derive(Debug)]
pub struct RelocatablePointer<T> {
    distance: isize,
    points_to: PhantomData<T>,
}

impl<T> RelocatablePointer<T> {
    /// # Safety
    ///
    /// It is initialized before it is used.
    pub unsafe fn new_uninit() -> Self {
        Self {
            distance: 0,
            points_to: PhantomData,
        }
    }

    /// # Safety
    ///
    /// The memory lives as long as the pointer, and moves only with it.
    pub unsafe fn init(&mut self, memory: NonNull<u8>) {
        self.distance = memory.as_ptr() as isize - self.address();
    }

    fn address(&self) -> isize {
        core::ptr::from_ref(self) as isize
    }
}

impl<T> Pointer<T> for RelocatablePointer<T> {
    fn as_ptr(&self) -> *const T {
        core::ptr::with_exposed_provenance((self.address() + self.distance) as usize)
    }
}
