//! Stands in for `iceoryx2_bb_elementary_traits::relocatable_container`.

use core::ptr::NonNull;

use crate::allocator::{Allocate, AllocationError};

pub trait RelocatableContainer {
    /// # Safety
    ///
    /// It is initialized, once, before it is used.
    unsafe fn new_uninit(capacity: usize) -> Self;

    /// # Safety
    ///
    /// It is called once; what is allocated lives as long as the container.
    unsafe fn init<T: Allocate<NonNull<u8>>>(
        &mut self,
        allocator: &T,
    ) -> Result<(), AllocationError>;

    fn memory_size(capacity: usize) -> usize;
}
