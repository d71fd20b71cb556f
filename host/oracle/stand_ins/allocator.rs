//! Stands in for `iceoryx2_bb_elementary_traits::allocator`.

use core::alloc::Layout;

#[derive(Debug, Clone, Copy, PartialEq, Eq)]
pub enum AllocationError {
    SizeTooLarge,
    OutOfMemory,
}

pub trait Allocate<Memory> {
    fn allocate(&self, layout: Layout) -> Result<Memory, AllocationError>;
}
