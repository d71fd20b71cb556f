//! Stands in for `iceoryx2_bb_elementary::bump_allocator`: lends one stretch of memory, once.

use core::alloc::Layout;
use core::cell::Cell;
use core::ptr::NonNull;

use crate::allocator::{Allocate, AllocationError};

pub struct BumpAllocator {
    memory: NonNull<u8>,
    left: Cell<usize>,
}

impl BumpAllocator {
    pub fn new(memory: NonNull<u8>, bytes: usize) -> Self {
        Self {
            memory,
            left: Cell::new(bytes),
        }
    }
}

impl Allocate<NonNull<u8>> for BumpAllocator {
    fn allocate(&self, layout: Layout) -> Result<NonNull<u8>, AllocationError> {
        let aligned = self.memory.as_ptr().align_offset(layout.align()) == 0;
        if !aligned || layout.size() > self.left.replace(0) {
            return Err(AllocationError::OutOfMemory);
        }
        Ok(self.memory)
    }
}
