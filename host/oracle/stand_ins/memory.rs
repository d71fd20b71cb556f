//! A set over memory of its own, which is peeked and poked beside the set's own calls.

use core::ptr::NonNull;

use crate::atomic::{AtomicBool, AtomicU64};
use crate::bump_allocator::BumpAllocator;
use crate::mpmc::robust_unique_index_set::RobustUniqueIndexSet;
use crate::mpmc::unique_index_set::UniqueIndexSet;
use crate::peek::Peek;
use crate::relocatable_container::RelocatableContainer;
use crate::relocatable_pointer::RelocatablePointer;

/// Entries that a set and the harness both reach; the owner of the allocation.
struct Entries<Entry> {
    first: NonNull<Entry>,
    count: usize,
}

impl<Entry: Copy + Default> Entries<Entry> {
    fn new(count: usize) -> Self {
        let entries = Box::leak(vec![Entry::default(); count].into_boxed_slice());
        Self {
            first: NonNull::from(entries).cast(),
            count,
        }
    }

    fn allocator(&self) -> BumpAllocator {
        let exposed = self.first.as_ptr().expose_provenance();
        debug_assert_ne!(exposed, 0);
        BumpAllocator::new(self.first.cast(), self.count * size_of::<Entry>())
    }

    fn get(&self) -> &[Entry] {
        // SAFETY: the allocation has that many entries; no call runs while the slice is looked at.
        unsafe { core::slice::from_raw_parts(self.first.as_ptr(), self.count) }
    }

    fn get_mut(&mut self) -> &mut [Entry] {
        // SAFETY: as above.
        unsafe { core::slice::from_raw_parts_mut(self.first.as_ptr(), self.count) }
    }

    fn address(&self) -> usize {
        self.first.as_ptr() as usize
    }
}

impl<Entry> Drop for Entries<Entry> {
    fn drop(&mut self) {
        let whole = NonNull::slice_from_raw_parts(self.first, self.count);
        // SAFETY: it was leaked from such a box.
        drop(unsafe { Box::from_raw(whole.as_ptr()) });
    }
}

/// The index of an entry of that size, if the address is one of theirs.
fn entry_at(address: usize, first: usize, count: usize, size: usize) -> Option<u32> {
    let distance = address.checked_sub(first)?;
    let index = distance / size;
    (distance % size == 0 && index < count).then_some(index as u32)
}

pub struct PlainSet {
    set: Box<UniqueIndexSet>,
    slots: Entries<u32>,
}

impl PlainSet {
    pub fn new(capacity: u32) -> Self {
        let slots = Entries::new(capacity as usize + 1);
        // SAFETY: initialized below, once, over memory that lives as long.
        let mut set = Box::new(unsafe { UniqueIndexSet::new_uninit(capacity as usize) });
        unsafe { set.init(&slots.allocator()) }.expect("enough memory");
        Self { set, slots }
    }

    pub fn get(&self) -> &UniqueIndexSet {
        &self.set
    }

    pub fn word(&self) -> u64 {
        self.set.head.peek()
    }

    pub fn poke_word(&mut self, word: u64) {
        self.set.head.poke(word);
    }

    pub fn slots(&self) -> &[u32] {
        self.slots.get()
    }

    pub fn slots_mut(&mut self) -> &mut [u32] {
        self.slots.get_mut()
    }

    pub fn word_address(&self) -> usize {
        core::ptr::from_ref(&self.set.head) as usize
    }

    pub fn slot_at(&self, address: usize) -> Option<u32> {
        entry_at(address, self.slots.address(), self.slots.count, 4)
    }
}

/// The fields of a robust set, which keeps its generation to itself, in the same order.
#[repr(C)]
pub struct RobustMirror {
    cell_ptr: RelocatablePointer<AtomicU64>,
    capacity: usize,
    is_memory_initialized: AtomicBool,
    generation: AtomicU64,
}

impl RobustMirror {
    /// Looks at a set's fields, after an assertion that they are where it looks for them.
    pub fn of(set: &RobustUniqueIndexSet) -> &Self {
        assert_eq!(size_of::<Self>(), size_of::<RobustUniqueIndexSet>());
        assert_eq!(align_of::<Self>(), align_of::<RobustUniqueIndexSet>());
        // SAFETY: both have the representation of C, with the same fields.
        let mirror = unsafe { &*core::ptr::from_ref(set).cast::<Self>() };
        assert_eq!(mirror.capacity, set.capacity());
        mirror
    }

    pub fn generation(&self) -> &AtomicU64 {
        &self.generation
    }
}

pub struct RobustSet {
    set: Box<RobustUniqueIndexSet>,
    cells: Entries<u64>,
}

impl RobustSet {
    pub fn new(capacity: u32) -> Self {
        let cells = Entries::new(capacity as usize);
        // SAFETY: initialized below, once, over memory that lives as long.
        let mut set = Box::new(unsafe { RobustUniqueIndexSet::new_uninit(capacity as usize) });
        unsafe { set.init(&cells.allocator()) }.expect("enough memory");
        let mut whole = Self { set, cells };
        whole.assert_mirrored();
        whole
    }

    /// The generation that the mirror shows is the one that the set goes by.
    fn assert_mirrored(&mut self) {
        assert_eq!(self.word(), 0);
        self.poke_word(u64::MAX);
        assert!(self.set.is_locked());
        self.poke_word(0);
        assert!(!self.set.is_locked());
    }

    pub fn get(&self) -> &RobustUniqueIndexSet {
        &self.set
    }

    pub fn word(&self) -> u64 {
        RobustMirror::of(&self.set).generation.peek()
    }

    pub fn poke_word(&mut self, generation: u64) {
        RobustMirror::of(&self.set).generation.poke(generation);
    }

    pub fn cells(&self) -> &[u64] {
        self.cells.get()
    }

    pub fn cells_mut(&mut self) -> &mut [u64] {
        self.cells.get_mut()
    }

    pub fn word_address(&self) -> usize {
        core::ptr::from_ref(&RobustMirror::of(&self.set).generation) as usize
    }

    pub fn cell_at(&self, address: usize) -> Option<u32> {
        entry_at(address, self.cells.address(), self.cells.count, 8)
    }
}
