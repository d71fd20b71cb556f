//! The calls of `host/simmerhusk.h`, each on a whole dock.
//!
//! All of them take whatever numbers and bytes come, and ask of a lent buffer only that it is as long as it says and overlaps no
//! other. The vectors of a dock are such, and each is lent by the one mutable borrow of the dock: that is why every call below
//! is sound.

use super::{Buffers, Dock, Outcome};

extern "C" {
    fn husk_death(records: *mut u8, records_len: usize, who: u8) -> Outcome;

    fn husk_plain_setup(
        capacity: *mut u32,
        head: *mut u64,
        records: *mut u8,
        records_len: usize,
        slots: *mut u32,
        slots_len: usize,
        custody: *mut u32,
        custody_len: usize,
        asked: u32,
    ) -> Outcome;
    fn husk_plain_start(
        capacity: u32,
        head: u64,
        records: *mut u8,
        records_len: usize,
        who: u8,
        slots: *mut u32,
        slots_len: usize,
        custody: *mut u32,
        custody_len: usize,
        call: u8,
        index_or_room: u32,
        owner: u64,
        mode: u8,
    ) -> Outcome;
    fn husk_plain_step(
        capacity: u32,
        head: *mut u64,
        records: *mut u8,
        records_len: usize,
        who: u8,
        slots: *mut u32,
        slots_len: usize,
        custody: *mut u32,
        custody_len: usize,
    ) -> Outcome;
    fn husk_plain_drain(
        capacity: u32,
        head: *mut u64,
        records: *mut u8,
        records_len: usize,
        who: u8,
        slots: *mut u32,
        slots_len: usize,
        custody: *mut u32,
        custody_len: usize,
        budget: u32,
    ) -> Outcome;
    fn husk_plain_list(
        records: *mut u8,
        records_len: usize,
        who: u8,
        owners: *const u64,
        owners_len: usize,
    ) -> Outcome;

    fn husk_robust_setup(
        capacity: *mut u32,
        generation: *mut u64,
        records: *mut u8,
        records_len: usize,
        cells: *mut u64,
        cells_len: usize,
        asked: u32,
    ) -> Outcome;
    fn husk_robust_start(
        capacity: u32,
        generation: u64,
        records: *mut u8,
        records_len: usize,
        who: u8,
        cells: *mut u64,
        cells_len: usize,
        call: u8,
        index_or_room: u32,
        owner: u64,
        mode: u8,
    ) -> Outcome;
    fn husk_robust_step(
        capacity: u32,
        generation: *mut u64,
        records: *mut u8,
        records_len: usize,
        who: u8,
        cells: *mut u64,
        cells_len: usize,
    ) -> Outcome;
    fn husk_robust_drain(
        capacity: u32,
        generation: *mut u64,
        records: *mut u8,
        records_len: usize,
        who: u8,
        cells: *mut u64,
        cells_len: usize,
        budget: u32,
    ) -> Outcome;
    fn husk_robust_list(
        records: *mut u8,
        records_len: usize,
        who: u8,
        owners: *const u64,
        owners_len: usize,
    ) -> Outcome;
}

pub fn setup(dock: &mut Dock, asked: u32) -> Outcome {
    let records = &mut dock.records;
    match &mut dock.buffers {
        Buffers::Plain { slots, custody } => unsafe {
            husk_plain_setup(
                &mut dock.capacity,
                &mut dock.word,
                records.as_mut_ptr(),
                records.len(),
                slots.as_mut_ptr(),
                slots.len(),
                custody.as_mut_ptr(),
                custody.len(),
                asked,
            )
        },
        Buffers::Robust { cells } => unsafe {
            husk_robust_setup(
                &mut dock.capacity,
                &mut dock.word,
                records.as_mut_ptr(),
                records.len(),
                cells.as_mut_ptr(),
                cells.len(),
                asked,
            )
        },
    }
}

pub fn start(
    dock: &mut Dock,
    who: u8,
    call: u8,
    index_or_room: u32,
    owner: u64,
    mode: u8,
) -> Outcome {
    let records = &mut dock.records;
    match &mut dock.buffers {
        Buffers::Plain { slots, custody } => unsafe {
            husk_plain_start(
                dock.capacity,
                dock.word,
                records.as_mut_ptr(),
                records.len(),
                who,
                slots.as_mut_ptr(),
                slots.len(),
                custody.as_mut_ptr(),
                custody.len(),
                call,
                index_or_room,
                owner,
                mode,
            )
        },
        Buffers::Robust { cells } => unsafe {
            husk_robust_start(
                dock.capacity,
                dock.word,
                records.as_mut_ptr(),
                records.len(),
                who,
                cells.as_mut_ptr(),
                cells.len(),
                call,
                index_or_room,
                owner,
                mode,
            )
        },
    }
}

pub fn step(dock: &mut Dock, who: u8) -> Outcome {
    let records = &mut dock.records;
    match &mut dock.buffers {
        Buffers::Plain { slots, custody } => unsafe {
            husk_plain_step(
                dock.capacity,
                &mut dock.word,
                records.as_mut_ptr(),
                records.len(),
                who,
                slots.as_mut_ptr(),
                slots.len(),
                custody.as_mut_ptr(),
                custody.len(),
            )
        },
        Buffers::Robust { cells } => unsafe {
            husk_robust_step(
                dock.capacity,
                &mut dock.word,
                records.as_mut_ptr(),
                records.len(),
                who,
                cells.as_mut_ptr(),
                cells.len(),
            )
        },
    }
}

pub fn drain(dock: &mut Dock, who: u8, budget: u32) -> Outcome {
    let records = &mut dock.records;
    match &mut dock.buffers {
        Buffers::Plain { slots, custody } => unsafe {
            husk_plain_drain(
                dock.capacity,
                &mut dock.word,
                records.as_mut_ptr(),
                records.len(),
                who,
                slots.as_mut_ptr(),
                slots.len(),
                custody.as_mut_ptr(),
                custody.len(),
                budget,
            )
        },
        Buffers::Robust { cells } => unsafe {
            husk_robust_drain(
                dock.capacity,
                &mut dock.word,
                records.as_mut_ptr(),
                records.len(),
                who,
                cells.as_mut_ptr(),
                cells.len(),
                budget,
            )
        },
    }
}

pub fn list(dock: &mut Dock, who: u8, owners: &[u64]) -> Outcome {
    let husk_list = match dock.buffers {
        Buffers::Plain { .. } => husk_plain_list,
        Buffers::Robust { .. } => husk_robust_list,
    };
    let records = &mut dock.records;
    unsafe {
        husk_list(
            records.as_mut_ptr(),
            records.len(),
            who,
            owners.as_ptr(),
            owners.len(),
        )
    }
}

pub fn death(dock: &mut Dock, who: u8) -> Outcome {
    unsafe { husk_death(dock.records.as_mut_ptr(), dock.records.len(), who) }
}
