//! The Rust of the two index sets, unchanged, over ordinary atomics: whole calls at once, the sets of
//! fixed size too.

extern crate self as iceoryx2_bb_concurrency;
extern crate self as iceoryx2_bb_elementary;
extern crate self as iceoryx2_bb_elementary_traits;
extern crate self as iceoryx2_log;
extern crate zero_copy_send_derive as iceoryx2_bb_derive_macros;

#[path = "../../stand_ins/macros.rs"]
mod macros;

#[path = "../../stand_ins/allocator.rs"]
pub mod allocator;
#[path = "../../stand_ins/bump_allocator.rs"]
pub mod bump_allocator;
#[path = "../../stand_ins/callback_progression.rs"]
mod callback_progression;
mod fixed_size;
#[path = "../../stand_ins/memory.rs"]
pub mod memory;
#[path = "../../stand_ins/peek.rs"]
mod peek;
#[path = "../../stand_ins/pointer.rs"]
pub mod pointer;
#[path = "../../stand_ins/relocatable_container.rs"]
pub mod relocatable_container;
#[path = "../../stand_ins/relocatable_pointer.rs"]
pub mod relocatable_pointer;
#[path = "../../stand_ins/requests.rs"]
mod requests;
mod whole_set;
#[path = "../../stand_ins/zero_copy_send.rs"]
pub mod zero_copy_send;

pub mod atomic {
    pub use core::sync::atomic::{AtomicBool, AtomicU64, Ordering, fence};
}

pub mod cell {
    pub use core::cell::UnsafeCell;
}

pub mod mpmc {
    include!(concat!(env!("OUT_DIR"), "/mpmc.rs"));
}

pub use callback_progression::CallbackProgression;
pub use fixed_size::{fixed_plain, fixed_robust};
pub use requests::{Answer, Call, LIST_LIMIT, Report, Request};
pub use whole_set::{WholeSet, plain, robust};
