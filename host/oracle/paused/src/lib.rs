//! The Rust of the two index sets, unchanged, over atomics and slots that pause before each access:
//! the harness moves one record by exactly one access and the local work that follows it.

extern crate self as iceoryx2_bb_concurrency;
extern crate self as iceoryx2_bb_elementary;
extern crate self as iceoryx2_bb_elementary_traits;
extern crate self as iceoryx2_log;
extern crate zero_copy_send_derive as iceoryx2_bb_derive_macros;

#[path = "../../stand_ins/macros.rs"]
mod macros;

#[path = "../../stand_ins/allocator.rs"]
pub mod allocator;
pub mod atomic;
#[path = "../../stand_ins/bump_allocator.rs"]
pub mod bump_allocator;
#[path = "../../stand_ins/callback_progression.rs"]
mod callback_progression;
pub mod cell;
mod coroutine;
#[path = "../../stand_ins/memory.rs"]
pub mod memory;
mod oracle;
#[path = "../../stand_ins/peek.rs"]
mod peek;
#[path = "../../stand_ins/pointer.rs"]
pub mod pointer;
#[path = "../../stand_ins/relocatable_container.rs"]
pub mod relocatable_container;
#[path = "../../stand_ins/relocatable_pointer.rs"]
pub mod relocatable_pointer;
#[path = "../../stand_ins/requests.rs"]
mod requests;
#[path = "../../stand_ins/zero_copy_send.rs"]
pub mod zero_copy_send;

pub mod mpmc {
    include!(concat!(env!("OUT_DIR"), "/mpmc.rs"));
}

pub use callback_progression::CallbackProgression;
pub use coroutine::is_calling;
pub use oracle::{Access, Ending, Moved, Oracle, RECORD_LIMIT, Set};
pub use requests::{Answer, Call, LIST_LIMIT, Report, Request};
