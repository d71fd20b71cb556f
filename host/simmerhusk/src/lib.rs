//! The two index sets of Simmerhusk, moved one shared access at a time, for Rust.
//!
//! A [`PlainDock`] or a [`RobustDock`] owns a set's buffers and its table of thread records. A call is started for a record,
//! and goes on by steps until it is answered. Whatever is asked for ends in a [`Progress`]; one that is
//! [`Refused`](Progress::Refused) has changed nothing. All that happens to a dock is done by the proved calls of
//! `host/simmerhusk.h`; this package has no rules of its own, only types. [`raw`] is the same calls on plain numbers and bytes.
//!
//! ```
//! use simmerhusk::{Answer, HeadWord, Index, PlainCall, PlainDock, Progress, RecordNumber, ReleaseMode};
//!
//! # fn main() -> Result<(), simmerhusk::Error> {
//! let scanner = RecordNumber(0);
//! let mut dock = PlainDock::of_capacity(3, 1)?;
//! assert_eq!(dock.setup(3)?, Progress::Accepted);
//!
//! // An acquire is four shared accesses: the look, the slot's read, the exchange, the slot's write.
//! assert_eq!(dock.start(scanner, PlainCall::Acquire)?, Progress::Accepted);
//! for _ in 0..3 {
//!     assert_eq!(dock.step(scanner)?.progress, Progress::Accepted);
//! }
//! let granted = Answer::Acquired(Index(0));
//! assert_eq!(dock.step(scanner)?.progress, Progress::Answered(granted));
//! assert_eq!(dock.word(), HeadWord(0x0000_0100_0100_0001));
//! assert_eq!(dock.slots()?, [4, 2, 3, 4]);
//!
//! // A drain runs one record alone, and says how many steps that took.
//! let release = PlainCall::Release { index: Index(0), mode: ReleaseMode::Default };
//! dock.start(scanner, release)?;
//! assert_eq!(dock.drain(scanner, 10)?.steps, 3);
//! assert_eq!(dock.slots()?, [1, 2, 3, 4]);
//! # Ok(())
//! # }
//! ```

mod body;
mod kinds;
mod plain;
pub mod raw;
mod read;
mod reports;
mod robust;

pub use kinds::{
    Generation, HeadWord, Index, InvalidOwnerValue, Owner, RecordNumber, RecordState, ReleaseMode,
    ReleaseState,
};
pub use plain::{PlainCall, PlainDock};
pub use reports::{AcquireFailure, Answer, Error, Noted, Progress, Refusal, Turn};
pub use robust::{RobustCall, RobustDock};

#[cfg(doctest)]
#[doc = include_str!("../README.md")]
struct Readme;
