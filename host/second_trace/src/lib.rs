//! A second reading of the scope, 'Schedule and trace'.
//!
//! A schedule is run over one of the two index sets of iceoryx2-bb-lock-free
//! 0.10.0, one shared access at a time, and each entry's line is written. This
//! was written from the scope, from the readings of its open points and from
//! the Rust alone, without sight of the port, so that the two can be compared.
//! It is meant to be read beside the scope; nothing in it is tuned.
//!
//! * `kinds`: indices, owners, generations; calls, modes, answers, refusals.
//! * `format`: bytes to entries.
//! * `plain`, `robust`: each set's starts and steps.
//! * `table`: the thread records, and the refusals that concern them.
//! * `lines`: the run of a schedule, and the text of its trace.
//!
//! Refusal 11 is not there. It is for a record that remembers what no look may
//! leave, and here a call in progress is an enum (`Place`) that only starts and
//! steps make, with the owner list beside it that only an accepted list entry
//! fills. So each judged thing is as it must be: a look that finds what may not
//! be remembered answers (1, 2, 14) or ends its part of the call (a generation
//! that says locked) in the same step, and a list that is too long or names
//! u64::MAX was refused when it came.

mod format;
mod kinds;
mod lines;
mod plain;
mod robust;
mod table;
#[cfg(test)]
mod tests;

pub use lines::write_trace;

/// The trace of a schedule: the lines that the scope gives, each with its newline.
pub fn trace(schedule: &[u8]) -> Vec<u8> {
    let mut lines = Vec::new();
    write_trace(schedule, &mut lines).expect("writing to memory does not fail");
    lines
}
