//! The schedules that both sides are taken through.

pub mod damage;
pub mod interleavings;
pub mod limits;
pub mod long;
pub mod random;
pub mod sheet;
pub mod whole_calls;

use simmerhusk::raw::{Op, Outcome};

use crate::bench::Bench;
use crate::expected::ANSWERED;

pub const ACQUIRE: u8 = 1;
pub const RELEASE: u8 = 2;
pub const BORROWED: u8 = 3;
pub const LOCKED: u8 = 4;
pub const FIND: u8 = 5;
pub const RECOVER: u8 = 6;

/// More steps than any call alone takes at the capacities that it is used with.
const PLENTY: u32 = 100_000;

/// A number and a value that the scope states, held against the Rust's.
pub fn stated<T: PartialEq + std::fmt::Debug>(bench: &mut Bench, what: &str, wanted: T, found: T) {
    if wanted != found {
        let why = format!("the scope states of {what}: {wanted:x?}; the Rust: {found:x?}");
        bench.comparer().stop(&why);
    }
}

pub fn steps(bench: &mut Bench, who: u8, count: u32) {
    for _ in 0..count {
        bench.make(Op::Step { who });
    }
}

/// Steps on to the answer; its number and value, and how many steps that took.
pub fn finish(bench: &mut Bench, who: u8) -> (u32, u32, u32) {
    for taken in 1..=PLENTY {
        let Outcome {
            progress,
            number,
            value,
            ..
        } = bench.make(Op::Step { who });
        if progress == ANSWERED {
            return (number, value, taken);
        }
    }
    bench.comparer().stop("a call alone does not end")
}

pub fn stepped(bench: &mut Bench, start: Op) -> (u32, u32, u32) {
    let Op::Start { who, .. } = start else {
        unreachable!("a start");
    };
    bench.make(start);
    finish(bench, who)
}

/// A start and a drain to its end.
pub fn drained(bench: &mut Bench, start: Op) -> Outcome {
    let Op::Start { who, .. } = start else {
        unreachable!("a start");
    };
    bench.make(start);
    bench.make(Op::Drain {
        who,
        budget: PLENTY,
    })
}
