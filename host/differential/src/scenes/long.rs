//! Schedules that go once around the tag: 65,536 changes of the head word.

use super::{ACQUIRE, RELEASE, drained, finish, stated, steps};
use crate::bench::{Bench, fresh, start};
use crate::shadow::Kind;

pub fn all(bench: &mut Bench) {
    two_holders(bench);
    borrowed_alone_tells(bench);
    reads_what_an_acquire_wrote(bench);
}

fn acquire(bench: &mut Bench, who: u8) -> u32 {
    drained(bench, start(who, ACQUIRE, 0, 0, 0)).value
}

fn release(bench: &mut Bench, who: u8, index: u32) {
    drained(bench, start(who, RELEASE, index, 0, 0));
}

fn pairs(bench: &mut Bench, count: u32) {
    for _ in 0..count {
        acquire(bench, 1);
        release(bench, 1, 0);
    }
}

/// A slot that is held is granted once more.
fn two_holders(bench: &mut Bench) {
    bench.load("two holders", &fresh(Kind::Plain, 3, 3));
    for _ in 0..3 {
        acquire(bench, 1);
    }
    release(bench, 1, 1);
    release(bench, 1, 0);
    bench.make(start(0, ACQUIRE, 0, 0, 0));
    steps(bench, 0, 2);
    acquire(bench, 1);
    acquire(bench, 1);
    release(bench, 1, 2);
    release(bench, 1, 0);
    pairs(bench, 32_766);
    let reader = finish(bench, 0);
    stated(bench, "the reader of two holders", (0, 0, 2), reader);
    let twice = acquire(bench, 2);
    stated(bench, "the index held twice", 1, twice);
}

/// Head and tag are as before, the borrowed count is not.
fn borrowed_alone_tells(bench: &mut Bench) {
    bench.load("borrowed alone tells", &fresh(Kind::Plain, 3, 2));
    bench.make(start(0, ACQUIRE, 0, 0, 0));
    steps(bench, 0, 2);
    for _ in 0..3 {
        acquire(bench, 1);
    }
    release(bench, 1, 0);
    pairs(bench, 32_766);
    finish(bench, 0);
}

/// A read between an acquire's write and its release finds capacity + 1.
fn reads_what_an_acquire_wrote(bench: &mut Bench) {
    bench.load("a read of capacity + 1", &fresh(Kind::Plain, 3, 2));
    bench.make(start(0, ACQUIRE, 0, 0, 0));
    steps(bench, 0, 1);
    acquire(bench, 1);
    steps(bench, 0, 1);
    release(bench, 1, 0);
    pairs(bench, 32_767);
    finish(bench, 0);
}
