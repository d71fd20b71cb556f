//! The scope's bench sheet, and what it asks to be run and compared beside it.

use simmerhusk::raw::Op;

use super::{ACQUIRE, BORROWED, LOCKED, RELEASE, finish, stated, stepped, steps};
use crate::bench::{Bench, fresh, start};
use crate::shadow::Kind;

pub fn all(bench: &mut Bench) {
    plain_one_record(bench);
    plain_two_records(bench);
    robust_one_record(bench);
    r5(bench);
    r6(bench);
    last_generation(bench);
}

fn plain_one_record(bench: &mut Bench) {
    bench.load("P1, P2, P4", &fresh(Kind::Plain, 3, 1));
    let slots = bench.oracle.slots().to_vec();
    stated(bench, "P1's slots", vec![1, 2, 3, 4], slots);
    let p2 = stepped(bench, start(0, ACQUIRE, 0, 0, 0));
    stated(bench, "P2", (0, 0, 4), p2);
    let (word, slots) = (bench.word(), bench.oracle.slots().to_vec());
    stated(bench, "P2's word", 0x0000_0100_0100_0001, word);
    stated(bench, "P2's slots", vec![4, 2, 3, 4], slots);
    let p4 = stepped(bench, start(0, RELEASE, 0, 0, 1));
    stated(bench, "P4", (0, 1), (p4.0, p4.1));
    let word = bench.word();
    stated(bench, "P4's word", 0x0000_0000_02FF_FFFF, word);
    let locked = stepped(bench, start(0, ACQUIRE, 0, 0, 0));
    stated(bench, "P4's acquire", 2, locked.0);
    let borrowed = stepped(bench, start(0, BORROWED, 0, 0, 0));
    stated(bench, "P4's borrowed", (0, 0, 1), borrowed);
    stepped(bench, start(0, LOCKED, 0, 0, 0));

    bench.load("P5", &fresh(Kind::Plain, 1, 1));
    stepped(bench, start(0, ACQUIRE, 0, 0, 0));
    let p5 = stepped(bench, start(0, ACQUIRE, 0, 0, 0));
    stated(bench, "P5", (1, 0, 1), p5);
    let slots = bench.oracle.slots().to_vec();
    stated(bench, "P5's slots", vec![2, 2], slots);

    bench.load("P6", &fresh(Kind::Plain, 3, 1));
    bench.make(Op::PokeWord(0x0000_00FF_FF00_0000));
    stepped(bench, start(0, ACQUIRE, 0, 0, 0));
    let word = bench.word();
    stated(bench, "P6's word", 0x0000_0100_0000_0001, word);
}

fn plain_two_records(bench: &mut Bench) {
    bench.load("P8", &fresh(Kind::Plain, 2, 2));
    bench.make(start(0, ACQUIRE, 0, 0, 0));
    steps(bench, 0, 2);
    stepped(bench, start(1, ACQUIRE, 0, 0, 0));
    let p8 = finish(bench, 0);
    stated(bench, "P8", (0, 1, 4), p8);
    let (word, slots) = (bench.word(), bench.oracle.slots().to_vec());
    stated(bench, "P8's word", 0x0000_0200_0200_0002, word);
    stated(bench, "P8's slots", vec![3, 3, 3], slots);
}

fn robust_one_record(bench: &mut Bench) {
    bench.load("R1, R2", &fresh(Kind::Robust, 2, 1));
    let r1 = stepped(bench, start(0, ACQUIRE, 0, 313, 0));
    stated(bench, "R1", (0, 0, 4), r1);
    let r2 = stepped(bench, start(0, RELEASE, 0, 314, 0));
    stated(bench, "R2", (6, 0, 1), r2);
    let generation = bench.word();
    stated(bench, "R2's generation", 1, generation);

    bench.load("R3", &fresh(Kind::Robust, 1, 1));
    stepped(bench, start(0, ACQUIRE, 0, 7, 0));
    let r3 = stepped(bench, start(0, RELEASE, 0, 7, 1));
    stated(bench, "R3", (0, 1, 9), r3);
}

fn r5(bench: &mut Bench) {
    bench.load("R5, and a release afterwards", &fresh(Kind::Robust, 2, 2));
    stepped(bench, start(0, ACQUIRE, 0, 7, 0));
    bench.make(start(1, ACQUIRE, 0, 8, 0));
    steps(bench, 1, 2);
    bench.make(start(0, RELEASE, 0, 7, 1));
    steps(bench, 0, 9);
    steps(bench, 1, 1);
    let locks = finish(bench, 0);
    stated(bench, "R5's release", (0, 1, 1), locks);
    let r5 = finish(bench, 1);
    stated(bench, "R5's acquire", (2, 0), (r5.0, r5.1));
    let cells = bench.oracle.cells().to_vec();
    stated(bench, "R5's cells", vec![u64::MAX, 8], cells);
    let unlocked = stepped(bench, start(1, RELEASE, 1, 8, 0));
    stated(
        bench,
        "a release after R5",
        (0, 0),
        (unlocked.0, unlocked.1),
    );
}

fn r6(bench: &mut Bench) {
    bench.load("R6", &fresh(Kind::Robust, 2, 3));
    stepped(bench, start(0, ACQUIRE, 0, 7, 0));
    for (who, owner) in [(1, 8), (2, 9)] {
        bench.make(start(who, ACQUIRE, 0, owner, 0));
        steps(bench, who, 2);
    }
    bench.make(start(0, RELEASE, 0, 7, 0));
    steps(bench, 0, 1);
    steps(bench, 2, 1);
    let r6 = finish(bench, 1);
    stated(bench, "R6", (1, 0), (r6.0, r6.1));
    finish(bench, 0);
    finish(bench, 2);
}

fn last_generation(bench: &mut Bench) {
    bench.load("generation u64::MAX - 1", &fresh(Kind::Robust, 1, 1));
    bench.make(Op::PokeWord(u64::MAX - 1));
    let locked = stepped(bench, start(0, ACQUIRE, 0, 7, 0));
    stated(bench, "the last bump", (2, 0, 4), locked);
    let generation = bench.word();
    stated(bench, "the last generation", u64::MAX, generation);
}
