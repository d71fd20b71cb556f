//! Every limit of the scope, both sides of each.

use simmerhusk::raw::{Buffers, Dock, Op, RECORD_BYTES};

use super::{
    ACQUIRE, BORROWED, FIND, LOCKED, RECOVER, RELEASE, drained, finish, stated, stepped, steps,
};
use crate::bench::{Bench, fresh, start};
use crate::shadow::{Kind, PLAIN_LIMIT, ROBUST_LIMIT};
use crate::words::{head_of, held, word_of};

pub fn all(bench: &mut Bench) {
    for kind in [Kind::Plain, Kind::Robust] {
        setups(bench, kind);
        lent_to_calls(bench, kind);
        records(bench, kind);
        arguments(bench, kind);
    }
    lists(bench);
    rooms(bench);
    largest_robust(bench);
    largest_plain(bench);
}

fn dock(kind: Kind, capacity: u32, entries: usize, custody: usize, records: usize) -> Dock {
    let buffers = match kind {
        Kind::Plain => Buffers::Plain {
            slots: vec![0x5A5A_5A5A; entries],
            custody: vec![held(0); custody],
        },
        Kind::Robust => Buffers::Robust {
            cells: vec![0x5A5A; entries],
        },
    };
    Dock {
        capacity,
        word: 0x0123_4567_89AB_CDEF,
        buffers,
        records: vec![0; records * RECORD_BYTES],
    }
}

/// Entries that a capacity asks for.
fn needed(kind: Kind, capacity: usize) -> usize {
    match kind {
        Kind::Plain => capacity + 1,
        Kind::Robust => capacity,
    }
}

fn setups(bench: &mut Bench, kind: Kind) {
    let title = format!("setups, {kind:?}");
    for asked in [0, 1, 2, 5, kind.limit(), kind.limit() + 1, u32::MAX] {
        for entries in [0, 1, 2, 5, 6, 7] {
            for custody in [0, 1, 4, 5, 6] {
                for records in [0, 1, 16, 17] {
                    bench.load(&title, &dock(kind, 3, entries, custody, records));
                    bench.make(Op::Setup { asked });
                    drained_if_any(bench, records);
                }
            }
        }
    }
}

fn drained_if_any(bench: &mut Bench, records: usize) {
    if records > 0 {
        let who = (records - 1) as u8;
        bench.make(start(who, ACQUIRE, 0, 7, 0));
        bench.make(Op::Step { who });
        bench.make(Op::Drain { who, budget: 2 });
    }
}

/// Capacities and buffers as no setup leaves them: 3, 4 and 10, before anything of the record.
fn lent_to_calls(bench: &mut Bench, kind: Kind) {
    let title = format!("lent to calls, {kind:?}");
    let capacities = [0, 1, 4, 5, kind.limit(), kind.limit() + 1, u32::MAX];
    for capacity in capacities {
        for entries in [0, needed(kind, 4), needed(kind, 5)] {
            for custody in [0, 4, 5] {
                for records in [0, 1, 16, 17] {
                    bench.load(&title, &dock(kind, capacity, entries, custody, records));
                    for who in [0, 16, 17] {
                        bench.make(start(who, ACQUIRE, 0, 7, 0));
                        bench.make(Op::Step { who });
                        bench.make(Op::Drain { who, budget: 0 });
                        bench.make(Op::List {
                            who,
                            owners: vec![7],
                        });
                    }
                    bench.make(start(0, 0, 0, u64::MAX, 0));
                    bench.make(Op::Death { who: 0 });
                    bench.make(Op::Death { who: 0 });
                    bench.make(Op::Step { who: 0 });
                }
            }
        }
    }
}

fn records(bench: &mut Bench, kind: Kind) {
    bench.load("16 records", &fresh(kind, 3, 16));
    for who in [0, 15, 16, 255] {
        bench.make(start(who, ACQUIRE, 0, 7, 0));
        bench.make(start(who, ACQUIRE, 0, 7, 0));
        bench.make(Op::Drain { who, budget: 0 });
        bench.make(Op::Drain { who, budget: 1 });
        bench.make(Op::Drain { who, budget: 90 });
        bench.make(Op::Drain { who, budget: 90 });
        bench.make(Op::Step { who });
    }
    bench.make(start(3, ACQUIRE, 0, 7, 0));
    bench.make(Op::Step { who: 3 });
    bench.make(Op::Death { who: 3 });
    for op in [
        Op::Step { who: 3 },
        Op::Drain { who: 3, budget: 1 },
        Op::Death { who: 3 },
        start(3, BORROWED, 0, 0, 0),
        Op::List {
            who: 3,
            owners: Vec::new(),
        },
    ] {
        bench.make(op);
    }
    bench.make(Op::Setup { asked: 3 });
    drained(bench, start(3, ACQUIRE, 0, 7, 0));
}

/// Every call with indices, owners, modes and call numbers around their limits.
fn arguments(bench: &mut Bench, kind: Kind) {
    let capacity = 3;
    bench.load("arguments", &fresh(kind, capacity, 2));
    for who in [0, 0, 1] {
        drained(bench, start(who, ACQUIRE, 0, u64::MAX - 1, 0));
    }
    for call in [0, ACQUIRE, RELEASE, BORROWED, LOCKED, FIND, RECOVER, 7, 255] {
        for index_or_room in [0, 1, capacity - 1, capacity, capacity + 1, u32::MAX] {
            for owner in [0, 7, u64::MAX - 1, u64::MAX] {
                for mode in [0, 1, 2, 255] {
                    bench.make(start(1, call, index_or_room, owner, mode));
                    if bench.shadow.is_busy(1) {
                        finish(bench, 1);
                    }
                    regain(bench, kind);
                }
            }
        }
    }
}

/// Acquires again what a release gave back, so that each release finds the same; a locked set is opened.
fn regain(bench: &mut Bench, kind: Kind) {
    let is_full = match kind {
        Kind::Plain => head_of(bench.word()) >= bench.shadow.capacity,
        Kind::Robust => !bench.oracle.cells().contains(&u64::MAX),
    };
    if is_full {
        return;
    }
    if kind == Kind::Robust && bench.word() == u64::MAX {
        bench.make(Op::PokeWord(1));
    }
    drained(bench, start(1, ACQUIRE, 0, u64::MAX - 1, 0));
}

fn lists(bench: &mut Bench) {
    bench.load("lists", &fresh(Kind::Robust, 2, 2));
    drained(bench, start(0, ACQUIRE, 0, 7, 0));
    drained(bench, start(0, ACQUIRE, 0, u64::MAX - 1, 0));
    // As a byte 256 would be 0, and 264 would be 8.
    for count in [0, 1, 8, 9, 20, 255, 256, 264] {
        for last in [7, u64::MAX - 1, u64::MAX] {
            let mut owners = vec![3; count];
            if let Some(owner) = owners.last_mut() {
                *owner = last;
            }
            let list = Op::List { who: 1, owners };
            bench.make(list.clone());
            bench.make(start(1, BORROWED, 0, 0, 0));
            bench.make(list);
            bench.make(Op::List {
                who: 1,
                owners: Vec::new(),
            });
            finish(bench, 1);
            stepped(bench, start(1, RECOVER, 0, 0, 0));
            drained(bench, start(0, ACQUIRE, 0, 7, 0));
        }
    }
    bench.make(Op::List {
        who: 1,
        owners: vec![7, u64::MAX - 1],
    });
    bench.make(start(1, RECOVER, 0, 0, 2));
    bench.make(start(1, RECOVER, 0, 0, 1));
    bench.make(Op::Drain { who: 1, budget: 0 });
    let recovered = finish(bench, 1);
    stated(
        bench,
        "a recover of all",
        (0, 1),
        (recovered.0, recovered.1),
    );
    stepped(bench, start(1, RECOVER, 0, 0, 1));
    bench.load("lists of a plain set", &fresh(Kind::Plain, 2, 1));
    for owners in [
        vec![],
        vec![7],
        vec![u64::MAX],
        vec![7; 9],
        vec![7; 256],
        vec![7; 264],
    ] {
        bench.make(Op::List { who: 0, owners });
    }
}

fn rooms(bench: &mut Bench) {
    bench.load("rooms", &fresh(Kind::Robust, 4, 1));
    for owner in [7, 8, 7, 7] {
        drained(bench, start(0, ACQUIRE, 0, owner, 0));
    }
    for room in [0, 1, 2, 3, 4, 5, 1_000, u32::MAX] {
        for owner in [7, 8, 9, u64::MAX] {
            bench.make(start(0, FIND, room, owner, 0));
            bench.make(Op::Drain { who: 0, budget: 0 });
            if bench.shadow.is_busy(0) {
                finish(bench, 0);
            }
        }
    }
}

fn largest_robust(bench: &mut Bench) {
    let limit = ROBUST_LIMIT;
    let entries = limit as usize;
    bench.load(
        "robust 4,097 and 4,096",
        &dock(Kind::Robust, 1, entries + 1, 0, 2),
    );
    bench.make(Op::Setup { asked: limit + 1 });
    bench.make(Op::Setup { asked: limit });
    bench.load("robust 4,096, full", &fresh(Kind::Robust, limit, 2));
    bench.make(start(0, RELEASE, limit, 7, 0));
    let mut full = fresh(Kind::Robust, limit, 2);
    if let Buffers::Robust { cells } = &mut full.buffers {
        cells.fill(7);
    }
    bench.load("robust 4,096, a scan of all cells", &full);
    bench.make(start(0, ACQUIRE, 0, 8, 0));
    steps(bench, 0, 40);
    let scan = bench.make(Op::Drain {
        who: 0,
        budget: limit * 2,
    });
    stated(
        bench,
        "a scan of all cells",
        (1, limit + 2 - 40),
        (scan.number, scan.steps),
    );
    stepped(bench, start(0, RELEASE, limit - 1, 7, 0));
    let last = drained(bench, start(0, ACQUIRE, 0, 8, 0));
    stated(
        bench,
        "the last cell",
        (0, limit - 1),
        (last.number, last.value),
    );
    let count = drained(bench, start(0, BORROWED, 0, 0, 0));
    stated(bench, "all cells", (0, limit), (count.number, count.value));
    drained(bench, start(0, RELEASE, 0, 7, 1));
    bench.make(Op::List {
        who: 0,
        owners: vec![8],
    });
    stepped(bench, start(0, RECOVER, 0, 0, 1));
    stepped(bench, start(0, FIND, u32::MAX, 7, 0));
}

/// A few turns only: each one's digests are over 128 MB.
fn largest_plain(bench: &mut Bench) {
    let limit = PLAIN_LIMIT;
    let entries = limit as usize + 2;
    bench.load(
        "plain 16,777,215 and 16,777,214",
        &dock(Kind::Plain, 1, entries, entries, 1),
    );
    bench.make(Op::Setup { asked: limit + 1 });
    bench.make(Op::Setup { asked: limit });
    bench.make(start(0, ACQUIRE, 0, 0, 0));
    steps(bench, 0, 1);
    let first = bench.make(Op::Drain { who: 0, budget: 9 });
    stated(
        bench,
        "the first index",
        (0, 0),
        (first.number, first.value),
    );
    bench.make(Op::PokeWord(word_of(limit - 1, 9, limit - 1)));
    let last = drained(bench, start(0, ACQUIRE, 0, 0, 0));
    stated(
        bench,
        "the last index",
        (0, limit - 1),
        (last.number, last.value),
    );
    let word = bench.word();
    stated(
        bench,
        "the word without a free index",
        word_of(limit, 10, limit),
        word,
    );
    let none = drained(bench, start(0, ACQUIRE, 0, 0, 0));
    stated(bench, "an acquire without a free index", 1, none.number);
    bench.make(start(0, RELEASE, limit, 0, 0));
    drained(bench, start(0, RELEASE, limit - 1, 0, 0));
}
