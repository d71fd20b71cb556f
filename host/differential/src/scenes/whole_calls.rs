//! Whole calls: the Rust over ordinary atomics, made at once, against the stepped ones of both sides; the
//! sets of fixed size too.

use std::panic::{AssertUnwindSafe, catch_unwind};

use oracle_paused::{Call, Report};
use oracle_whole::{WholeSet, fixed_plain, fixed_robust};
use simmerhusk::raw::{Op, Outcome};

use super::{ACQUIRE, BORROWED, FIND, LOCKED, RECOVER, RELEASE};
use crate::bench::{Bench, fresh, start};
use crate::expected::{ANSWERED, FOUND, FREED};
use crate::random::Random;
use crate::shadow::Kind;
use crate::words::held;

type Made = Result<Box<dyn WholeSet>, u32>;

fn forms(kind: Kind, capacity: u32) -> Vec<(&'static str, Made)> {
    match kind {
        Kind::Plain => vec![
            ("UniqueIndexSet", Ok(oracle_whole::plain(capacity))),
            ("FixedSizeUniqueIndexSet<1>", fixed_plain::<1>(capacity)),
            ("FixedSizeUniqueIndexSet<2>", fixed_plain::<2>(capacity)),
            ("FixedSizeUniqueIndexSet<3>", fixed_plain::<3>(capacity)),
            ("FixedSizeUniqueIndexSet<8>", fixed_plain::<8>(capacity)),
        ],
        Kind::Robust => vec![
            ("RobustUniqueIndexSet", Ok(oracle_whole::robust(capacity))),
            ("StaticRobustUniqueIndexSet<1>", fixed_robust::<1>(capacity)),
            ("StaticRobustUniqueIndexSet<2>", fixed_robust::<2>(capacity)),
            ("StaticRobustUniqueIndexSet<3>", fixed_robust::<3>(capacity)),
            ("StaticRobustUniqueIndexSet<8>", fixed_robust::<8>(capacity)),
        ],
    }
}

/// One round over all forms at capacities that fit and that do not.
pub fn round(bench: &mut Bench, seed: u64, calls: u32) {
    let mut random = Random::new(seed);
    for kind in [Kind::Plain, Kind::Robust] {
        for capacity in [0, 1, 2, 3, 4, 8, 9] {
            for (form, made) in forms(kind, capacity.max(1)).into_iter().take(1) {
                sequence(bench, &mut random, form, kind, made, calls);
            }
            for (form, made) in forms_of_fixed_size(kind, capacity) {
                match made {
                    Ok(set) => sequence(bench, &mut random, form, kind, Ok(set), calls),
                    Err(number) => refused(bench, form, kind, capacity, number),
                }
            }
        }
    }
}

fn forms_of_fixed_size(kind: Kind, capacity: u32) -> Vec<(&'static str, Made)> {
    match capacity {
        0 => forms_at_zero(kind),
        capacity => forms(kind, capacity).split_off(1),
    }
}

fn forms_at_zero(kind: Kind) -> Vec<(&'static str, Made)> {
    match kind {
        Kind::Plain => vec![("FixedSizeUniqueIndexSet<3>", fixed_plain::<3>(0))],
        Kind::Robust => vec![("StaticRobustUniqueIndexSet<3>", fixed_robust::<3>(0))],
    }
}

/// A capacity that the form does not take: a setup over as many entries is refused with its number.
fn refused(bench: &mut Bench, form: &str, kind: Kind, capacity: u32, number: u32) {
    let limit = match form
        .chars()
        .rev()
        .nth(1)
        .and_then(|digit| digit.to_digit(10))
    {
        Some(limit) => limit,
        None => return,
    };
    bench.load(form, &fresh(kind, limit, 1));
    let outcome = bench.make(Op::Setup { asked: capacity });
    if outcome.number != number {
        let why = format!("{form} refuses {capacity} with {number}, the scope with {outcome:?}");
        bench.comparer().stop(&why);
    }
}

fn sequence(
    bench: &mut Bench,
    random: &mut Random,
    form: &str,
    kind: Kind,
    made: Made,
    calls: u32,
) {
    let Ok(mut set) = made else { return };
    bench.load(
        &format!("whole calls, {form}"),
        &fresh(kind, set.capacity(), 1),
    );
    same_state(bench, &*set, form);
    for _ in 0..calls {
        if random.one_in(12) && kind == Kind::Robust {
            let owners = (0..random.below(3))
                .map(|_| random.pick(&[7, 8, 9]))
                .collect();
            bench.make(Op::List { who: 0, owners });
        }
        let op = pick(bench, random, kind);
        call(bench, &mut *set, form, op);
        if bench.shadow.kind == Kind::Plain && set.word() & 0xff_ffff == 0xff_ffff {
            return;
        }
    }
}

fn pick(bench: &Bench, random: &mut Random, kind: Kind) -> Op {
    let capacity = bench.shadow.capacity;
    let own: Vec<u32> = match kind {
        Kind::Plain => (0..capacity)
            .filter(|index| bench.shadow.custody[*index as usize] == held(0))
            .collect(),
        Kind::Robust => (0..capacity).collect(),
    };
    let owner = random.pick(&[7, 8, 9]);
    let mode = u8::from(random.one_in(6));
    let robust = kind == Kind::Robust;
    match random.below(12) {
        0 => start(0, BORROWED, 0, 0, 0),
        1 => start(0, LOCKED, 0, 0, 0),
        2 if robust => start(0, FIND, random.between(1, 3) as u32, owner, 0),
        3 if robust => start(0, RECOVER, 0, 0, mode),
        4..=7 if !own.is_empty() => start(0, RELEASE, random.pick(&own), owner, mode),
        _ => start(0, ACQUIRE, 0, owner, 0),
    }
}

fn call(bench: &mut Bench, set: &mut dyn WholeSet, form: &str, op: Op) {
    bench.make(op);
    let Some(request) = bench.shadow.request(0) else {
        return;
    };
    let mut reports = Vec::new();
    let stepped = match request.call {
        Call::Find | Call::Recover => answer_by_steps(bench, &mut reports),
        _ => bench.make(Op::Drain {
            who: 0,
            budget: 1_000,
        }),
    };
    let mut whole_reports = Vec::new();
    let called = catch_unwind(AssertUnwindSafe(|| {
        set.call(&whole_request(&request), &mut whole_reports)
    }));
    let Ok(whole) = called else {
        let why = format!("{form}, {request:?} whole: the Rust panicked");
        bench.comparer().stop(&why);
    };
    let same = stepped.progress == ANSWERED
        && (whole.number, whole.value) == (stepped.number, stepped.value)
        && whole_reports
            .iter()
            .map(|report| format!("{report:?}"))
            .eq(reports.iter().map(|report| format!("{report:?}")));
    if !same {
        let why = format!(
            "{form}, {request:?} whole: {whole:?} {whole_reports:?}; stepped: {stepped:?} {reports:?}"
        );
        bench.comparer().stop(&why);
    }
    same_state(bench, set, form);
}

fn answer_by_steps(bench: &mut Bench, reports: &mut Vec<Report>) -> Outcome {
    loop {
        let outcome = bench.make(Op::Step { who: 0 });
        match outcome.noted {
            FOUND => reports.push(Report::Found {
                index: outcome.noted_index,
            }),
            FREED => reports.push(Report::Freed {
                index: outcome.noted_index,
                owner: outcome.noted_owner,
            }),
            _ => {}
        }
        if outcome.progress == ANSWERED {
            return outcome;
        }
    }
}

fn whole_request(request: &oracle_paused::Request) -> oracle_whole::Request {
    oracle_whole::Request {
        call: match request.call {
            Call::Acquire => oracle_whole::Call::Acquire,
            Call::Release => oracle_whole::Call::Release,
            Call::Borrowed => oracle_whole::Call::Borrowed,
            Call::Locked => oracle_whole::Call::Locked,
            Call::Find => oracle_whole::Call::Find,
            Call::Recover => oracle_whole::Call::Recover,
        },
        index_or_room: request.index_or_room,
        owner: request.owner,
        mode: request.mode,
        listed: request.listed,
        list: request.list,
    }
}

fn same_state(bench: &mut Bench, set: &dyn WholeSet, form: &str) {
    let stepped: Vec<u64> = match bench.shadow.kind {
        Kind::Plain => bench.oracle.slots().iter().map(|s| u64::from(*s)).collect(),
        Kind::Robust => bench.oracle.cells().to_vec(),
    };
    let stepped = (bench.word(), stepped);
    let whole = (set.word(), set.entries());
    if stepped != whole {
        let why = format!("{form}: whole calls leave {whole:x?}, stepped ones {stepped:x?}");
        bench.comparer().stop(&why);
    }
}
