//! Schedules by chance: calls, steps, drains, lists, deaths and setups, with refused ones of every kind
//! among them; and in a hostile environment, arbitrary words, slots, cells and custody in between.

use simmerhusk::raw::{Buffers, Dock, Op, RECORD_BYTES};

use super::damage;
use super::{ACQUIRE, BORROWED, FIND, LOCKED, RECOVER, RELEASE};
use crate::bench::{Bench, start};
use crate::random::Random;
use crate::shadow::{Kind, Shadow};
use crate::words::{self, giving, granting, held, word_of};

const OWNERS: [u64; 7] = [0, 1, 7, 8, 313, 314, u64::MAX - 1];

/// One scene of the seed.
pub fn scene(bench: &mut Bench, seed: u64, number: u64) {
    let mut random = Random::new(seed ^ number.wrapping_mul(0xD6E8_FEB8_6659_FD93));
    let kind = random.pick(&[Kind::Plain, Kind::Robust]);
    let hostile = random.one_in(3);
    let capacity = match random.below(8) {
        0 => 1,
        7 => random.between(7, 40),
        _ => random.between(1, 6),
    } as u32;
    let title = format!("random {number}, hostile: {hostile}");
    bench.load(&title, &junk(&mut random, kind, capacity));
    bench.make(Op::Setup { asked: capacity });
    if random.one_in(4) {
        bench.make(Op::PokeWord(late_word(&mut random, kind)));
    }
    if hostile && random.one_in(2) {
        for _ in 0..2 * capacity + 2 {
            let op = poke(bench, &mut random);
            bench.make(op);
        }
    }
    let turns = random.between(30, 900);
    for _ in 0..turns {
        turn(bench, &mut random, hostile);
    }
}

/// A dock that was never set up: more than is needed of everything, filled with anything.
fn junk(random: &mut Random, kind: Kind, capacity: u32) -> Dock {
    let beyond = random.below(4) as usize;
    let capacity = capacity as usize;
    let buffers = match kind {
        Kind::Plain => Buffers::Plain {
            slots: (0..capacity + 1 + beyond)
                .map(|_| random.number() as u32)
                .collect(),
            custody: (0..capacity + beyond)
                .map(|_| random.number() as u32)
                .collect(),
        },
        Kind::Robust => Buffers::Robust {
            cells: (0..capacity + beyond).map(|_| random.number()).collect(),
        },
    };
    let records = random.between(1, 16) as usize;
    let records = match random.below(3) {
        0 => records,
        _ => records.min(4),
    };
    let mut dock = Dock {
        capacity: 0,
        word: random.number(),
        buffers,
        records: vec![0; records * RECORD_BYTES],
    };
    if random.one_in(8) {
        dock.records.extend_from_slice(&[7; 5]);
    }
    dock
}

/// A word shortly before the tag or the generation comes round.
pub fn late_word(random: &mut Random, kind: Kind) -> u64 {
    match kind {
        Kind::Plain => word_of(0, u16::MAX - random.below(8) as u16, 0),
        Kind::Robust => u64::MAX - 1 - random.below(24),
    }
}

fn turn(bench: &mut Bench, random: &mut Random, hostile: bool) {
    if random.one_in(400) {
        return damage::in_passing(bench, random);
    }
    let op = match hostile && random.one_in(12) {
        true => poke(bench, random),
        false => plain_turn(bench, random),
    };
    bench.make(op);
}

/// A call, step, drain, list, death or setup, most of them accepted.
pub fn plain_turn(bench: &Bench, random: &mut Random) -> Op {
    let shadow = &bench.shadow;
    let (busy, idle) = (shadow.busy(), shadow.idle());
    match random.below(400) {
        0 => Op::Setup {
            asked: shadow.capacity,
        },
        1 => Op::Death {
            who: random.below(shadow.lives.len() as u64) as u8,
        },
        2..=21 => anything(shadow, random),
        22..=41 if !busy.is_empty() => Op::Drain {
            who: random.pick(&busy),
            budget: random.below(14) as u32,
        },
        42..=51 if !idle.is_empty() && shadow.kind == Kind::Robust => Op::List {
            who: random.pick(&idle),
            owners: owners(random, 8),
        },
        52..=150 if !idle.is_empty() => sensible_start(bench, random, &idle),
        _ if !busy.is_empty() => Op::Step {
            who: random.pick(&busy),
        },
        _ if !idle.is_empty() => sensible_start(bench, random, &idle),
        _ => Op::Setup {
            asked: shadow.capacity,
        },
    }
}

fn owners(random: &mut Random, most: u64) -> Vec<u64> {
    let count = random.between(0, most);
    (0..count).map(|_| random.pick(&OWNERS)).collect()
}

fn sensible_start(bench: &Bench, random: &mut Random, idle: &[u8]) -> Op {
    let who = random.pick(idle);
    match bench.shadow.kind {
        Kind::Plain => plain_start(bench, random, who),
        Kind::Robust => robust_start(bench, random, who),
    }
}

fn plain_start(bench: &Bench, random: &mut Random, who: u8) -> Op {
    let own: Vec<u32> = (0..bench.shadow.capacity)
        .filter(|index| bench.shadow.custody[*index as usize] == held(who))
        .collect();
    let owner = random.pick(&[0, u64::MAX]);
    let mode = random.below(2) as u8;
    match random.below(10) {
        0 => start(who, BORROWED, random.number() as u32, owner, 9),
        1 => start(who, LOCKED, random.number() as u32, owner, 9),
        2..=5 if !own.is_empty() => start(who, RELEASE, random.pick(&own), owner, mode),
        _ => start(who, ACQUIRE, random.number() as u32, owner, 9),
    }
}

fn robust_start(bench: &Bench, random: &mut Random, who: u8) -> Op {
    let owner = random.pick(&OWNERS);
    let index = random.below(u64::from(bench.shadow.capacity)) as u32;
    let mode = random.below(2) as u8;
    let cell = bench.oracle.cells()[index as usize];
    match random.below(16) {
        0 | 1 => start(who, BORROWED, random.number() as u32, u64::MAX, 9),
        2 => start(who, LOCKED, random.number() as u32, u64::MAX, 9),
        3 => start(who, FIND, random.between(1, 4) as u32, owner, 9),
        4 | 5 => start(who, RECOVER, random.number() as u32, u64::MAX, mode),
        6..=9 if cell != u64::MAX && !random.one_in(8) => start(who, RELEASE, index, cell, mode),
        6 => start(who, RELEASE, index, owner, mode),
        _ => start(who, ACQUIRE, random.number() as u32, owner, 9),
    }
}

/// A call with anything in it: mostly refused.
fn anything(shadow: &Shadow, random: &mut Random) -> Op {
    let who = random.pick(&[0, 0, 1, 2, 3, 15, 16, 255, shadow.lives.len() as u8]);
    let capacity = shadow.capacity;
    match random.below(12) {
        0 => Op::Step { who },
        1 => Op::Drain {
            who,
            budget: random.below(3) as u32,
        },
        2 => Op::Death {
            who: random.pick(&[16, 255, shadow.lives.len() as u8]),
        },
        3 => Op::Setup {
            asked: random.pick(&[0, u32::MAX, 16_777_215, 4_097]),
        },
        4 | 5 => {
            let mut owners = owners(random, 11);
            if random.one_in(3) {
                owners.push(u64::MAX);
            }
            Op::List { who, owners }
        }
        _ => start(
            who,
            random.pick(&[0, 1, 2, 2, 2, 3, 4, 5, 6, 7, 255]),
            random.pick(&[0, 0, 1, capacity - 1, capacity, capacity + 1, u32::MAX]),
            random.pick(&[7, 8, u64::MAX, u64::MAX, u64::MAX - 1]),
            random.pick(&[0, 1, 1, 2, 255]),
        ),
    }
}

/// Something that no call wrote.
fn poke(bench: &Bench, random: &mut Random) -> Op {
    let shadow = &bench.shadow;
    let entry = random.below(u64::from(shadow.capacity)) as u32;
    match (shadow.kind, random.below(4)) {
        (_, 0) => Op::PokeWord(any_word(bench, random)),
        (Kind::Plain, 1) => {
            let who = random.below(shadow.lives.len() as u64) as u8;
            let anything = random.number() as u32;
            let entry_of = [
                held(who),
                held(who),
                0,
                granting(who),
                giving(who),
                anything,
            ];
            Op::PokeCustody(entry, random.pick(&entry_of))
        }
        (Kind::Plain, _) => {
            let small = random.between(0, u64::from(shadow.capacity) + 1) as u32;
            let anything = random.number() as u32;
            let value = random.pick(&[small, small, small | 0xff00_0000, anything, u32::MAX]);
            Op::PokeSlot(random.between(0, u64::from(shadow.capacity)) as u32, value)
        }
        (Kind::Robust, _) => {
            let owner = random.pick(&OWNERS);
            let anything = random.number();
            Op::PokeCell(
                entry,
                random.pick(&[u64::MAX, u64::MAX, owner, owner, anything]),
            )
        }
    }
}

pub fn any_word(bench: &Bench, random: &mut Random) -> u64 {
    let word = bench.word();
    let anything = random.number();
    if bench.shadow.kind == Kind::Robust {
        let (next, before) = (word.wrapping_add(1), word.wrapping_sub(1));
        return random.pick(&[0, u64::MAX, u64::MAX - 1, anything, next, next, before]);
    }
    any_head_word(random, bench.shadow.capacity, word)
}

pub fn any_head_word(random: &mut Random, capacity: u32, word: u64) -> u64 {
    let small = random.below(u64::from(capacity) + 2) as u32;
    let anything = random.number();
    let head = random.pick(&[
        words::head_of(word),
        small,
        small,
        capacity,
        words::LOCKED,
        anything as u32,
    ]);
    let tag = words::tag_of(word);
    let tag = random.pick(&[tag, tag, u16::MAX, 0, anything as u16]);
    let borrowed = words::borrowed_of(word);
    let borrowed = random.pick(&[
        borrowed,
        borrowed,
        0,
        1,
        1,
        2,
        words::LOCKED,
        words::LOCKED - 1,
        anything as u32,
    ]);
    word_of(head, tag, borrowed)
}
