//! Records with bytes that no call left there: refused with 11 or 9 exactly where the scope says so,
//! and then nothing has changed.

use simmerhusk::raw::{Buffers, Dock, Op, RECORD_BYTES};

use super::random::any_head_word;
use super::{ACQUIRE, RECOVER, RELEASE, drained};
use crate::bench::{Bench, fresh, start};
use crate::random::Random;
use crate::refusals::refusal;
use crate::shadow::Kind;
use crate::words::{FREE, LOCKED, held, word_of};

const PLACES: [u8; 62] = [
    0, 1, 2, 3, 4, 5, 6, 7, 8, 9, 10, 15, 16, 17, 18, 19, 20, 21, 31, 32, 33, 34, 35, 36, 37, 38,
    39, 40, 41, 47, 48, 49, 50, 51, 52, 63, 64, 65, 79, 80, 81, 95, 96, 97, 98, 99, 100, 101, 102,
    103, 104, 105, 106, 107, 108, 111, 112, 127, 128, 192, 254, 255,
];

/// Of owners: two that may not be listed, which leave the list before, and three that may.
const LISTS: [&[u64]; 5] = [
    &[8, u64::MAX],
    &[8; 9],
    &[],
    &[8],
    &[0, 1, 2, 3, 4, 5, 6, u64::MAX - 1],
];

/// Changes some of a record's fields, each to something near its limits.
fn tamper(random: &mut Random, kind: Kind, capacity: u32, bytes: &mut [u8], changes: u64) {
    for _ in 0..changes {
        let long = random.pick(&[u64::MAX, u64::MAX - 1, 0, 7]);
        let near = random.pick(&[0, 1, capacity - 1, capacity, capacity + 1, u32::MAX]);
        match random.below(14) {
            0 => bytes[0] = random.pick(&[0, 1, 2, 255]),
            1 | 2 => bytes[1] = random.pick(&PLACES),
            3 => bytes[2] = random.pick(&[0, 1, 2, 255]),
            4 => bytes[3] = random.pick(&[0, 1, 8, 9, 255]),
            5 => {
                let word = any_head_word(random, capacity, 0);
                bytes[28..36].copy_from_slice(&word.to_le_bytes());
            }
            6..=8 => {
                let at = random.pick(&[36, 44, 52, 60]);
                bytes[at..at + 8].copy_from_slice(&long.to_le_bytes());
            }
            9 if kind == Kind::Robust => {
                let at = 68 + 8 * random.below(8) as usize;
                bytes[at..at + 8].copy_from_slice(&long.to_le_bytes());
            }
            _ => {
                let at = random.pick(&[4, 4, 8, 12, 16, 20, 24]);
                bytes[at..at + 4].copy_from_slice(&near.to_le_bytes());
            }
        }
    }
}

fn op_on(random: &mut Random, who: u8) -> Op {
    match random.below(11) {
        0 => Op::Drain {
            who,
            budget: random.below(3) as u32,
        },
        1 => start(who, RECOVER, 0, 0, random.below(3) as u8),
        2 => start(who, ACQUIRE, 0, 7, 0),
        3 => start(who, RELEASE, 0, 7, 0),
        4 => Op::Death { who },
        5 => Op::List {
            who,
            owners: random.pick(&LISTS).to_vec(),
        },
        _ => Op::Step { who },
    }
}

/// A record of a scene is damaged, called if that does not move it, and mended.
pub fn in_passing(bench: &mut Bench, random: &mut Random) {
    bench.comparer().catch_up();
    let who = random.below(bench.shadow.lives.len() as u64) as u8;
    let first = who as usize * RECORD_BYTES;
    let mut before = [0; RECORD_BYTES];
    before.copy_from_slice(&bench.comparer().records[first..first + RECORD_BYTES]);
    let mut bytes = before;
    let (kind, capacity) = (bench.shadow.kind, bench.shadow.capacity);
    let changes = random.between(1, 3);
    tamper(random, kind, capacity, &mut bytes, changes);
    bench.damage(who, bytes);
    for _ in 0..3 {
        let op = op_on(random, who);
        let stays = matches!(op, Op::Death { .. } | Op::List { .. });
        if stays || refusal(&bench.shadow, &op).is_some() {
            bench.make_damaged(op);
        }
    }
    bench.mend(who, before);
}

/// Bytes at one place of a record.
struct Change {
    at: usize,
    bytes: Vec<u8>,
}

impl Change {
    fn make(&self, record: &mut [u8]) {
        record[self.at..self.at + self.bytes.len()].copy_from_slice(&self.bytes);
    }
}

/// A set just set up, but that record 1 holds index 0; with entries beyond the set's own.
fn roomy(kind: Kind, capacity: u32) -> Dock {
    let mut dock = fresh(kind, capacity, 3);
    match &mut dock.buffers {
        Buffers::Plain { slots, custody } => {
            custody[0] = held(1);
            slots.extend([0x5A5A_5A5A, 0, u32::MAX]);
            custody.extend([FREE, held(1), u32::MAX]);
        }
        Buffers::Robust { cells } => {
            cells[0] = 7;
            cells.extend([u64::MAX, 7, 0]);
        }
    }
    dock
}

/// Every field with values on both sides of what it may hold.
fn changes(capacity: u32) -> Vec<Change> {
    let mut all = Vec::new();
    let mut change = |at: usize, bytes: &[u8]| {
        all.push(Change {
            at,
            bytes: bytes.to_vec(),
        });
    };
    change(0, &[1]);
    for mode in [1, 2, 255] {
        change(2, &[mode]);
    }
    for listed in [0, 8, 9, 255] {
        change(3, &[listed]);
    }
    for at in [4, 12, 16, 20, 24] {
        for near in [0, 1, capacity - 1, capacity, capacity + 1, u32::MAX] {
            change(at, &near.to_le_bytes());
        }
    }
    for (head, borrowed) in [
        (0, 0),
        (0, LOCKED - 1),
        (0, LOCKED),
        (capacity - 1, 1),
        (capacity, 1),
    ] {
        change(28, &word_of(head, 3, borrowed).to_le_bytes());
    }
    for at in [36, 44, 52, 60, 68, 68 + 7 * 8] {
        for long in [0, u64::MAX - 1, u64::MAX] {
            change(at, &long.to_le_bytes());
        }
    }
    all
}

/// A record that is sound at every place.
fn sound(place: u8) -> [u8; RECORD_BYTES] {
    let mut bytes = [0; RECORD_BYTES];
    bytes[1] = place;
    bytes[3] = 1;
    bytes[16..20].copy_from_slice(&2_u32.to_le_bytes());
    bytes[28..36].copy_from_slice(&word_of(0, 3, 1).to_le_bytes());
    for at in [36, 44, 52, 60, 68] {
        bytes[at..at + 8].copy_from_slice(&7_u64.to_le_bytes());
    }
    bytes
}

/// Every place with every two changes of a sound record: a drain of no steps judges it and changes nothing.
pub fn all_pairs(bench: &mut Bench) {
    for kind in [Kind::Plain, Kind::Robust] {
        for capacity in [1, 2, 3] {
            let dock = roomy(kind, capacity);
            let changes = changes(capacity);
            for place in PLACES {
                bench.load(&format!("damaged at place {place}"), &dock);
                for (number, first) in changes.iter().enumerate() {
                    for second in &changes[number..] {
                        let mut bytes = sound(place);
                        first.make(&mut bytes);
                        second.make(&mut bytes);
                        judge(bench, bytes);
                    }
                    if !bench.make_damaged(Op::Step { who: 1 }) {
                        bench.load(&format!("damaged at place {place}"), &dock);
                    }
                }
            }
        }
    }
}

fn judge(bench: &mut Bench, bytes: [u8; RECORD_BYTES]) {
    let is_idle = bytes[1] == 0;
    bench.damage(1, bytes);
    bench.make_damaged(Op::Drain { who: 1, budget: 0 });
    let recover = start(1, RECOVER, 0, 0, 0);
    if is_idle && refusal(&bench.shadow, &recover).is_some() {
        bench.make_damaged(recover);
    }
}

/// Lists and deaths, which judge nothing but whether a record lives and is idle, and setups, which judge none:
/// every place with every change of a sound record, and every dead byte.
pub fn lists_deaths_setups(bench: &mut Bench) {
    for kind in [Kind::Plain, Kind::Robust] {
        let capacity = 2;
        let mut changes = changes(capacity);
        changes.extend((0..=u8::MAX).map(|dead| Change {
            at: 0,
            bytes: vec![dead],
        }));
        for place in PLACES {
            let title = format!("lists, deaths and setups at place {place}");
            bench.load(&title, &roomy(kind, capacity));
            for change in &changes {
                let mut bytes = sound(place);
                bytes[8..12].fill(0xA5);
                change.make(&mut bytes);
                bench.damage(1, bytes);
                list_and_die(bench);
            }
            bench.make_damaged(Op::Setup { asked: 0 });
            bench.make_damaged(Op::Setup { asked: capacity });
        }
        tables(bench, kind);
    }
}

fn list_and_die(bench: &mut Bench) {
    for owners in LISTS {
        let owners = owners.to_vec();
        bench.make_damaged(Op::List { who: 1, owners });
    }
    for _ in 0..2 {
        bench.make_damaged(Op::Death { who: 1 });
    }
    bench.make_damaged(Op::List {
        who: 1,
        owners: vec![8],
    });
    bench.make_damaged(Op::Step { who: 1 });
    bench.make_damaged(Op::Drain { who: 1, budget: 0 });
}

/// Setups over tables of anything: a refused one leaves them, an accepted one writes all zeros but what is
/// left over after the last whole record.
fn tables(bench: &mut Bench, kind: Kind) {
    let mut random = Random::new(1);
    let capacity = 3;
    for records in 0..=17 {
        for left_over in [0, 1, RECORD_BYTES - 1] {
            let mut dock = roomy(kind, capacity);
            dock.records = vec![0; records * RECORD_BYTES + left_over];
            bench.load(&format!("a table of {records} records"), &dock);
            for asked in [0, u32::MAX, capacity, 1] {
                let bytes = (0..dock.records.len()).map(|_| random.number() as u8 | 1);
                bench.make(Op::PokeRecords(0, bytes.collect()));
                bench.make(Op::Setup { asked });
            }
            if records > 0 {
                drained(bench, start(records as u8 - 1, ACQUIRE, 0, 7, 0));
            }
        }
    }
}

/// A record of made-up bytes, and one call: whether it is refused, and then with which number.
pub fn alone(bench: &mut Bench, seed: u64, count: u64) {
    let mut random = Random::new(seed);
    for number in 0..count {
        let kind = random.pick(&[Kind::Plain, Kind::Robust]);
        let capacity = random.between(1, 3) as u32;
        bench.load(&format!("damaged record {number}"), &roomy(kind, capacity));
        let mut bytes = [0; RECORD_BYTES];
        bytes[1] = random.pick(&PLACES);
        let changes = random.between(0, 12);
        tamper(&mut random, kind, capacity, &mut bytes, changes);
        bench.damage(1, bytes);
        let mut goes_on = true;
        while goes_on && !random.one_in(3) {
            let op = match random.one_in(12) {
                true => Op::Setup {
                    asked: random.pick(&[capacity, capacity, 1, 0]),
                },
                false => op_on(&mut random, 1),
            };
            goes_on = bench.make_damaged(op);
        }
    }
}
