//! The port's side: turns are asked for ahead, in batches, and each reply is held against what the Rust
//! did. The first difference ends the run.

use std::collections::VecDeque;
use std::fmt::Debug;

use oracle_paused::Call;
use simmerhusk::raw::{Buffers, Dock, Op, Port, RECORD_BYTES, Reply};

use crate::coverage::Coverage;
use crate::expected::{ANSWERED, Contents, Expected, Named, REFUSED};
use crate::places::{access_at, call_at};
use crate::progress::Progress;
use crate::record_bytes::{RecordBytes, write_list};
use crate::shadow::{Kind, List};
use crate::show;

const BATCH_TURNS: usize = 4096;
const BATCH_ENTRIES: usize = 1 << 20;
const LOGGED: usize = 400;

enum Entry {
    Loaded { title: String, dock: Dock },
    Turn(Box<Expected>),
}

pub struct Comparer {
    port: Port,
    seed: u64,
    reply: Reply,
    queue: VecDeque<Entry>,
    short: Vec<u32>,
    long: Vec<u64>,
    /// The records' bytes after the turn before.
    pub records: Vec<u8>,
    title: String,
    loaded: String,
    log: VecDeque<Op>,
    turns: u64,
    /// Accepted starts and steps, and drains, that were compared by themselves.
    pub compared: u64,
    /// Steps within those drains.
    pub within_drains: u64,
    pub progress: Progress,
    pub coverage: Coverage,
}

impl Comparer {
    pub fn new(port: Port, seed: u64, progress: Progress) -> Self {
        Self {
            port,
            seed,
            reply: Reply::default(),
            queue: VecDeque::new(),
            short: Vec::new(),
            long: Vec::new(),
            records: Vec::new(),
            title: String::new(),
            loaded: String::new(),
            log: VecDeque::new(),
            turns: 0,
            compared: 0,
            within_drains: 0,
            progress,
            coverage: Coverage::new(),
        }
    }

    pub fn load(&mut self, title: &str, dock: &Dock) {
        self.port.load(dock);
        let kept = Dock {
            records: dock.records.clone(),
            ..show::small(dock)
        };
        self.queue.push_back(Entry::Loaded {
            title: title.to_string(),
            dock: kept,
        });
    }

    pub fn keep_short(&mut self, own: &[u32], beyond: &[u32]) -> (usize, usize) {
        let first = self.short.len();
        self.short.extend_from_slice(own);
        self.short.extend_from_slice(beyond);
        (first, self.short.len())
    }

    pub fn keep_long(&mut self, own: &[u64], beyond: &[u64]) -> (usize, usize) {
        let first = self.long.len();
        self.long.extend_from_slice(own);
        self.long.extend_from_slice(beyond);
        (first, self.long.len())
    }

    pub fn expect(&mut self, expected: Expected) {
        self.port.queue(&expected.op);
        self.queue.push_back(Entry::Turn(Box::new(expected)));
        if self.queue.len() >= BATCH_TURNS || self.short.len() + self.long.len() >= BATCH_ENTRIES {
            self.catch_up();
        }
    }

    /// Compares all that was asked for.
    pub fn catch_up(&mut self) {
        self.port.flush();
        while let Some(entry) = self.queue.pop_front() {
            match entry {
                Entry::Loaded { title, dock } => self.begin(title, dock),
                Entry::Turn(expected) => self.compare(&expected),
            }
        }
        self.short.clear();
        self.long.clear();
    }

    fn begin(&mut self, title: String, dock: Dock) {
        self.title = title;
        self.loaded = show::dock(&dock);
        self.records = dock.records;
        self.log.clear();
        self.turns = 0;
    }

    fn compare(&mut self, expected: &Expected) {
        self.port.reply(&mut self.reply);
        self.turns += 1;
        if self.log.len() == LOGGED {
            self.log.pop_front();
        }
        self.log.push_back(expected.op.clone());
        match expected.named {
            Named::Adrift(..) => self.compare_fixed(expected),
            _ => self.compare_whole(expected),
        }
        let place = named_place(&self.records, &expected.op);
        self.coverage.note(expected, place);
        self.records.clone_from(&self.reply.dock.records);
        self.compared += expected.compared;
        self.within_drains += expected.within_drain;
        self.progress.steps(self.compared);
    }

    /// A part of the run begins: all before it is compared.
    pub fn enter(&mut self, part: &'static str) {
        self.catch_up();
        self.progress.enter(part);
    }

    fn compare_whole(&self, expected: &Expected) {
        let reply = &self.reply;
        self.check("outcome", &expected.outcome, &reply.outcome);
        self.check("word", &expected.word, &reply.dock.word);
        self.compare_entries(expected, 0, 0);
        self.compare_records(expected);
    }

    /// Steps of a damaged record, of which the Rust says nothing: what they may not touch.
    fn compare_fixed(&self, expected: &Expected) {
        let outcome = &self.reply.outcome;
        self.check("refused", &false, &(outcome.progress == REFUSED));
        let most = match expected.op {
            Op::Drain { budget, .. } => budget,
            _ => 1,
        };
        let steps = (1..=most).contains(&outcome.steps);
        self.check("as many steps as may be", &true, &steps);
        let capacity = expected.capacity as usize;
        match expected.kind {
            Kind::Plain => self.compare_entries(expected, capacity + 1, capacity),
            Kind::Robust => self.compare_entries(expected, capacity, 0),
        }
        self.compare_records(expected);
    }

    /// The capacity, and the slots or cells and the custody from one on.
    fn compare_entries(&self, expected: &Expected, from: usize, from_custody: usize) {
        let reply = &self.reply;
        self.check("capacity", &expected.capacity, &reply.dock.capacity);
        match expected.contents {
            Contents::Digests(digests) => self.check("digests", &digests, &reply.digests),
            Contents::Whole {
                slots,
                custody,
                cells,
            } => match &reply.dock.buffers {
                Buffers::Plain {
                    slots: ported_slots,
                    custody: ported_custody,
                } => {
                    let (wanted_slots, wanted_custody) = (
                        &self.short[slots.0..slots.1],
                        &self.short[custody.0..custody.1],
                    );
                    self.check_from(from, "slots", wanted_slots, ported_slots);
                    self.check_from(from_custody, "custody", wanted_custody, ported_custody);
                }
                Buffers::Robust {
                    cells: ported_cells,
                } => {
                    let wanted_cells = &self.long[cells.0..cells.1];
                    self.check_from(from, "cells", wanted_cells, ported_cells);
                }
            },
        }
    }

    fn check_from<T: PartialEq + Debug>(&self, from: usize, what: &str, rust: &[T], port: &[T]) {
        let lengths = (rust.len(), port.len());
        self.check(what, &lengths.0, &lengths.1);
        self.check(what, &rust[from..], &port[from..]);
    }

    fn compare_records(&self, expected: &Expected) {
        let records = &self.reply.dock.records;
        let length = (self.records.len(), records.len());
        self.check("length of the records", &length.0, &length.1);
        let who = who_of(&expected.op).map_or(usize::MAX, usize::from);
        for (number, (before, after)) in self
            .records
            .chunks(RECORD_BYTES)
            .zip(records.chunks(RECORD_BYTES))
            .enumerate()
        {
            match expected.named {
                Named::AllIdle if before.len() == RECORD_BYTES => {
                    self.check("record", [0; RECORD_BYTES].as_slice(), after);
                }
                Named::Poked => {}
                named if number == who && named != Named::Same => {
                    self.compare_named(expected, before, after);
                }
                _ => self.check("record", before, after),
            }
        }
        if let (Named::Poked, Op::PokeRecords(at, bytes)) = (expected.named, &expected.op) {
            let mut wanted = self.records.clone();
            wanted[*at as usize..*at as usize + bytes.len()].copy_from_slice(bytes);
            self.check("records", &wanted, records);
        }
    }

    fn compare_named(&self, expected: &Expected, before: &[u8], after: &[u8]) {
        match expected.named {
            Named::Idle(list) => {
                let mut wanted = [0; RECORD_BYTES];
                write_list(&mut wanted, list);
                self.check("idle record", wanted.as_slice(), after);
            }
            Named::Listed(list) => {
                let mut wanted = before.to_vec();
                write_list(&mut wanted, list);
                self.check("listed record", wanted.as_slice(), after);
            }
            Named::Dead => {
                self.check("dead", &1, &after[0]);
                self.check("dead record", &before[1..], &after[1..]);
            }
            Named::Before(call, access, list) => {
                self.compare_calling(expected.kind, call, list, after);
                let ported = access_at(expected.kind, RecordBytes::of(after));
                self.check("access next", &Some(access), &ported);
            }
            Named::Bytes(wanted) => self.check("damaged record", wanted.as_slice(), after),
            Named::Adrift(call, list) => match self.reply.outcome.progress {
                ANSWERED => {
                    let list = match call {
                        Call::Recover => List::default(),
                        _ => list,
                    };
                    let mut wanted = [0; RECORD_BYTES];
                    write_list(&mut wanted, list);
                    self.check("idle record", wanted.as_slice(), after);
                }
                _ => self.compare_calling(expected.kind, call, list, after),
            },
            Named::Same | Named::AllIdle | Named::Poked => {}
        }
    }

    /// A record in that call, with that list.
    fn compare_calling(&self, kind: Kind, call: Call, list: List, after: &[u8]) {
        let mut wanted = after.to_vec();
        wanted[0] = 0;
        write_list(&mut wanted, list);
        self.check("living record, list", wanted.as_slice(), after);
        let place = RecordBytes::of(after).place();
        self.check("call of the place", &Some(call), &call_at(kind, place));
    }

    fn check<T: PartialEq + Debug + ?Sized>(&self, what: &str, rust: &T, port: &T) {
        if rust != port {
            self.differ(&format!(
                "{what}\n  expected, by the Rust or the scope: {rust:x?}\n  the port: {port:x?}"
            ));
        }
    }

    /// Compares what is still queued, and then ends with a difference of the Rust's side.
    pub fn stop(&mut self, why: &str) -> ! {
        self.catch_up();
        self.differ(why)
    }

    pub fn differ(&self, what: &str) -> ! {
        self.progress.end();
        println!("difference in scene: {} (seed {})", self.title, self.seed);
        println!("{}", self.loaded);
        let skipped = self.turns - self.log.len() as u64;
        if skipped > 0 {
            println!("  ({skipped} earlier turns)");
        }
        for op in &self.log {
            println!("  {}", show::op(op));
        }
        println!("after turn {}: {what}", self.turns);
        std::process::exit(1)
    }
}

/// The record that an op names.
pub fn who_of(op: &Op) -> Option<u8> {
    match op {
        Op::Start { who, .. }
        | Op::Step { who }
        | Op::Drain { who, .. }
        | Op::List { who, .. }
        | Op::Death { who } => Some(*who),
        _ => None,
    }
}

fn named_place(records: &[u8], op: &Op) -> u8 {
    let Some(who) = who_of(op) else { return 0 };
    match records.get(who as usize * RECORD_BYTES + 1) {
        Some(place) => *place,
        None => 0,
    }
}
