//! The exported calls linked into this process: the dock is resident here. An op is done when its reply is asked for.

mod calls;

use super::{invalid_input, Buffers, Dock, Op, Outcome, Reply};
use super::{NONE_WAITS, ONE_WAITS, WHOLE_LIMIT};
use std::collections::VecDeque;
use std::io;

enum Queued {
    Load(Dock),
    Op(Op),
}

#[derive(Default)]
pub struct Reached {
    dock: Dock,
    queue: VecDeque<Queued>,
    refused: Option<&'static str>,
}

impl Reached {
    pub fn open() -> io::Result<Reached> {
        Ok(Reached::default())
    }

    pub fn load(&mut self, dock: &Dock) {
        self.queue.push_back(Queued::Load(dock.clone()));
    }

    pub fn queue(&mut self, op: &Op) {
        self.queue.push_back(Queued::Op(op.clone()));
    }

    pub fn flush(&mut self) {}

    pub fn reply(&mut self, into: &mut Reply) -> io::Result<()> {
        if let Some(why) = self.refused {
            return Err(invalid_input(why));
        }
        let op = self.next_op().ok_or_else(|| invalid_input(NONE_WAITS))?;
        match perform(&mut self.dock, &op) {
            Ok(outcome) => {
                keep_reply(outcome, &self.dock, into);
                Ok(())
            }
            Err(why) => {
                self.refused = Some(why);
                Err(invalid_input(why))
            }
        }
    }

    pub fn fetch(&mut self, into: &mut Dock) -> io::Result<()> {
        match self.next_op() {
            Some(op) => {
                self.queue.push_front(Queued::Op(op));
                Err(invalid_input(ONE_WAITS))
            }
            None => {
                into.clone_from(&self.dock);
                Ok(())
            }
        }
    }

    /// Loads what is queued before it.
    fn next_op(&mut self) -> Option<Op> {
        loop {
            match self.queue.pop_front()? {
                Queued::Load(dock) => self.dock = dock,
                Queued::Op(op) => return Some(op),
            }
        }
    }
}

fn perform(dock: &mut Dock, op: &Op) -> Result<Outcome, &'static str> {
    match op {
        Op::Setup { asked } => Ok(calls::setup(dock, *asked)),
        Op::Start {
            who,
            call,
            index_or_room,
            owner,
            mode,
        } => Ok(calls::start(
            dock,
            *who,
            *call,
            *index_or_room,
            *owner,
            *mode,
        )),
        Op::Step { who } => Ok(calls::step(dock, *who)),
        Op::Drain { who, budget } => Ok(calls::drain(dock, *who, *budget)),
        Op::List { who, owners } => Ok(calls::list(dock, *who, owners)),
        Op::Death { who } => Ok(calls::death(dock, *who)),
        _ => poke(dock, op).map_or(
            Err("a poke is outside of its buffer, or of the other set"),
            |()| Ok(Outcome::default()),
        ),
    }
}

fn poke(dock: &mut Dock, op: &Op) -> Option<()> {
    match (op, &mut dock.buffers) {
        (Op::PokeWord(word), _) => dock.word = *word,
        (Op::PokeSlot(at, value), Buffers::Plain { slots, .. }) => {
            *slots.get_mut(*at as usize)? = *value;
        }
        (Op::PokeCustody(at, value), Buffers::Plain { custody, .. }) => {
            *custody.get_mut(*at as usize)? = *value;
        }
        (Op::PokeCell(at, value), Buffers::Robust { cells }) => {
            *cells.get_mut(*at as usize)? = *value;
        }
        (Op::PokeRecords(offset, bytes), _) => {
            let from = *offset as usize;
            let to = from.checked_add(bytes.len())?;
            dock.records.get_mut(from..to)?.copy_from_slice(bytes);
        }
        _ => return None,
    }
    Some(())
}

fn keep_reply(outcome: Outcome, dock: &Dock, into: &mut Reply) {
    into.outcome = outcome;
    into.dock.capacity = dock.capacity;
    into.dock.word = dock.word;
    into.dock.records.clone_from(&dock.records);
    if dock.buffers.entries() > WHOLE_LIMIT {
        into.digests = digests(&dock.buffers);
        keep_none(&dock.buffers, &mut into.dock.buffers);
    } else {
        into.digests = [0, 0];
        keep_buffers(&dock.buffers, &mut into.dock.buffers);
    }
}

fn keep_none(of: &Buffers, into: &mut Buffers) {
    *into = match of {
        Buffers::Plain { .. } => Buffers::default(),
        Buffers::Robust { .. } => Buffers::Robust { cells: Vec::new() },
    };
}

fn keep_buffers(from: &Buffers, into: &mut Buffers) {
    match (from, into) {
        (
            Buffers::Plain { slots, custody },
            Buffers::Plain {
                slots: slots_into,
                custody: custody_into,
            },
        ) => {
            slots_into.clone_from(slots);
            custody_into.clone_from(custody);
        }
        (Buffers::Robust { cells }, Buffers::Robust { cells: cells_into }) => {
            cells_into.clone_from(cells);
        }
        (from, into) => into.clone_from(from),
    }
}

fn digests(of: &Buffers) -> [u64; 2] {
    match of {
        Buffers::Plain { slots, custody } => [
            digest(slots.iter().flat_map(|slot| slot.to_le_bytes())),
            digest(custody.iter().flat_map(|entry| entry.to_le_bytes())),
        ],
        Buffers::Robust { cells } => [digest(cells.iter().flat_map(|cell| cell.to_le_bytes())), 0],
    }
}

/// FNV-1a
fn digest(bytes: impl Iterator<Item = u8>) -> u64 {
    bytes.fold(0xcbf2_9ce4_8422_2325, |hash, byte| {
        (hash ^ u64::from(byte)).wrapping_mul(0x0000_0100_0000_01b3)
    })
}
