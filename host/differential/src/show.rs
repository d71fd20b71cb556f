//! A dock and a turn in a short form, for whoever looks into a difference.

use simmerhusk::raw::{Buffers, Dock, Op, RECORD_BYTES};

const SHOWN_ENTRIES: usize = 64;

/// The dock without its records, and without large buffers.
pub fn small(dock: &Dock) -> Dock {
    let buffers = match &dock.buffers {
        buffers if buffers.entries() <= 2 * SHOWN_ENTRIES => buffers.clone(),
        Buffers::Plain { .. } => Buffers::default(),
        Buffers::Robust { .. } => Buffers::Robust { cells: Vec::new() },
    };
    Dock {
        capacity: dock.capacity,
        word: dock.word,
        buffers,
        records: Vec::new(),
    }
}

pub fn dock(dock: &Dock) -> String {
    let buffers = match &dock.buffers {
        Buffers::Plain { slots, custody } => format!("slots {slots:x?} custody {custody:x?}"),
        Buffers::Robust { cells } => format!("cells {cells:x?}"),
    };
    format!(
        "  capacity {}, {} records, word {:016X}, {buffers}",
        dock.capacity,
        dock.records.len() / RECORD_BYTES,
        dock.word
    )
}

fn call(number: u8) -> String {
    match number {
        1 => "acquire".to_string(),
        2 => "release".to_string(),
        3 => "borrowed".to_string(),
        4 => "locked".to_string(),
        5 => "find".to_string(),
        6 => "recover".to_string(),
        number => format!("call {number}"),
    }
}

pub fn op(op: &Op) -> String {
    match op {
        Op::Setup { asked } => format!("setup {asked}"),
        Op::Start {
            who,
            call: number,
            index_or_room,
            owner,
            mode,
        } => format!(
            "{who}: start {} index or room {index_or_room}, owner {owner}, mode {mode}",
            call(*number)
        ),
        Op::Step { who } => format!("{who}: step"),
        Op::Drain { who, budget } => format!("{who}: drain {budget}"),
        Op::List { who, owners } => format!("{who}: list {owners:?}"),
        Op::Death { who } => format!("{who}: death"),
        Op::PokeWord(word) => format!("poke word {word:016X}"),
        Op::PokeSlot(slot, value) => format!("poke slot {slot} = {value:x}"),
        Op::PokeCustody(index, entry) => format!("poke custody {index} = {entry:x}"),
        Op::PokeCell(cell, value) => format!("poke cell {cell} = {value:x}"),
        Op::PokeRecords(at, bytes) => format!("poke records at {at}: {bytes:x?}"),
    }
}
