//! A recording of turns, to be replayed where the Rust is not at hand. Little-endian, units in a row:
//!
//! setup, 16 bytes: 1, set (0 plain, 1 robust), records, 0, capacity (4 bytes), 0 to the end.
//!
//! turn, 64 bytes: 2, what (1 start, 2 step, 3 death, 4 list, 5 poke word), record, call, mode, owners
//! listed, 0, 0; index or room (4), 0 (4); owner, or the word to poke (8); progress, number, value, noted,
//! noted index, entries that follow (4 each); noted owner (8); word afterwards (8). Then the listed
//! owners, and all slots or cells as they are afterwards, 8 bytes each.

use simmerhusk::raw::{Dock, Op, RECORD_BYTES};

use crate::expected::Expected;
use crate::shadow::Kind;

#[derive(Default)]
pub struct Recording {
    pub bytes: Vec<u8>,
    pub turns: u64,
}

impl Recording {
    /// A scene begins with a set that was just set up: that is all a setup unit says.
    pub fn setup(&mut self, kind: Kind, dock: &Dock) {
        let mut unit = [0; 16];
        unit[0] = 1;
        unit[1] = kind as u8;
        unit[2] = (dock.records.len() / RECORD_BYTES) as u8;
        unit[4..8].copy_from_slice(&dock.capacity.to_le_bytes());
        self.bytes.extend_from_slice(&unit);
    }

    pub fn turn(&mut self, expected: &Expected, slots: &[u32], cells: &[u64]) {
        let mut unit = [0; 64];
        let mut owners: &[u64] = &[];
        unit[0] = 2;
        match &expected.op {
            Op::Start {
                who,
                call,
                index_or_room,
                owner,
                mode,
            } => {
                unit[1..5].copy_from_slice(&[1, *who, *call, *mode]);
                unit[8..12].copy_from_slice(&index_or_room.to_le_bytes());
                unit[16..24].copy_from_slice(&owner.to_le_bytes());
            }
            Op::Step { who } => unit[1..3].copy_from_slice(&[2, *who]),
            Op::Death { who } => unit[1..3].copy_from_slice(&[3, *who]),
            Op::List {
                who,
                owners: listed,
            } => {
                assert!(listed.len() <= 16, "a recorded list is short");
                unit[1..3].copy_from_slice(&[4, *who]);
                unit[5] = listed.len() as u8;
                owners = listed;
            }
            Op::PokeWord(word) => {
                unit[1] = 5;
                unit[16..24].copy_from_slice(&word.to_le_bytes());
            }
            op => panic!("{op:?} is not recorded"),
        }
        let outcome = &expected.outcome;
        let entries = (slots.len() + cells.len()) as u32;
        let numbers = [
            outcome.progress,
            outcome.number,
            outcome.value,
            outcome.noted,
            outcome.noted_index,
            entries,
        ];
        for (place, number) in numbers.into_iter().enumerate() {
            let at = 24 + 4 * place;
            unit[at..at + 4].copy_from_slice(&number.to_le_bytes());
        }
        unit[48..56].copy_from_slice(&outcome.noted_owner.to_le_bytes());
        unit[56..64].copy_from_slice(&expected.word.to_le_bytes());
        self.bytes.extend_from_slice(&unit);
        let slots = slots.iter().map(|slot| u64::from(*slot));
        for entry in owners
            .iter()
            .copied()
            .chain(slots)
            .chain(cells.iter().copied())
        {
            self.bytes.extend_from_slice(&entry.to_le_bytes());
        }
        self.turns += 1;
    }
}
