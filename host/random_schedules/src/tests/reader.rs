//! Bytes to entries, as far as they are whole.

use crate::entries::{Ask, Entry};

pub struct Read {
    pub entries: Vec<Entry>,
    /// Whether nothing was left over, and the setup came first and once.
    pub whole: bool,
}

pub fn read(schedule: &[u8]) -> Read {
    let mut entries = Vec::new();
    let mut rest = schedule;
    while let Some((entry, after)) = first_entry(rest) {
        let is_setup = matches!(entry, Entry::Setup { .. });
        if is_setup != entries.is_empty() {
            break;
        }
        entries.push(entry);
        rest = after;
    }
    let whole = rest.is_empty() && !entries.is_empty();
    Read { entries, whole }
}

fn first_entry(bytes: &[u8]) -> Option<(Entry, &[u8])> {
    let length = number(bytes.get(..2)?) as usize;
    let content = bytes.get(2..2 + length)?;
    let kind = number(content.get(..2)?);
    let body = &content[2..];
    let entry = match (kind, body.len()) {
        (1, 6) => Entry::Setup {
            set: body[0],
            records: body[1],
            capacity: number(&body[2..]) as u32,
        },
        (2, 15) => {
            let ask = Ask {
                call: body[1],
                index_or_room: number(&body[2..6]) as u32,
                owner: number(&body[6..14]),
                mode: body[14],
            };
            Entry::Start(body[0], ask)
        }
        (3, 1) => Entry::Step(body[0]),
        (4, 1) => Entry::Death(body[0]),
        (5, length) if length >= 2 && length == 2 + 8 * body[1] as usize => {
            Entry::List(body[0], body[2..].chunks(8).map(number).collect())
        }
        _ => return None,
    };
    Some((entry, &bytes[2 + length..]))
}

fn number(bytes: &[u8]) -> u64 {
    bytes
        .iter()
        .rev()
        .fold(0, |number, &byte| number << 8 | byte as u64)
}
