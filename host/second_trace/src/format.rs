//! Bytes to entries. An entry is a length of two bytes, counting what follows,
//! a kind of two bytes and a body; all little-endian.

use crate::kinds::{Owner, Request};

#[derive(Clone, PartialEq, Eq, Debug)]
pub enum Entry {
    Setup { set: u8, records: u8, capacity: u32 },
    Turn { record: u8, action: Action },
}

/// What an entry after the setup asks of its record.
#[derive(Clone, PartialEq, Eq, Debug)]
pub enum Action {
    Start(Request),
    Step,
    Death,
    List(Vec<Owner>),
}

/// The first entry and the bytes after it, or nothing if no whole, well-formed
/// entry stands there. The length is the kind's own or the entry is bad, also
/// where it would fit another kind. A list of up to 255 owners is well-formed;
/// that above 8 are too many is not the format's matter.
pub fn first_entry(schedule: &[u8]) -> Option<(Entry, &[u8])> {
    let (length, after) = schedule.split_first_chunk::<2>()?;
    let (content, rest) = after.split_at_checked(u16::from_le_bytes(*length) as usize)?;
    let (kind, body) = content.split_first_chunk::<2>()?;
    let turn = |record, action| Entry::Turn { record, action };
    let entry = match (u16::from_le_bytes(*kind), body) {
        (1, &[set, records, c0, c1, c2, c3]) => Entry::Setup {
            set,
            records,
            capacity: u32::from_le_bytes([c0, c1, c2, c3]),
        },
        (2, &[record, call, i0, i1, i2, i3, o0, o1, o2, o3, o4, o5, o6, o7, mode]) => {
            let request = Request {
                call,
                index_or_room: u32::from_le_bytes([i0, i1, i2, i3]),
                owner: Owner(u64::from_le_bytes([o0, o1, o2, o3, o4, o5, o6, o7])),
                mode,
            };
            turn(record, Action::Start(request))
        }
        (3, &[record]) => turn(record, Action::Step),
        (4, &[record]) => turn(record, Action::Death),
        (5, &[record, count, ref owners @ ..]) if owners.len() == 8 * count as usize => turn(
            record,
            Action::List(owners.chunks_exact(8).map(owner).collect()),
        ),
        _ => return None,
    };
    Some((entry, rest))
}

fn owner(eight: &[u8]) -> Owner {
    let mut bytes = [0; 8];
    bytes.copy_from_slice(eight);
    Owner(u64::from_le_bytes(bytes))
}
