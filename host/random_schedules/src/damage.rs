//! What is done to the bytes of a schedule that is not to be good. Mostly its
//! later entries are hit: where the setup is, the trace is one line.

use crate::dice::Dice;
use crate::entries::{framed, Entry, Schedule};

#[derive(Clone, Copy, PartialEq, Eq, PartialOrd, Ord, Debug)]
pub enum Way {
    ByteChanged,
    Cut,
    BytesInserted,
    BytesRemoved,
    LengthChanged,
    KindChanged,
    SecondSetup,
    /// An entry of no kind, or of none of its kind's lengths, among the others.
    BadEntry,
    /// A list that says another count of owners than it has.
    BadList,
    NoSetup,
    Garbage,
    Empty,
}

impl Way {
    pub const ALL: [(u64, Way); 12] = [
        (8, Way::ByteChanged),
        (12, Way::Cut),
        (8, Way::BytesInserted),
        (8, Way::BytesRemoved),
        (8, Way::LengthChanged),
        (8, Way::KindChanged),
        (8, Way::SecondSetup),
        (16, Way::BadEntry),
        (12, Way::BadList),
        (3, Way::NoSetup),
        (3, Way::Garbage),
        (3, Way::Empty),
    ];

    pub fn draw(dice: &mut Dice) -> Way {
        dice.weighted(&Way::ALL)
    }

    /// The schedule's bytes after the damage; they are never the same.
    pub fn damage(self, schedule: &Schedule, dice: &mut Dice) -> Vec<u8> {
        let bytes = &schedule.bytes;
        match self {
            Way::ByteChanged => byte_changed(schedule, dice),
            Way::Cut => bytes[..place_to_cut(schedule, dice)].to_vec(),
            Way::BytesInserted => {
                let at = byte_of_an_entry(schedule, dice);
                let count = dice.between(1, 4);
                put_in(bytes, at, &garbage(count, dice))
            }
            Way::BytesRemoved => {
                let at = byte_of_an_entry(schedule, dice);
                let after = (at + dice.between(1, 4) as usize).min(bytes.len());
                [&bytes[..at], &bytes[after..]].concat()
            }
            Way::LengthChanged => length_changed(schedule, dice),
            Way::KindChanged => kind_changed(schedule, dice),
            Way::SecondSetup => put_between(schedule, &second_setup(schedule, dice), dice),
            Way::BadEntry => put_between(schedule, &bad_entry(dice), dice),
            Way::BadList => put_between(schedule, &bad_list(dice), dice),
            Way::NoSetup => no_setup(schedule, dice),
            Way::Garbage => {
                let count = dice.between(1, 300);
                garbage(count, dice)
            }
            Way::Empty => Vec::new(),
        }
    }
}

fn garbage(count: u64, dice: &mut Dice) -> Vec<u8> {
    (0..count).map(|_| dice.byte()).collect()
}

fn put_in(bytes: &[u8], at: usize, more: &[u8]) -> Vec<u8> {
    [&bytes[..at], more, &bytes[at..]].concat()
}

/// An entry, seldom the setup, rather a later one and rather no step.
fn an_entry(schedule: &Schedule, dice: &mut Dice) -> usize {
    let entries = schedule.begins.len();
    if entries == 1 || dice.one_in(15) {
        return 0;
    }
    let step = Entry::Step(0).bytes().len();
    let mut found = 0;
    for _ in 0..3 {
        found = found.max(dice.between(1, entries as u64 - 1) as usize);
        if schedule.end(found) - schedule.begins[found] > step {
            break;
        }
    }
    found
}

fn byte_of_an_entry(schedule: &Schedule, dice: &mut Dice) -> usize {
    let entry = an_entry(schedule, dice);
    let begin = schedule.begins[entry];
    begin + dice.place(schedule.end(entry) - begin)
}

/// Anywhere in an entry, or just after its first byte, length or kind.
fn place_to_cut(schedule: &Schedule, dice: &mut Dice) -> usize {
    if dice.one_in(2) {
        return byte_of_an_entry(schedule, dice);
    }
    let begin = schedule.begins[an_entry(schedule, dice)];
    begin + dice.pick(&[1, 1, 2, 3, 4])
}

/// Whole bytes between two entries, or after the last one.
fn put_between(schedule: &Schedule, more: &[u8], dice: &mut Dice) -> Vec<u8> {
    let entry = an_entry(schedule, dice);
    put_in(&schedule.bytes, schedule.end(entry), more)
}

/// Any byte of an entry, or one of its length or kind.
fn byte_changed(schedule: &Schedule, dice: &mut Dice) -> Vec<u8> {
    let mut bytes = schedule.bytes.clone();
    let at = if dice.one_in(2) {
        byte_of_an_entry(schedule, dice)
    } else {
        schedule.begins[an_entry(schedule, dice)] + dice.place(4)
    };
    let bit = 1 << dice.below(8);
    let other = dice.between(1, 255) as u8;
    bytes[at] ^= dice.pick(&[bit, other]);
    bytes
}

/// An entry's length becomes one that its kind does not have.
fn length_changed(schedule: &Schedule, dice: &mut Dice) -> Vec<u8> {
    let begin = schedule.begins[an_entry(schedule, dice)];
    let mut bytes = schedule.bytes.clone();
    let old = u16::from_le_bytes([bytes[begin], bytes[begin + 1]]);
    let choices = [
        old - 1,
        old - 1,
        old + 1,
        old + 1,
        old + 1,
        old + 256,
        old + 8,
        0,
        1,
        2,
        3,
        8,
        12,
        17,
        u16::MAX,
    ];
    let mut new = old;
    while new == old {
        new = dice.pick(&choices);
    }
    bytes[begin..begin + 2].copy_from_slice(&new.to_le_bytes());
    bytes
}

/// An entry's kind becomes none, or one that does not have its length.
fn kind_changed(schedule: &Schedule, dice: &mut Dice) -> Vec<u8> {
    let begin = schedule.begins[an_entry(schedule, dice)];
    let mut bytes = schedule.bytes.clone();
    let old = u16::from_le_bytes([bytes[begin + 2], bytes[begin + 3]]);
    let steps_or_dies = |kind| kind == 3 || kind == 4;
    let choices = [0, 1, 2, 3, 4, 5, 6, old + 256, old + 32_768, u16::MAX];
    let mut new = old;
    while new == old || steps_or_dies(new) && steps_or_dies(old) {
        new = dice.pick(&choices);
    }
    bytes[begin + 2..begin + 4].copy_from_slice(&new.to_le_bytes());
    bytes
}

/// The setup once more, or another, also one that would be refused.
fn second_setup(schedule: &Schedule, dice: &mut Dice) -> Vec<u8> {
    if dice.one_in(3) {
        return schedule.bytes[..schedule.end(0)].to_vec();
    }
    let other = Entry::Setup {
        set: dice.pick(&[0, 1, 1, 2]),
        records: dice.pick(&[0, 1, 4, 16, 17]),
        capacity: dice.pick(&[0, 1, 3, 1024, 1025]),
    };
    other.bytes()
}

/// An entry of no kind, one of a kind with one byte too many or too few, or a
/// length with no kind behind it.
fn bad_entry(dice: &mut Dice) -> Vec<u8> {
    let (kind, body) = dice.pick(&[(1, 6), (2, 15), (3, 1), (4, 1), (5, 2)]);
    let one_more = garbage(body + 1, dice);
    let one_less = garbage(body - 1, dice);
    match dice.below(6) {
        0 => framed(dice.pick(&[0, 6, 7, 256, 259, 65_535]), &one_more),
        1 => framed(kind, &one_less),
        2 => vec![dice.pick(&[0, 1]), 0],
        _ => framed(kind, &one_more),
    }
}

fn bad_list(dice: &mut Dice) -> Vec<u8> {
    let owners = dice.between(0, 9);
    let says = match owners {
        0 => 1,
        _ => dice.pick(&[0, owners - 1, owners + 1, 255]),
    };
    let rest = dice.pick(&[0, 0, 0, 1, 7]);
    let mut body = vec![0, says as u8];
    body.extend(garbage(8 * owners + rest, dice));
    framed(5, &body)
}

/// The setup is left out, or is not the first entry.
fn no_setup(schedule: &Schedule, dice: &mut Dice) -> Vec<u8> {
    let (setup, others) = schedule.bytes.split_at(schedule.end(0));
    if dice.one_in(2) {
        return others.to_vec();
    }
    [&Entry::Step(0).bytes(), setup, others].concat()
}
