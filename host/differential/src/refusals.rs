//! The refusal that the scope asks for, in its order: 3, 4, 10, 9, 11, 13, 5, 7, 8.

use oracle_paused::{Call, LIST_LIMIT};
use simmerhusk::raw::Op;

use crate::record_bytes::RecordBytes;
use crate::shadow::{Kind, RECORD_LIMIT, Shadow, call_of};
use crate::words::held;

/// The number that an op is refused with; none if it is accepted.
pub fn refusal(shadow: &Shadow, op: &Op) -> Option<u32> {
    match op {
        Op::Setup { asked } => setup(shadow, *asked),
        Op::Start { who, .. } => lent(shadow)
            .or(unless(alive(shadow, *who) && !busy(shadow, *who), 9))
            .or_else(|| start(shadow, op)),
        Op::Step { who } => called(shadow, *who),
        Op::Drain { who, .. } => called(shadow, *who).or(unless(drains(shadow, *who), 13)),
        Op::List { who, owners } => list(shadow, *who, owners),
        Op::Death { who } => table(shadow).or(unless(alive(shadow, *who), 9)),
        _poke => None,
    }
}

fn unless(fine: bool, number: u32) -> Option<u32> {
    (!fine).then_some(number)
}

fn table(shadow: &Shadow) -> Option<u32> {
    unless(shadow.lives.len() <= RECORD_LIMIT, 10)
}

fn setup(shadow: &Shadow, asked: u32) -> Option<u32> {
    let fits = asked <= shadow.kind.limit() && shadow.entries_for(asked) <= shadow.lent;
    let has_custody = shadow.kind == Kind::Robust || shadow.custody.len() >= asked as usize;
    unless(fits, 3)
        .or(unless(asked != 0, 4))
        .or(unless(has_custody, 10))
        .or(table(shadow))
}

fn lent(shadow: &Shadow) -> Option<u32> {
    unless(shadow.capacity <= shadow.kind.limit(), 3)
        .or(unless(shadow.capacity != 0, 4))
        .or(unless(!shadow.is_short(), 10))
        .or(table(shadow))
}

fn bytes(shadow: &Shadow, who: u8) -> Option<RecordBytes<'_>> {
    match &shadow.damaged {
        Some(damaged) if damaged.who == who => Some(RecordBytes::of(&damaged.bytes)),
        _ => None,
    }
}

fn alive(shadow: &Shadow, who: u8) -> bool {
    match bytes(shadow, who) {
        Some(record) => !record.is_dead(),
        None => shadow.is_idle(who) || shadow.is_busy(who),
    }
}

fn busy(shadow: &Shadow, who: u8) -> bool {
    match bytes(shadow, who) {
        Some(record) => record.place() != 0,
        None => shadow.is_busy(who),
    }
}

fn opens(shadow: &Shadow, who: u8) -> bool {
    bytes(shadow, who).is_none_or(|record| record.opens(shadow.kind, shadow.capacity))
}

fn has_good_list(shadow: &Shadow, who: u8) -> bool {
    match bytes(shadow, who) {
        Some(record) => record.has_good_list(),
        None => shadow.lists[who as usize].is_good(),
    }
}

fn called(shadow: &Shadow, who: u8) -> Option<u32> {
    lent(shadow)
        .or(unless(alive(shadow, who) && busy(shadow, who), 9))
        .or(unless(opens(shadow, who), 11))
}

fn drains(shadow: &Shadow, who: u8) -> bool {
    match bytes(shadow, who) {
        Some(record) => shadow.kind == Kind::Plain || record.place() < 80,
        None => !matches!(shadow.calls(who), Some(Call::Find | Call::Recover)),
    }
}

/// From 11 on.
fn start(shadow: &Shadow, op: &Op) -> Option<u32> {
    let Op::Start {
        who,
        call,
        index_or_room,
        owner,
        mode,
    } = *op
    else {
        return None;
    };
    let is_plain = shadow.kind == Kind::Plain;
    let Some(call) = call_of(call) else {
        return Some(13);
    };
    if is_plain && matches!(call, Call::Find | Call::Recover) {
        return Some(13);
    }
    let list = call != Call::Recover || has_good_list(shadow, who);
    let known_mode = !matches!(call, Call::Release | Call::Recover) || mode < 2;
    let room = call != Call::Find || index_or_room != 0;
    let owned = is_plain
        || !matches!(call, Call::Acquire | Call::Release | Call::Find)
        || owner != u64::MAX;
    let releases = call == Call::Release;
    let index = !releases || index_or_room < shadow.capacity;
    let is_held = || !(is_plain && releases) || shadow.custody[index_or_room as usize] == held(who);
    unless(list, 11)
        .or(unless(known_mode && room, 13))
        .or(unless(owned, 5))
        .or(unless(index, 7))
        .or_else(|| unless(is_held(), 8))
}

fn list(shadow: &Shadow, who: u8, owners: &[u64]) -> Option<u32> {
    table(shadow)
        .or(unless(alive(shadow, who) && !busy(shadow, who), 9))
        .or(unless(
            shadow.kind == Kind::Robust && owners.len() <= LIST_LIMIT,
            13,
        ))
        .or(unless(!owners.contains(&u64::MAX), 5))
}
