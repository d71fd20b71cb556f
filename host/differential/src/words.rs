//! The plain set's head word and a custody entry, in the scope's bits and bytes.

pub const LOCKED: u32 = 0x00ff_ffff;

pub fn head_of(word: u64) -> u32 {
    (word >> 40) as u32
}

pub fn tag_of(word: u64) -> u16 {
    (word >> 24) as u16
}

pub fn borrowed_of(word: u64) -> u32 {
    (word & u64::from(LOCKED)) as u32
}

pub fn word_of(head: u32, tag: u16, borrowed: u32) -> u64 {
    (u64::from(head & LOCKED) << 40) | (u64::from(tag) << 24) | u64::from(borrowed & LOCKED)
}

pub const FREE: u32 = 0;

pub fn granting(who: u8) -> u32 {
    1 + u32::from(who) * 256
}

pub fn held(who: u8) -> u32 {
    2 + u32::from(who) * 256
}

pub fn giving(who: u8) -> u32 {
    3 + u32::from(who) * 256 + u32::from(who) * 65_536
}
