//! The same turns as `dock_bench` makes, as one would write them in Rust by hand: a table of records, one shared access a
//! step, the same tests before it (borrowed_indices, is_locked, deaths and drains are left out). No proof and no reports:
//! what a turn costs at the least.
#![no_std]
#![crate_type = "lib"]

#[panic_handler]
fn panic(_: &core::panic::PanicInfo) -> ! {
    loop {}
}

const LOCKED: u32 = 0xff_ffff;
const CAPACITY_LIMIT: u32 = 16_777_214;

#[derive(Clone, Copy)]
enum Place {
    Idle,
    Look,
    Read(u64),
    Exchange(u64, u32),
    Write(u32),
    ReleaseLook(u32, u8),
    ReleaseWrite(u32, u8, u64),
    ReleaseExchange(u32, u8, u64),
}

#[derive(Clone, Copy)]
struct Record {
    dead: bool,
    place: Place,
}

struct Set {
    capacity: u32,
    head: u64,
}

struct Dock<'a> {
    set: Set,
    slots: &'a mut [u32],
    custody: &'a mut [u32],
    records: &'a mut [Record],
}

#[derive(Clone, Copy)]
enum Turn {
    /// call, index, mode
    Start(u8, u32, u8),
    Step,
}

// The numbers of answers and refusals are made, as the port makes them; the loop reads none.
#[allow(dead_code)]
enum Came {
    Accepted,
    Answered(u32),
    Refused(u8),
}

fn first(word: u64) -> u32 {
    (word >> 40) as u32
}

fn borrowed(word: u64) -> u32 {
    (word & 0xff_ffff) as u32
}

fn packed(first: u32, tag: u64, borrowed: u32) -> u64 {
    ((first & 0xff_ffff) as u64) << 40 | (tag & 0xffff) << 24 | borrowed as u64
}

/// Indexing without a panic: there is no core to link with.
fn put(buffer: &mut [u32], at: u32, value: u32) {
    if let Some(entry) = buffer.get_mut(at as usize) {
        *entry = value;
    }
}

fn held(who: usize) -> u32 {
    2 | (who as u32) << 8
}

impl Dock<'_> {
    fn unfit(&self, who: usize) -> u8 {
        let capacity = self.set.capacity;
        if capacity > CAPACITY_LIMIT {
            return 3;
        }
        if capacity == 0 {
            return 4;
        }
        if self.slots.len() <= capacity as usize || self.custody.len() < capacity as usize || self.records.len() > 16 {
            return 10;
        }
        match self.records.get(who) {
            Some(record) if !record.dead => 0,
            _ => 9,
        }
    }

    fn place(&self, who: usize) -> Place {
        self.records.get(who).map_or(Place::Idle, |record| record.place)
    }

    fn goes(&mut self, who: usize, place: Place) {
        if let Some(record) = self.records.get_mut(who) {
            record.place = place;
        }
    }

    fn acquire_looks(&mut self, who: usize) -> Came {
        let word = self.set.head;
        if first(word) >= self.set.capacity {
            self.goes(who, Place::Idle);
            return Came::Answered(1);
        }
        if borrowed(word) == LOCKED {
            self.goes(who, Place::Idle);
            return Came::Answered(2);
        }
        self.goes(who, Place::Read(word));
        Came::Accepted
    }

    fn release_looks(&mut self, who: usize, index: u32, mode: u8) -> Came {
        let word = self.set.head;
        if borrowed(word) == 0 || borrowed(word) == LOCKED {
            put(self.custody, index, held(who));
            self.goes(who, Place::Idle);
            return Came::Answered(14);
        }
        self.goes(who, Place::ReleaseWrite(index, mode, word));
        Came::Accepted
    }

    /// 11: what the place remembers and can still be read.
    fn sound(&self, place: Place) -> bool {
        let capacity = self.set.capacity;
        match place {
            Place::Idle | Place::Look => true,
            Place::Read(seen) | Place::Exchange(seen, _) => first(seen) < capacity && borrowed(seen) != LOCKED,
            Place::Write(index) => index < capacity,
            Place::ReleaseLook(index, mode) => index < capacity && mode <= 1,
            Place::ReleaseWrite(index, mode, seen) | Place::ReleaseExchange(index, mode, seen) => {
                index < capacity && mode <= 1 && borrowed(seen) != 0 && borrowed(seen) != LOCKED
            }
        }
    }

    fn step(&mut self, who: usize) -> Came {
        let why = self.unfit(who);
        if why != 0 {
            return Came::Refused(why);
        }
        let place = self.place(who);
        if matches!(place, Place::Idle) {
            return Came::Refused(9);
        }
        if !self.sound(place) {
            return Came::Refused(11);
        }
        match place {
            Place::Idle => return Came::Refused(9),
            Place::Look => return self.acquire_looks(who),
            Place::Read(seen) => {
                let value = self.slots.get(first(seen) as usize).copied().unwrap_or(0);
                self.goes(who, Place::Exchange(seen, value));
            }
            Place::Exchange(seen, value) => {
                if self.set.head != seen {
                    return self.acquire_looks(who);
                }
                let index = first(seen);
                self.set.head = packed(value, (seen >> 24) + 1, borrowed(seen) + 1);
                put(self.custody, index, 1 | (who as u32) << 8);
                self.goes(who, Place::Write(index));
            }
            Place::Write(index) => {
                put(self.slots, index, self.set.capacity + 1);
                put(self.custody, index, held(who));
                self.goes(who, Place::Idle);
                return Came::Answered(0);
            }
            Place::ReleaseLook(index, mode) => return self.release_looks(who, index, mode),
            Place::ReleaseWrite(index, mode, seen) => {
                put(self.slots, index, first(seen));
                self.goes(who, Place::ReleaseExchange(index, mode, seen));
            }
            Place::ReleaseExchange(index, mode, seen) => {
                if self.set.head != seen {
                    return self.release_looks(who, index, mode);
                }
                let left = if mode == 1 && borrowed(seen) == 1 { LOCKED } else { borrowed(seen) - 1 };
                self.set.head = packed(index, (seen >> 24) + 1, left);
                put(self.custody, index, 0);
                self.goes(who, Place::Idle);
                return Came::Answered(0);
            }
        }
        Came::Accepted
    }

    fn start(&mut self, who: usize, call: u8, index: u32, mode: u8) -> Came {
        let why = self.unfit(who);
        if why != 0 {
            return Came::Refused(why);
        }
        if !matches!(self.place(who), Place::Idle) {
            return Came::Refused(9);
        }
        match call {
            1 => self.goes(who, Place::Look),
            2 => {
                if mode > 1 {
                    return Came::Refused(13);
                }
                if index >= self.set.capacity {
                    return Came::Refused(7);
                }
                if self.custody.get(index as usize).copied() != Some(held(who)) {
                    return Came::Refused(8);
                }
                put(self.custody, index, 3 | (who as u32) << 8 | (who as u32) << 16);
                self.goes(who, Place::ReleaseLook(index, mode));
            }
            _ => return Came::Refused(13),
        }
        Came::Accepted
    }

    #[inline(never)]
    fn turn(&mut self, who: usize, turn: Turn) -> Came {
        match turn {
            Turn::Start(call, index, mode) => self.start(who, call, index, mode),
            Turn::Step => self.step(who),
        }
    }
}

/// So many turns over `among` records in turn; the number of answers is left in `answers`, the head word is the result.
#[no_mangle]
pub extern "C" fn plain_loop(count: u64, among: u64, answers: &mut u64) -> u64 {
    let (mut slots, mut custody) = ([0u32; 9], [0u32; 8]);
    for (at, slot) in slots.iter_mut().enumerate() {
        *slot = at as u32 + 1;
    }
    let mut records = [Record { dead: false, place: Place::Idle }; 16];
    let among = if among < 1 || among > 16 { 16 } else { among };
    let Some(lent) = records.get_mut(..among as usize) else { return u64::MAX };
    let mut dock = Dock { set: Set { capacity: 8, head: 0 }, slots: &mut slots, custody: &mut custody, records: lent };
    let mut turn = 0;
    while turn < count {
        let who = (turn / 9 % among) as usize;
        // what is acquired is the first free index, which is 0 at each round's beginning
        let made = match turn % 9 {
            0 => Turn::Start(1, 0, 0),
            5 => Turn::Start(2, 0, 0),
            _ => Turn::Step,
        };
        match dock.turn(who, made) {
            Came::Answered(_) => *answers += 1,
            Came::Accepted => {}
            Came::Refused(_) => return u64::MAX,
        }
        turn += 1;
    }
    dock.set.head
}
