//! What the scope and the Rust say, as schedules with the lines they must give. The
//! lines were worked out by hand; none was taken from a run.

mod answers;
mod bench_sheet;
mod plain_calls;
mod reader;
mod refusals;
mod robust_calls;

use crate::trace;

pub const PLAIN: u8 = 0;
pub const ROBUST: u8 = 1;

/// A schedule in the making, entry by entry.
#[derive(Clone)]
pub struct Schedule(pub Vec<u8>);

impl Schedule {
    pub fn new(set: u8, capacity: u32, records: u8) -> Schedule {
        let mut body = vec![set, records];
        body.extend(capacity.to_le_bytes());
        Schedule(Vec::new()).entry(1, &body)
    }

    pub fn entry(mut self, kind: u16, body: &[u8]) -> Schedule {
        let length = body.len() as u16 + 2;
        self.0.extend(length.to_le_bytes());
        self.0.extend(kind.to_le_bytes());
        self.raw(body)
    }

    pub fn raw(mut self, bytes: &[u8]) -> Schedule {
        self.0.extend(bytes);
        self
    }

    pub fn start(self, record: u8, call: u8, index: u32, owner: u64, mode: u8) -> Schedule {
        let mut body = vec![record, call];
        body.extend(index.to_le_bytes());
        body.extend(owner.to_le_bytes());
        body.push(mode);
        self.entry(2, &body)
    }

    pub fn acquire(self, record: u8, owner: u64) -> Schedule {
        self.start(record, 1, 0, owner, 0)
    }

    pub fn release(self, record: u8, index: u32, owner: u64, mode: u8) -> Schedule {
        self.start(record, 2, index, owner, mode)
    }

    pub fn borrowed(self, record: u8) -> Schedule {
        self.start(record, 3, 0, 0, 0)
    }

    pub fn locked(self, record: u8) -> Schedule {
        self.start(record, 4, 0, 0, 0)
    }

    pub fn find(self, record: u8, room: u32, owner: u64) -> Schedule {
        self.start(record, 5, room, owner, 0)
    }

    pub fn recover(self, record: u8, mode: u8) -> Schedule {
        self.start(record, 6, 0, 0, mode)
    }

    pub fn steps(self, record: u8, times: usize) -> Schedule {
        (0..times).fold(self, |schedule, _| schedule.entry(3, &[record]))
    }

    pub fn death(self, record: u8) -> Schedule {
        self.entry(4, &[record])
    }

    pub fn list(self, record: u8, owners: &[u64]) -> Schedule {
        let mut body = vec![record, owners.len() as u8];
        body.extend(owners.iter().flat_map(|owner| owner.to_le_bytes()));
        self.entry(5, &body)
    }

    /// Its trace is these lines. `3-5 0 step` stands for three lines, one for
    /// each entry from 3 to 5.
    #[track_caller]
    pub fn shows(&self, lines: &[&str]) {
        assert_eq!(text(&self.0), written_out(lines));
    }
}

pub fn text(schedule: &[u8]) -> String {
    String::from_utf8(trace(schedule)).expect("a trace is text")
}

fn written_out(lines: &[&str]) -> String {
    let mut all = String::new();
    for line in lines {
        let (first, others) = line.split_once(' ').expect("a line has two words");
        match first.split_once('-') {
            Some((from, to)) => {
                for number in from.parse::<u64>().unwrap()..=to.parse().unwrap() {
                    all += &format!("{number} {others}\n");
                }
            }
            None => all += &format!("{line}\n"),
        }
    }
    all
}
