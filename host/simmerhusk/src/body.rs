//! What the docks of both sets share: a port with the dock, its state as last heard, and the call that each record is in.

use crate::kinds::{RecordNumber, RecordState};
use crate::raw::{Buffers, Dock, Op, Port, Reply, RECORD_BYTES, WHOLE_LIMIT};
use crate::read::{self, Call};
use crate::reports::{Error, Progress, Turn};

pub struct Body {
    port: Port,
    last: Reply,
    /// The buffers of a large dock come only when they are asked for.
    is_large: bool,
    buffers_are_last: bool,
    calls: Vec<Option<Call>>,
}

/// A start, as the exported calls take it.
pub struct Request {
    pub call: Call,
    pub index_or_room: u32,
    pub owner: u64,
    pub mode: u8,
}

impl Body {
    /// A dock of no capacity, its records idle.
    pub fn new(buffers: Buffers, records: u8) -> Result<Body, Error> {
        let is_large = buffers.entries() > WHOLE_LIMIT;
        let records = usize::from(records);
        let dock = Dock {
            capacity: 0,
            word: 0,
            buffers,
            records: vec![0; records * RECORD_BYTES],
        };
        let mut port = Port::open()?;
        port.load(&dock);
        Ok(Body {
            port,
            last: Reply {
                dock,
                ..Reply::default()
            },
            is_large,
            buffers_are_last: true,
            calls: vec![None; records],
        })
    }

    pub fn capacity(&self) -> u32 {
        self.last.dock.capacity
    }

    pub fn word(&self) -> u64 {
        self.last.dock.word
    }

    pub fn buffers(&mut self) -> Result<&Buffers, Error> {
        if !self.buffers_are_last {
            self.port.fetch(&mut self.last.dock)?;
            self.buffers_are_last = true;
        }
        Ok(&self.last.dock.buffers)
    }

    pub fn records(&self) -> usize {
        self.calls.len()
    }

    pub fn record_state(&self, who: RecordNumber) -> Option<RecordState> {
        let from = usize::from(who.0) * RECORD_BYTES;
        let record = self.last.dock.records.get(from..from + RECORD_BYTES)?;
        Some(match (record[0], record[1]) {
            (0, 0) => RecordState::Idle,
            (0, _) => RecordState::Calling,
            _ => RecordState::Dead,
        })
    }

    pub fn setup(&mut self, capacity: u32) -> Result<Progress, Error> {
        let turn = self.perform(&Op::Setup { asked: capacity }, None)?;
        if turn.progress == Progress::Accepted {
            self.calls.fill(None);
        }
        Ok(turn.progress)
    }

    pub fn start(&mut self, who: RecordNumber, request: Request) -> Result<Progress, Error> {
        let op = Op::Start {
            who: who.0,
            call: request.call as u8,
            index_or_room: request.index_or_room,
            owner: request.owner,
            mode: request.mode,
        };
        let turn = self.perform(&op, None)?;
        if turn.progress == Progress::Accepted {
            self.remember(who, Some(request.call));
        }
        Ok(turn.progress)
    }

    pub fn step(&mut self, who: RecordNumber) -> Result<Turn, Error> {
        self.go_on(who, &Op::Step { who: who.0 })
    }

    pub fn drain(&mut self, who: RecordNumber, budget: u32) -> Result<Turn, Error> {
        let op = Op::Drain { who: who.0, budget };
        self.go_on(who, &op)
    }

    pub fn list(&mut self, who: RecordNumber, owners: Vec<u64>) -> Result<Progress, Error> {
        let op = Op::List { who: who.0, owners };
        Ok(self.perform(&op, None)?.progress)
    }

    pub fn death(&mut self, who: RecordNumber) -> Result<Progress, Error> {
        let op = Op::Death { who: who.0 };
        Ok(self.perform(&op, None)?.progress)
    }

    fn go_on(&mut self, who: RecordNumber, op: &Op) -> Result<Turn, Error> {
        let call = self.calls.get(usize::from(who.0)).copied().flatten();
        let turn = self.perform(op, call)?;
        if matches!(turn.progress, Progress::Answered(_)) {
            self.remember(who, None);
        }
        Ok(turn)
    }

    fn remember(&mut self, who: RecordNumber, call: Option<Call>) {
        if let Some(remembered) = self.calls.get_mut(usize::from(who.0)) {
            *remembered = call;
        }
    }

    fn perform(&mut self, op: &Op, call: Option<Call>) -> Result<Turn, Error> {
        self.port.queue(op);
        self.port.try_reply(&mut self.last)?;
        self.buffers_are_last = !self.is_large;
        read::turn(self.last.outcome, call)
    }
}
