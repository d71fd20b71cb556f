//! Every refusal that a call can give, once at least, each of which leaves the whole dock as it was.

use simmerhusk::raw::{Buffers, Dock, Op, Port, Reply, RECORD_BYTES};
use simmerhusk::{
    Error, Index, Owner, PlainCall, PlainDock, Progress, RecordNumber, Refusal, ReleaseMode,
    RobustCall, RobustDock,
};

const REFUSED: u32 = 2;
const PLACE: u32 = 1;

/// A plain dock that is set up for three indices, of which record 0 holds index 0. It has two records.
fn plain() -> Dock {
    let buffers = Buffers::Plain {
        slots: vec![9; 5],
        custody: vec![9; 4],
    };
    after(buffers, &[Op::Setup { asked: 3 }, start(0, 1), drain(0)])
}

/// A robust dock that is set up for two indices, of which index 0 is owner 7's. It has two records.
fn robust() -> Dock {
    let buffers = Buffers::Robust { cells: vec![9; 3] };
    after(buffers, &[Op::Setup { asked: 2 }, start(0, 1), drain(0)])
}

fn after(buffers: Buffers, ops: &[Op]) -> Dock {
    let mut reply = Reply {
        dock: Dock {
            buffers,
            records: vec![0; 2 * RECORD_BYTES],
            ..Dock::default()
        },
        ..Reply::default()
    };
    let mut port = Port::open().expect("the exported calls");
    port.load(&reply.dock);
    for op in ops {
        port.queue(op);
        port.reply(&mut reply);
        assert_ne!(reply.outcome.progress, REFUSED, "{op:?}");
    }
    reply.dock
}

fn start(who: u8, call: u8) -> Op {
    started(who, call, 0, 7, 0)
}

fn started(who: u8, call: u8, index_or_room: u32, owner: u64, mode: u8) -> Op {
    Op::Start {
        who,
        call,
        index_or_room,
        owner,
        mode,
    }
}

fn drain(who: u8) -> Op {
    Op::Drain { who, budget: 20 }
}

fn list(who: u8, owners: &[u64]) -> Op {
    let owners = owners.to_vec();
    Op::List { who, owners }
}

/// Each op by itself is refused with its number on this dock, and leaves it as it was.
fn refused(dock: &Dock, each: &[(u32, Op)]) {
    let mut port = Port::open().expect("the exported calls");
    let mut reply = Reply::default();
    port.load(dock);
    for (number, op) in each {
        port.queue(op);
        port.reply(&mut reply);
        let outcome = reply.outcome;
        assert_eq!(
            (outcome.progress, outcome.number),
            (REFUSED, *number),
            "{op:?}"
        );
        assert_eq!((outcome.value, outcome.noted, outcome.steps), (0, 0, 0));
        assert_eq!(&reply.dock, dock, "{op:?}");
    }
}

#[test]
fn of_a_plain_dock() {
    refused(
        &plain(),
        &[
            (3, Op::Setup { asked: 16_777_215 }),
            (3, Op::Setup { asked: 5 }),
            (4, Op::Setup { asked: 0 }),
            (7, started(0, 2, 3, 0, 0)),
            (8, started(0, 2, 1, 0, 0)),
            (8, started(1, 2, 0, 0, 0)),
            (9, start(2, 1)),
            (9, Op::Step { who: 0 }),
            (9, Op::Drain { who: 0, budget: 0 }),
            (9, Op::Death { who: 2 }),
            (13, start(0, 0)),
            (13, start(0, 5)),
            (13, start(0, 7)),
            (13, started(0, 2, 0, 0, 2)),
            (13, list(0, &[7])),
        ],
    );
}

#[test]
fn of_a_robust_dock() {
    refused(
        &robust(),
        &[
            (3, Op::Setup { asked: 4_097 }),
            (3, Op::Setup { asked: 4 }),
            (4, Op::Setup { asked: 0 }),
            (5, started(0, 1, 0, u64::MAX, 0)),
            (5, started(0, 2, 0, u64::MAX, 0)),
            (5, started(0, 5, 1, u64::MAX, 0)),
            (5, list(0, &[7, u64::MAX])),
            (7, started(0, 2, 2, 7, 0)),
            (9, start(2, 1)),
            (9, Op::Step { who: 0 }),
            (9, list(2, &[7])),
            (13, start(0, 7)),
            (13, started(0, 5, 0, 7, 0)),
            (13, started(0, 6, 0, 0, 2)),
            (13, list(0, &[7; 9])),
        ],
    );
}

#[test]
fn of_a_record_in_a_call() {
    let mut port = Port::open().expect("the exported calls");
    let mut reply = Reply::default();
    port.load(&robust());
    port.queue(&started(0, 5, 1, 7, 0));
    port.reply(&mut reply);
    refused(
        &reply.dock,
        &[(9, start(0, 1)), (9, list(0, &[7])), (13, drain(0))],
    );
}

#[test]
fn of_a_dead_record() {
    let mut dock = plain();
    dock.records[0] = 1;
    refused(
        &dock,
        &[
            (9, start(0, 1)),
            (9, Op::Step { who: 0 }),
            (9, Op::Death { who: 0 }),
        ],
    );
}

#[test]
fn of_a_record_that_is_damaged() {
    for mut dock in [plain(), robust()] {
        dock.records[PLACE as usize] = 77;
        refused(&dock, &[(11, Op::Step { who: 0 }), (11, drain(0))]);
    }
}

#[test]
fn of_buffers_too_short_and_records_too_many() {
    let mut short = plain();
    short.buffers = Buffers::Plain {
        slots: vec![1, 2, 3, 4],
        custody: vec![0; 2],
    };
    refused(&short, &[(10, Op::Setup { asked: 3 }), (10, start(0, 1))]);

    let mut short = robust();
    short.buffers = Buffers::Robust { cells: vec![7] };
    refused(&short, &[(10, start(0, 1))]);

    let mut many = plain();
    many.records = vec![0; 17 * RECORD_BYTES];
    refused(
        &many,
        &[
            (10, Op::Setup { asked: 3 }),
            (10, start(0, 1)),
            (10, Op::Death { who: 0 }),
        ],
    );
}

#[test]
fn of_a_dock_that_is_not_set_up() -> Result<(), Error> {
    let mut dock = PlainDock::of_capacity(3, 1)?;
    let zero = Progress::Refused(Refusal::CapacityZero);
    assert_eq!(dock.start(RecordNumber(0), PlainCall::Acquire)?, zero);
    assert_eq!(dock.step(RecordNumber(0))?.progress, zero);
    assert_eq!(dock.slots()?, [0; 4]);
    Ok(())
}

#[test]
fn by_name() -> Result<(), Error> {
    let who = RecordNumber(0);
    let mut dock = PlainDock::with_buffers(vec![0; 3], vec![0; 1], 1)?;
    let refused = |refusal| Progress::Refused(refusal);
    assert_eq!(dock.setup(3)?, refused(Refusal::CapacityAboveLimit));
    assert_eq!(dock.setup(0)?, refused(Refusal::CapacityZero));
    assert_eq!(dock.setup(2)?, refused(Refusal::BufferTooShort));
    assert_eq!(dock.setup(1)?, Progress::Accepted);
    let release = |index| PlainCall::Release {
        index: Index(index),
        mode: ReleaseMode::Default,
    };
    let word = dock.word();
    assert_eq!(
        dock.start(who, release(1))?,
        refused(Refusal::IndexOutOfRange)
    );
    assert_eq!(dock.start(who, release(0))?, refused(Refusal::IndexNotHeld));
    assert_eq!(dock.step(who)?.progress, refused(Refusal::RecordNotReady));
    assert_eq!(dock.step(who)?.steps, 0);
    assert_eq!((dock.word(), dock.slots()?), (word, &[1, 2, 0][..]));

    let mut dock = RobustDock::of_capacity(1, 1)?;
    assert_eq!(dock.setup(1)?, Progress::Accepted);
    let owner = Owner::new(7).expect("an owner's number");
    let no_room = RobustCall::Find { owner, room: 0 };
    assert_eq!(dock.start(who, no_room)?, refused(Refusal::NotKnown));
    assert_eq!(dock.list(who, &[owner; 9])?, refused(Refusal::NotKnown));
    Ok(())
}

#[test]
fn of_more_than_sixteen_records() -> Result<(), Error> {
    let mut dock = RobustDock::of_capacity(1, 16)?;
    assert_eq!(dock.setup(1)?, Progress::Accepted);
    let mut dock = RobustDock::of_capacity(1, 17)?;
    let too_many = Progress::Refused(Refusal::BufferTooShort);
    assert_eq!(dock.setup(1)?, too_many);
    assert_eq!(dock.death(RecordNumber(0))?, too_many);
    assert_eq!(dock.death(RecordNumber(255))?, too_many);
    Ok(())
}
