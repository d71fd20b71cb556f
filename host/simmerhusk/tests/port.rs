//! The port itself: ops far ahead of their replies, docks that are replied by digests, and what it does not take.

use simmerhusk::raw::{Buffers, Dock, Op, Port, Reply, RECORD_BYTES};
use std::io::{ErrorKind, Result};

fn plain(slots: usize, custody: usize) -> Dock {
    Dock {
        buffers: Buffers::Plain {
            slots: vec![0; slots],
            custody: vec![0; custody],
        },
        records: vec![0; 4 * RECORD_BYTES],
        ..Dock::default()
    }
}

fn robust(cells: usize) -> Dock {
    Dock {
        buffers: Buffers::Robust {
            cells: vec![0; cells],
        },
        records: vec![0; RECORD_BYTES],
        ..Dock::default()
    }
}

fn acquire(who: u8) -> Op {
    Op::Start {
        who,
        call: 1,
        index_or_room: 0,
        owner: 7,
        mode: 0,
    }
}

fn digest(bytes: impl Iterator<Item = u8>) -> u64 {
    bytes.fold(0xcbf2_9ce4_8422_2325, |hash: u64, byte| {
        (hash ^ u64::from(byte)).wrapping_mul(0x0000_0100_0000_01b3)
    })
}

fn digest_of_u32s(values: impl Iterator<Item = u32>) -> u64 {
    digest(values.flat_map(u32::to_le_bytes))
}

#[test]
fn a_hundred_thousand_ops_before_the_first_reply() -> Result<()> {
    let mut port = Port::open()?;
    let mut reply = Reply::default();
    port.load(&plain(5, 4));
    port.queue(&Op::Setup { asked: 4 });
    port.queue(&acquire(3));
    for word in 0..100_000 {
        port.queue(&Op::PokeWord(word));
    }
    port.try_reply(&mut reply)?;
    assert_eq!((reply.dock.capacity, reply.dock.word), (4, 0));
    port.try_reply(&mut reply)?;
    assert_eq!(reply.dock.records[3 * RECORD_BYTES + 1], 1);
    for word in 0..100_000 {
        port.try_reply(&mut reply)?;
        assert_eq!(reply.dock.word, word);
    }
    Ok(())
}

#[test]
fn pokes_write_what_is_resident() -> Result<()> {
    let mut port = Port::open()?;
    let mut reply = Reply::default();
    port.load(&plain(2, 1));
    port.queue(&Op::PokeSlot(1, 11));
    port.queue(&Op::PokeCustody(0, 12));
    port.queue(&Op::PokeRecords(130, vec![1, 2, 3]));
    for _ in 0..3 {
        port.try_reply(&mut reply)?;
        assert_eq!(reply.outcome, Default::default());
    }
    let mut poked = plain(0, 0);
    poked.buffers = Buffers::Plain {
        slots: vec![0, 11],
        custody: vec![12],
    };
    poked.records[130..133].copy_from_slice(&[1, 2, 3]);
    assert_eq!((&reply.dock, reply.digests), (&poked, [0, 0]));

    port.load(&robust(2));
    port.queue(&Op::PokeCell(1, u64::MAX - 5));
    port.try_reply(&mut reply)?;
    let cells = vec![0, u64::MAX - 5];
    assert_eq!(reply.dock.buffers, Buffers::Robust { cells });
    Ok(())
}

#[test]
fn a_poke_outside_of_its_buffer_is_an_error() -> Result<()> {
    let outside = [
        Op::PokeSlot(2, 0),
        Op::PokeCustody(1, 0),
        Op::PokeCell(0, 0),
        Op::PokeRecords(4 * RECORD_BYTES as u32, vec![0]),
    ];
    for op in outside {
        let mut port = Port::open()?;
        port.load(&plain(2, 1));
        port.queue(&op);
        assert!(port.try_reply(&mut Reply::default()).is_err(), "{op:?}");
        assert!(port.try_reply(&mut Reply::default()).is_err(), "{op:?}");
    }
    Ok(())
}

#[test]
fn a_reply_that_nothing_was_queued_for_is_an_error() -> Result<()> {
    let mut port = Port::open()?;
    let mut reply = Reply::default();
    port.load(&plain(2, 1));
    let none = port.try_reply(&mut reply).map_err(|error| error.kind());
    assert_eq!(none, Err(ErrorKind::InvalidInput));
    port.queue(&acquire(0));
    assert!(port.fetch(&mut Dock::default()).is_err());
    port.try_reply(&mut reply)?;
    assert_eq!(reply.outcome.number, 4);
    Ok(())
}

#[test]
fn a_large_dock_is_replied_by_digests() -> Result<()> {
    let mut port = Port::open()?;
    let mut reply = Reply::default();
    let mut dock = Dock::default();
    let edge = [(2049, 2047, true), (2050, 2047, false)];
    for (slots, custody, whole) in edge {
        port.load(&plain(slots, custody));
        port.queue(&Op::Setup { asked: 2047 });
        port.try_reply(&mut reply)?;
        assert_eq!(reply.outcome.progress, 0);
        assert_eq!(reply.digests == [0, 0], whole);
        assert_eq!(reply.dock.buffers.entries() > 0, whole);
        port.fetch(&mut dock)?;
        assert_eq!(dock.buffers.entries(), slots + custody);
        assert_eq!(dock.records, reply.dock.records);
    }
    let slots = (1..=2048).chain([0; 2]);
    assert_eq!(reply.digests[0], digest_of_u32s(slots));
    assert_eq!(reply.digests[1], digest_of_u32s([0; 2047].into_iter()));

    port.load(&robust(4097));
    port.queue(&Op::Setup { asked: 4096 });
    port.try_reply(&mut reply)?;
    let cells = [u64::MAX; 4096].into_iter().chain([0]);
    assert_eq!(reply.digests, [digest(cells.flat_map(u64::to_le_bytes)), 0]);
    Ok(())
}

#[test]
fn the_largest_plain_dock() -> Result<()> {
    const LIMIT: u32 = 16_777_214;
    let mut port = Port::open()?;
    let mut reply = Reply::default();
    port.load(&plain(16_777_216, 16_777_216));
    port.queue(&Op::Setup { asked: LIMIT });
    port.queue(&acquire(0));
    port.queue(&Op::Drain { who: 0, budget: 5 });
    for _ in 0..3 {
        port.try_reply(&mut reply)?;
    }
    assert_eq!((reply.outcome.progress, reply.outcome.steps), (1, 4));
    assert_eq!(reply.dock.word, 0x0000_0100_0100_0001);
    let slots = [LIMIT + 1].into_iter().chain(2..=LIMIT + 1).chain([0]);
    assert_eq!(reply.digests[0], digest_of_u32s(slots));
    Ok(())
}
