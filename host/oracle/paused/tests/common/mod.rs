//! Calls made on the oracle, and how they end.

#![allow(dead_code)]

use oracle_paused::{Answer, Call, Ending, LIST_LIMIT, Oracle, Request};

pub const EMPTY: u64 = u64::MAX;

pub fn request(call: Call) -> Request {
    Request {
        call,
        index_or_room: 0,
        owner: 0,
        mode: 0,
        listed: 0,
        list: [0; LIST_LIMIT],
    }
}

pub fn acquire(owner: u64) -> Request {
    Request {
        owner,
        ..request(Call::Acquire)
    }
}

pub fn release(index: u32, owner: u64, mode: u8) -> Request {
    Request {
        index_or_room: index,
        owner,
        mode,
        ..request(Call::Release)
    }
}

pub fn start(oracle: &mut Oracle, record: u8, asks: Request) {
    assert_eq!(oracle.start(record, asks), None);
}

pub fn steps(oracle: &mut Oracle, record: u8, count: u32) {
    for _ in 0..count {
        assert_eq!(oracle.step(record).ending, None);
    }
}

/// Steps on to the answer, and how many steps that took.
pub fn finish(oracle: &mut Oracle, record: u8) -> (Answer, u32) {
    for taken in 1.. {
        match oracle.step(record).ending {
            Some(Ending::Answer(answer)) => return (answer, taken),
            Some(Ending::Panic) => panic!("the source panicked"),
            None => {}
        }
    }
    unreachable!()
}

pub fn whole(oracle: &mut Oracle, record: u8, asks: Request) -> (Answer, u32) {
    start(oracle, record, asks);
    finish(oracle, record)
}

pub fn done(value: u32) -> Answer {
    Answer { number: 0, value }
}

pub fn failed(number: u32) -> Answer {
    Answer { number, value: 0 }
}

pub fn recover(owners: &[u64], mode: u8) -> Request {
    let mut list = [0; LIST_LIMIT];
    list[..owners.len()].copy_from_slice(owners);
    Request {
        mode,
        listed: owners.len() as u8,
        list,
        ..request(Call::Recover)
    }
}
