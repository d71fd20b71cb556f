//! How many small ops a second go through a port: a plain dock of capacity 4 with four records.
//! usage: cargo run --release --offline --example throughput [OPS]

use simmerhusk::raw::{Buffers, Dock, Op, Port, Reply, RECORD_BYTES};
use std::time::Instant;

const AHEAD: u64 = 4000;

fn main() -> std::io::Result<()> {
    let ops = std::env::args()
        .nth(1)
        .and_then(|word| word.parse().ok())
        .unwrap_or(1_000_000);
    let mut port = Port::open()?;
    let mut reply = Reply::default();
    port.load(&Dock {
        buffers: Buffers::Plain {
            slots: vec![0; 5],
            custody: vec![0; 5],
        },
        records: vec![0; 4 * RECORD_BYTES],
        ..Dock::default()
    });
    port.queue(&Op::Setup { asked: 4 });
    port.try_reply(&mut reply)?;
    let began = Instant::now();
    let (mut queued, mut steps) = (0, 0);
    for replied in 0..ops {
        while queued < ops && queued < replied + AHEAD {
            port.queue(&op(queued));
            queued += 1;
        }
        port.try_reply(&mut reply)?;
        steps += u64::from(reply.outcome.steps);
    }
    let seconds = began.elapsed().as_secs_f64();
    let rate = ops as f64 / seconds;
    println!("{ops} ops, {steps} steps, {seconds:.2} s, {rate:.0} ops a second");
    Ok(())
}

/// Each record in turn acquires index 0 and gives it back: a start and four steps, a start and three steps.
fn op(number: u64) -> Op {
    let who = (number / 9 % 4) as u8;
    match number % 9 {
        0 => start(who, 1),
        5 => start(who, 2),
        _ => Op::Step { who },
    }
}

fn start(who: u8, call: u8) -> Op {
    Op::Start {
        who,
        call,
        index_or_room: 0,
        owner: 0,
        mode: 0,
    }
}
