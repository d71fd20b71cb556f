//! The sample that is recorded: the bench sheet, and schedules by chance on small sets. A run takes the
//! port through it too, and looks that it meets every place and every answer.

use std::process::ExitCode;

use simmerhusk::raw::Op;

use crate::bench::{Bench, Sink, fresh, start};
use crate::random::Random;
use crate::recording::Recording;
use crate::scenes::{
    ACQUIRE, BORROWED, FIND, RECOVER, RELEASE, finish, random as random_scenes, sheet, stepped,
    steps,
};
use crate::shadow::Kind;

const SCENES: u64 = 64;
const TURNS: u64 = 90;

pub fn record(file: &str) -> ExitCode {
    let mut bench = Bench::new(Sink::File(Recording::default()));
    scenes(&mut bench);
    let recording = bench.recording();
    println!(
        "{} turns, {} accepted starts and steps, {} bytes",
        recording.turns,
        bench.compared,
        recording.bytes.len()
    );
    match std::fs::write(file, &recording.bytes) {
        Ok(()) => ExitCode::SUCCESS,
        Err(error) => {
            eprintln!("differential: {file}: {error}");
            ExitCode::FAILURE
        }
    }
}

pub fn scenes(bench: &mut Bench) {
    sheet::all(bench);
    for kind in [Kind::Plain, Kind::Robust] {
        refused_calls(bench, kind);
    }
    recover_disturbed(bench);
    let mut random = Random::new(1);
    for number in 0..SCENES {
        scene(bench, &mut random, number);
    }
}

/// Each refusal of a start, step, list and death that a sound dock can give, and what is accepted beside it.
fn refused_calls(bench: &mut Bench, kind: Kind) {
    let capacity = 2;
    bench.load("refused calls", &fresh(kind, capacity, 3));
    stepped(bench, start(0, ACQUIRE, 0, 7, 0));
    bench.make(start(1, ACQUIRE, 0, u64::MAX, 0));
    bench.make(start(1, ACQUIRE, 0, 7, 0));
    for who in [0, 1, 2, 3, 16, 255] {
        bench.make(start(who, RELEASE, 0, 8, 2));
        bench.make(Op::List {
            who,
            owners: vec![7, u64::MAX],
        });
    }
    for call in [0, RELEASE, FIND, RECOVER, 7, 255] {
        for (index_or_room, owner, mode) in [
            (0, 7, 2),
            (0, u64::MAX, 0),
            (0, 9, 0),
            (capacity, u64::MAX, 1),
            (capacity, 9, 1),
            (capacity - 1, 9, 1),
        ] {
            bench.make(start(2, call, index_or_room, owner, mode));
            if bench.shadow.is_busy(2) {
                finish(bench, 2);
            }
        }
    }
    for owners in [vec![7; 9], vec![u64::MAX; 9], vec![7; 8], Vec::new()] {
        bench.make(Op::List { who: 2, owners });
    }
    for who in [1, 1, 3] {
        bench.make(Op::Death { who });
        bench.make(Op::Step { who });
    }
}

/// A recover that locks, with each of its exchanges lost once where it can be.
fn recover_disturbed(bench: &mut Bench) {
    for disturbed in 0..=11 {
        bench.load("a recover disturbed", &fresh(Kind::Robust, 1, 2));
        stepped(bench, start(0, ACQUIRE, 0, 7, 0));
        bench.make(Op::List {
            who: 1,
            owners: vec![7],
        });
        bench.make(start(1, RECOVER, 0, 0, 1));
        steps(bench, 1, disturbed);
        stepped(bench, start(0, RELEASE, 0, 7, 0));
        stepped(bench, start(0, BORROWED, 0, 0, 0));
        if bench.shadow.is_busy(1) {
            finish(bench, 1);
        }
    }
}

fn scene(bench: &mut Bench, random: &mut Random, number: u64) {
    let kind = [Kind::Plain, Kind::Robust, Kind::Robust][number as usize % 3];
    let capacity = random.pick(&[1, 2, 2, 3, 4, 8]);
    let records = random.pick(&[1, 2, 3, 3, 4, 16]);
    bench.load("the sample", &fresh(kind, capacity, records));
    if random.one_in(3) {
        bench.make(Op::PokeWord(random_scenes::late_word(random, kind)));
    }
    for _ in 0..TURNS {
        let op = match random.below(40) {
            0 => Op::PokeWord(random_scenes::any_word(bench, random)),
            _ => random_scenes::plain_turn(bench, random),
        };
        match op {
            Op::Setup { .. } => {}
            Op::Drain { who, .. } => {
                bench.make(Op::Step { who });
            }
            op => {
                bench.make(op);
            }
        }
    }
}
