//! The exported calls of Simmerhusk against the Rust that they are a port of, access by access.
//!
//! `differential run [--steps N] [--seed S] [--progress]`, `differential record FILE`

mod bench;
mod comparer;
mod coverage;
mod expected;
mod place_names;
mod places;
mod progress;
mod random;
mod record_bytes;
mod recording;
mod refusals;
mod sample;
mod scenes;
mod shadow;
mod show;
mod table;
mod words;

use std::process::ExitCode;

use simmerhusk::raw::Port;

use bench::{Bench, Sink};
use comparer::Comparer;
use progress::Progress;
use scenes::{damage, interleavings, limits, long, random as random_scenes, whole_calls};

const USAGE: &str =
    "usage: differential run [--steps N] [--seed S] [--progress] | differential record FILE";

struct Options {
    steps: u64,
    seed: u64,
    progress: bool,
}

fn options(arguments: &[String]) -> Option<Options> {
    let mut options = Options {
        steps: 1_000_000,
        seed: 1,
        progress: false,
    };
    let mut arguments = arguments.iter();
    while let Some(argument) = arguments.next() {
        match argument.as_str() {
            "--steps" => options.steps = arguments.next()?.parse().ok()?,
            "--seed" => options.seed = arguments.next()?.parse().ok()?,
            "--progress" => options.progress = true,
            _ => return None,
        }
    }
    Some(options)
}

fn main() -> ExitCode {
    let arguments: Vec<String> = std::env::args().skip(1).collect();
    match arguments.split_first() {
        Some((command, rest)) if command == "run" => match options(rest) {
            Some(options) => run(&options),
            None => usage(),
        },
        Some((command, [file])) if command == "record" => sample::record(file),
        _ => usage(),
    }
}

fn usage() -> ExitCode {
    eprintln!("{USAGE}");
    ExitCode::from(2)
}

fn run(options: &Options) -> ExitCode {
    let port = match Port::open() {
        Ok(port) => port,
        Err(error) => {
            eprintln!("differential: the exported calls cannot be reached: {error}");
            return ExitCode::from(2);
        }
    };
    // A panic of the source is caught and reported as a difference: its message need not be printed.
    let quiet = std::panic::take_hook();
    std::panic::set_hook(Box::new(move |panic| {
        if !oracle_paused::is_calling() {
            quiet(panic);
        }
    }));
    let progress = match Progress::new(options.progress, options.steps) {
        Ok(progress) => progress,
        Err(error) => {
            eprintln!("differential: no progress can be shown: {error}");
            return ExitCode::from(2);
        }
    };
    let comparer = Comparer::new(port, options.seed, progress);
    let mut bench = Bench::new(Sink::Port(Box::new(comparer)));
    let missing = sample_missing(&mut bench);
    if missing.is_empty() {
        scenes(&mut bench, options);
    }
    let comparer = bench.comparer();
    comparer.progress.end();
    let wrong = match missing.is_empty() {
        true => all_met(comparer),
        false => missing,
    };
    for line in &wrong {
        println!("{line}");
    }
    if !wrong.is_empty() {
        return ExitCode::FAILURE;
    }
    println!(
        "besides, {} steps within drains, whose ends were compared",
        comparer.within_drains
    );
    println!("{} steps compared, 0 differences", comparer.compared);
    ExitCode::SUCCESS
}

/// A line for each place and answer that the recorded sample does not meet.
fn sample_missing(bench: &mut Bench) -> Vec<String> {
    bench.comparer().enter("recorded sample");
    sample::scenes(bench);
    bench.comparer().catch_up();
    let missing = bench.comparer().coverage.places_and_answers_missing();
    let named = |cell| format!("never met by the recorded sample: {cell}");
    missing.into_iter().map(named).collect()
}

fn scenes(bench: &mut Bench, options: &Options) {
    let seed = options.seed;
    bench.comparer().enter("whole calls");
    whole_calls::round(bench, seed, 60);
    bench.comparer().enter("damaged records");
    damage::all_pairs(bench);
    damage::lists_deaths_setups(bench);
    damage::alone(bench, seed, 4_000);
    bench.comparer().enter("once around the tag");
    long::all(bench);
    bench.comparer().enter("interleavings");
    interleavings::all(bench, (options.steps / 500).clamp(100, 200_000), seed);
    bench.comparer().enter("random scenes");
    for number in 0..200 {
        random_scenes::scene(bench, seed, number);
    }
    bench.comparer().enter("limits");
    limits::all(bench);
    bench.comparer().enter("random scenes");
    let mut number = 200;
    // Up to what is asked for, and never less than half of that, whatever was compared before.
    let asked = options.steps.max(bench.compared + options.steps / 2);
    while bench.compared < asked {
        random_scenes::scene(bench, seed, number);
        if number % 1_000 == 0 {
            whole_calls::round(bench, seed.wrapping_add(number), 60);
            damage::alone(bench, seed.wrapping_add(number), 400);
        }
        number += 1;
    }
    bench.comparer().catch_up();
}

/// Prints the tables; a line for each of their cells that is not as it must be.
fn all_met(comparer: &Comparer) -> Vec<String> {
    comparer.coverage.print();
    comparer.coverage.wrong()
}
