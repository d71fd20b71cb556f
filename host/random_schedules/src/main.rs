//! Writes random schedules: random_schedules SEED FIRST COUNT DIR makes
//! DIR/00000.schedule and so on, numbered from FIRST.

use std::fs;
use std::path::Path;
use std::process::ExitCode;

const USAGE: &str = "usage: random_schedules SEED FIRST COUNT DIR";

fn main() -> ExitCode {
    let given: Vec<String> = std::env::args().skip(1).collect();
    match run(&given) {
        Ok(()) => ExitCode::SUCCESS,
        Err(why) => {
            eprintln!("random_schedules: {why}");
            ExitCode::FAILURE
        }
    }
}

fn run(given: &[String]) -> Result<(), String> {
    let [seed, first, count, folder] = given else {
        return Err(USAGE.to_string());
    };
    let (seed, first, count) = (number(seed)?, number(first)?, number(count)?);
    let after = first.checked_add(count).ok_or(USAGE)?;
    for number in first..after {
        let name = Path::new(folder).join(format!("{number:05}.schedule"));
        let bytes = random_schedules::schedule(seed, number);
        fs::write(&name, bytes).map_err(|error| format!("{}: {error}", name.display()))?;
    }
    Ok(())
}

fn number(text: &str) -> Result<u64, String> {
    text.parse()
        .map_err(|_| format!("{text} is no number\n{USAGE}"))
}
