//! Reads a whole schedule from standard input and writes its trace to
//! standard output. What is wrong with a schedule is said in the trace (the
//! status is 0 then too); only a read or a write that fails gives status 1.

use std::io::{self, BufWriter, Read, Write};
use std::process::ExitCode;

fn main() -> ExitCode {
    match run() {
        Ok(()) => ExitCode::SUCCESS,
        Err(error) => {
            eprintln!("second_trace: {error}");
            ExitCode::FAILURE
        }
    }
}

fn run() -> io::Result<()> {
    let mut schedule = Vec::new();
    io::stdin().lock().read_to_end(&mut schedule)?;
    let mut out = BufWriter::with_capacity(1 << 16, io::stdout().lock());
    second_trace::write_trace(&schedule, &mut out)?;
    out.flush()
}
