//! The run of a schedule, and the text of its trace. Numbers are decimal but
//! for the word in `end`; one space between, a newline after each line.

use std::io::{self, Write};

use crate::format::{first_entry, Entry};
use crate::kinds::{Refusal, Report};
use crate::plain::PlainSet;
use crate::robust::RobustSet;
use crate::table::{Event, IndexSet, Table};

/// The program's limits for both sets.
const CAPACITY_LIMIT: u32 = 1024;
const RECORDS_LIMIT: u8 = 16;

enum Kind {
    Plain,
    Robust,
}

struct Setup {
    kind: Kind,
    capacity: u32,
    records: u8,
}

/// Writes the whole trace of a schedule.
pub fn write_trace(schedule: &[u8], out: &mut impl Write) -> io::Result<()> {
    let (setup, rest) = match first_setup(schedule) {
        Ok(done) => done,
        Err(refusal) => return writeln!(out, "refused {}", refusal as u8),
    };
    let Setup {
        kind,
        capacity,
        records,
    } = setup;
    match kind {
        Kind::Plain => {
            writeln!(out, "set plain {capacity} {records}")?;
            run(Table::new(PlainSet::new(capacity), records), rest, out)
        }
        Kind::Robust => {
            writeln!(out, "set robust {capacity} {records}")?;
            run(Table::new(RobustSet::new(capacity), records), rest, out)
        }
    }
}

/// The setup that must come first, judged in the order 12, 3, 4, 10, and the
/// bytes after it.
fn first_setup(schedule: &[u8]) -> Result<(Setup, &[u8]), Refusal> {
    let Some((entry, rest)) = first_entry(schedule) else {
        return Err(Refusal::BadEntry);
    };
    let Entry::Setup {
        set,
        records,
        capacity,
    } = entry
    else {
        return Err(Refusal::BadEntry);
    };
    let kind = match set {
        0 => Kind::Plain,
        1 => Kind::Robust,
        _ => return Err(Refusal::BadEntry),
    };
    if capacity > CAPACITY_LIMIT {
        return Err(Refusal::CapacityAboveLimit);
    }
    if capacity == 0 {
        return Err(Refusal::CapacityZero);
    }
    if records > RECORDS_LIMIT {
        return Err(Refusal::TooManyRecords);
    }
    let setup = Setup {
        kind,
        capacity,
        records,
    };
    Ok((setup, rest))
}

/// The entries after the setup, up to the last or to the first bad one, and
/// the `end` line.
fn run<Set: IndexSet>(
    mut table: Table<Set>,
    mut rest: &[u8],
    out: &mut impl Write,
) -> io::Result<()> {
    let mut number: u64 = 0;
    while !rest.is_empty() {
        let Some((Entry::Turn { record, action }, after)) = first_entry(rest) else {
            // Broken, or a second setup: reading stops.
            writeln!(out, "{number} 0 refused {}", Refusal::BadEntry as u8)?;
            break;
        };
        entry_lines(number, record, table.turn(record, action), out)?;
        number += 1;
        rest = after;
    }
    let shown = table.set.shown();
    writeln!(out, "end {shown:016X} {} {}", table.acquires, table.steps)
}

/// An entry's line, after the line of what its step reports.
fn entry_lines(
    number: u64,
    record: u8,
    result: Result<Event, Refusal>,
    out: &mut impl Write,
) -> io::Result<()> {
    if let Ok(Event::Stepped(report) | Event::Answered(report, _)) = result {
        match report {
            Some(Report::Found(index)) => writeln!(out, "{number} {record} found {}", index.0)?,
            Some(Report::Freed(index, owner)) => {
                writeln!(out, "{number} {record} freed {} {}", index.0, owner.0)?
            }
            None => {}
        }
    }
    match result {
        Ok(Event::Began) => writeln!(out, "{number} {record} begin"),
        Ok(Event::Listed) => writeln!(out, "{number} {record} list"),
        Ok(Event::Died) => writeln!(out, "{number} {record} dead"),
        Ok(Event::Stepped(_)) => writeln!(out, "{number} {record} step"),
        Ok(Event::Answered(_, answer)) => {
            let (answer, value) = answer.numbers();
            writeln!(out, "{number} {record} done {answer} {value}")
        }
        Err(refusal) => writeln!(out, "{number} {record} refused {}", refusal as u8),
    }
}
