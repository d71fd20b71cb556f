//! What was met: places, answers and reports, refusals; and which cells of those tables cannot be met.

use std::collections::BTreeMap;
use std::fmt;

use oracle_paused::Call;
use simmerhusk::raw::Op;

use crate::expected::{ANSWERED, Expected, FOUND, FREED, REFUSED};
use crate::place_names::{place, places};
use crate::shadow::Kind;
use crate::table::Table;

const KINDS: [Kind; 2] = [Kind::Plain, Kind::Robust];
const CALLS: [Call; 6] = [
    Call::Acquire,
    Call::Release,
    Call::Borrowed,
    Call::Locked,
    Call::Find,
    Call::Recover,
];
const REFUSALS: [u32; 9] = [3, 4, 5, 7, 8, 9, 10, 11, 13];

#[derive(Debug, Clone, Copy, PartialEq, Eq, PartialOrd, Ord)]
enum Access {
    Made,
    Won,
    Lost,
}

const ACCESSES: [Access; 3] = [Access::Made, Access::Won, Access::Lost];

#[derive(Debug, Clone, Copy, PartialEq, Eq, PartialOrd, Ord)]
enum Ending {
    Going,
    DoneZero,
    DoneAboveZero,
    Failed(u32),
}

const ENDINGS: [Ending; 7] = [
    Ending::Going,
    Ending::DoneZero,
    Ending::DoneAboveZero,
    Ending::Failed(1),
    Ending::Failed(2),
    Ending::Failed(6),
    Ending::Failed(14),
];

#[derive(Debug, Clone, Copy, PartialEq, Eq, PartialOrd, Ord)]
enum Noted {
    Nothing,
    Found,
    Freed,
}

const NOTED: [Noted; 3] = [Noted::Nothing, Noted::Found, Noted::Freed];

/// The answers that have a column, and its head. No call can give another.
const ANSWERS: [(&str, Ending, Noted); 10] = [
    ("goes on", Ending::Going, Noted::Nothing),
    ("done 0", Ending::DoneZero, Noted::Nothing),
    ("done above 0", Ending::DoneAboveZero, Noted::Nothing),
    ("1", Ending::Failed(1), Noted::Nothing),
    ("2", Ending::Failed(2), Noted::Nothing),
    ("6", Ending::Failed(6), Noted::Nothing),
    ("14", Ending::Failed(14), Noted::Nothing),
    ("found", Ending::Going, Noted::Found),
    ("found, done", Ending::DoneAboveZero, Noted::Found),
    ("freed", Ending::Going, Noted::Freed),
];

#[derive(Debug, Clone, Copy, PartialEq, Eq, PartialOrd, Ord)]
enum Entry {
    Setup,
    Start,
    Step,
    Drain,
    List,
    Death,
}

const ENTRIES: [Entry; 6] = [
    Entry::Setup,
    Entry::Start,
    Entry::Step,
    Entry::Drain,
    Entry::List,
    Entry::Death,
];

#[derive(Debug, Clone, Copy, PartialEq, Eq, PartialOrd, Ord)]
enum Cell {
    Place(Kind, u8, Access),
    Answer(Kind, Call, Ending, Noted),
    Refused(Kind, Entry, u32),
}

impl fmt::Display for Cell {
    fn fmt(&self, f: &mut fmt::Formatter<'_>) -> fmt::Result {
        match *self {
            Cell::Place(kind, number, access) => {
                let name = place(kind, number).map_or("unknown", |place| place.name);
                let access = access_name(access);
                write!(f, "{} place {number}, {name}: {access}", set_name(kind))
            }
            Cell::Answer(kind, call, ending, noted) => {
                let answer = answer_name(ending, noted);
                write!(f, "{} {}: {answer}", set_name(kind), call_name(call))
            }
            Cell::Refused(kind, entry, number) => {
                let (set, entry) = (set_name(kind), entry_name(entry));
                write!(f, "{set} {entry}: refused with {number}")
            }
        }
    }
}

fn set_name(kind: Kind) -> &'static str {
    match kind {
        Kind::Plain => "plain",
        Kind::Robust => "robust",
    }
}

fn access_name(access: Access) -> &'static str {
    match access {
        Access::Made => "made",
        Access::Won => "won",
        Access::Lost => "lost",
    }
}

fn call_name(call: Call) -> &'static str {
    match call {
        Call::Acquire => "acquire",
        Call::Release => "release",
        Call::Borrowed => "borrowed_indices",
        Call::Locked => "is_locked",
        Call::Find => "find",
        Call::Recover => "recover",
    }
}

fn answer_name(ending: Ending, noted: Noted) -> String {
    let column = ANSWERS
        .iter()
        .find(|(_, of, with)| (*of, *with) == (ending, noted));
    match column {
        Some((name, ..)) => (*name).to_string(),
        None => format!("{ending:?}, {noted:?}"),
    }
}

fn entry_name(entry: Entry) -> &'static str {
    match entry {
        Entry::Setup => "setup",
        Entry::Start => "start",
        Entry::Step => "step",
        Entry::Drain => "drain",
        Entry::List => "list",
        Entry::Death => "death",
    }
}

fn all_cells() -> Vec<Cell> {
    let mut cells = Vec::new();
    for kind in KINDS {
        for number in 0..=u8::MAX {
            cells.extend(ACCESSES.map(|access| Cell::Place(kind, number, access)));
        }
        for call in CALLS {
            for ending in ENDINGS {
                cells.extend(NOTED.map(|noted| Cell::Answer(kind, call, ending, noted)));
            }
        }
        for entry in ENTRIES {
            cells.extend(REFUSALS.map(|number| Cell::Refused(kind, entry, number)));
        }
    }
    cells
}

/// Why a cell cannot be met; none if it can. README.md has the same list.
fn impossible(cell: Cell) -> Option<&'static str> {
    match cell {
        Cell::Place(kind, number, access) => impossible_access(kind, number, access),
        Cell::Answer(kind, call, ending, noted) => impossible_answer(kind, call, ending, noted),
        Cell::Refused(kind, entry, number) => impossible_refusal(kind, entry, number),
    }
}

fn impossible_access(kind: Kind, number: u8, access: Access) -> Option<&'static str> {
    match (place(kind, number), access) {
        (None, _) => Some("there is no such place"),
        (Some(place), Access::Made) if place.is_exchange => Some("an exchange is won or lost"),
        (Some(place), Access::Won | Access::Lost) if !place.is_exchange => {
            Some("no exchange is made there")
        }
        _ => None,
    }
}

fn impossible_answer(kind: Kind, call: Call, ending: Ending, noted: Noted) -> Option<&'static str> {
    let one_look = call == Call::Locked || (kind, call) == (Kind::Plain, Call::Borrowed);
    let ended = ending != Ending::Going;
    match (call, ending, noted) {
        _ if !ENDINGS.contains(&ending) => Some("no call answers so"),
        (Call::Find | Call::Recover, ..) if kind == Kind::Plain => {
            Some("find and recover are calls of the robust set")
        }
        (_, _, Noted::Found) if call != Call::Find => Some("only find reports what it found"),
        (_, _, Noted::Freed) if call != Call::Recover => Some("only recover reports what it freed"),
        (_, Ending::Failed(1 | 2), _) if call != Call::Acquire => {
            Some("only an acquire answers 1 or 2")
        }
        (_, Ending::Failed(6), _) if (kind, call) != (Kind::Robust, Call::Release) => {
            Some("only a robust release answers 6")
        }
        (_, Ending::Failed(14), _) if (kind, call) != (Kind::Plain, Call::Release) => {
            Some("only a plain release answers 14")
        }
        (_, Ending::Going, _) if one_look => Some("the call is one look"),
        (Call::Find, Ending::DoneZero, Noted::Found) => Some("what find reports it counts"),
        (Call::Recover, _, Noted::Freed) if ended => {
            Some("a bump follows the exchange that freed an index")
        }
        _ => None,
    }
}

fn impossible_refusal(kind: Kind, entry: Entry, number: u32) -> Option<&'static str> {
    let is_plain = kind == Kind::Plain;
    match (entry, number) {
        _ if !REFUSALS.contains(&number) => Some("no call is refused so"),
        (Entry::Setup, 9 | 11 | 13 | 5 | 7 | 8) => Some("a setup names no record, call or index"),
        (Entry::Step | Entry::Drain, 5 | 7 | 8) => Some("a step is given no owner and no index"),
        (Entry::Step, 13) => Some("a step asks for no call"),
        (Entry::Drain, 13) if is_plain => Some("find and recover are calls of the robust set"),
        (Entry::List | Entry::Death, 3 | 4) => Some("no capacity is lent"),
        (Entry::List, 11 | 7 | 8) => Some("a list is written whole, and has no index"),
        (Entry::List, 5) if is_plain => Some("a plain set takes no list: 13 comes before 5"),
        (Entry::Death, 11 | 13 | 5 | 7 | 8) => Some("a death names a record only"),
        (Entry::Start, 11) if is_plain => Some("no plain call's start reads what is remembered"),
        (Entry::Start, 5) if is_plain => Some("a plain set looks at no owner"),
        (Entry::Start, 8) if !is_plain => Some("custody is the plain set's"),
        _ => None,
    }
}

pub struct Coverage {
    /// By set, place and access.
    places: Vec<u64>,
    /// Answers and refusals.
    others: BTreeMap<Cell, u64>,
}

fn place_at(kind: Kind, number: u8, access: Access) -> usize {
    (kind as usize * 256 + number as usize) * ACCESSES.len() + access as usize
}

impl Coverage {
    pub fn new() -> Self {
        Self {
            places: vec![0; KINDS.len() * 256 * ACCESSES.len()],
            others: BTreeMap::new(),
        }
    }

    /// A compared turn; the place is that of the named record before it.
    pub fn note(&mut self, expected: &Expected, place: u8) {
        let outcome = &expected.outcome;
        if let Some(made) = expected.made {
            let access = match made.won {
                None => Access::Made,
                Some(true) => Access::Won,
                Some(false) => Access::Lost,
            };
            self.places[place_at(expected.kind, place, access)] += 1;
        }
        if outcome.progress == REFUSED {
            if let Some(entry) = entry_of(&expected.op) {
                self.met(Cell::Refused(expected.kind, entry, outcome.number));
            }
            return;
        }
        if let (1.., Some(call)) = (outcome.steps, expected.call) {
            self.note_answer(expected, call);
        }
    }

    fn note_answer(&mut self, expected: &Expected, call: Call) {
        let outcome = &expected.outcome;
        let ending = match (outcome.progress, outcome.number, outcome.value) {
            (ANSWERED, 0, 0) => Ending::DoneZero,
            (ANSWERED, 0, _) => Ending::DoneAboveZero,
            (ANSWERED, number, _) => Ending::Failed(number),
            _ => Ending::Going,
        };
        let noted = match outcome.noted {
            FOUND => Noted::Found,
            FREED => Noted::Freed,
            _ => Noted::Nothing,
        };
        self.met(Cell::Answer(expected.kind, call, ending, noted));
    }

    fn met(&mut self, cell: Cell) {
        *self.others.entry(cell).or_default() += 1;
    }

    fn count(&self, cell: Cell) -> u64 {
        match cell {
            Cell::Place(kind, number, access) => self.places[place_at(kind, number, access)],
            cell => self.others.get(&cell).copied().unwrap_or(0),
        }
    }

    fn is_missing(&self, cell: Cell) -> bool {
        self.count(cell) == 0 && impossible(cell).is_none()
    }

    /// The places and answers that could have been met and were not.
    pub fn places_and_answers_missing(&self) -> Vec<String> {
        let mut cells = all_cells();
        cells.retain(|cell| !matches!(cell, Cell::Refused(..)) && self.is_missing(*cell));
        cells.iter().map(Cell::to_string).collect()
    }

    /// A line for each cell that is empty and can be met, or is met and cannot be.
    pub fn wrong(&self) -> Vec<String> {
        let mut cells = all_cells();
        let further = self.others.keys().filter(|cell| !cells.contains(cell));
        cells.extend(further.copied().collect::<Vec<_>>());
        let wrong = |cell| match (self.count(cell), impossible(cell)) {
            (0, None) => Some(format!("never met: {cell}")),
            (1.., Some(why)) => Some(format!("met, though {why}: {cell}")),
            _ => None,
        };
        cells.into_iter().filter_map(wrong).collect()
    }

    pub fn print(&self) {
        println!(
            "\nWhat was met, and how often. - cannot be met: README.md says why. ! fails the run.\n"
        );
        for kind in KINDS {
            println!("The {} set\n", set_name(kind));
            println!("{}", self.places_table(kind));
            println!("{}", self.answers_table(kind));
            println!("{}", self.refusals_table(kind));
        }
    }

    fn places_table(&self, kind: Kind) -> Table {
        let heads = ACCESSES.map(|access| access_name(access).to_string());
        let mut table = Table::new(row("places", heads));
        for place in places(kind) {
            let name = format!("{:>3}  {}", place.number, place.name);
            let cells = ACCESSES.map(|access| self.shown(Cell::Place(kind, place.number, access)));
            table.row(row(&name, cells));
        }
        table
    }

    fn answers_table(&self, kind: Kind) -> Table {
        let heads = ANSWERS.map(|(name, ..)| name.to_string());
        let mut table = Table::new(row("answers", heads));
        for call in CALLS {
            let cells = ANSWERS
                .map(|(_, ending, noted)| self.shown(Cell::Answer(kind, call, ending, noted)));
            table.row(row(call_name(call), cells));
        }
        table
    }

    fn refusals_table(&self, kind: Kind) -> Table {
        let heads = REFUSALS.map(|number| number.to_string());
        let mut table = Table::new(row("refusals", heads));
        for entry in ENTRIES {
            let cells = REFUSALS.map(|number| self.shown(Cell::Refused(kind, entry, number)));
            table.row(row(entry_name(entry), cells));
        }
        table
    }

    fn shown(&self, cell: Cell) -> String {
        match (self.count(cell), impossible(cell)) {
            (0, None) => "0 !".to_string(),
            (0, Some(_)) => "-".to_string(),
            (count, None) => count.to_string(),
            (count, Some(_)) => format!("{count} !"),
        }
    }
}

fn row<const N: usize>(name: &str, cells: [String; N]) -> Vec<String> {
    let mut row = vec![name.to_string()];
    row.extend(cells);
    row
}

fn entry_of(op: &Op) -> Option<Entry> {
    match op {
        Op::Setup { .. } => Some(Entry::Setup),
        Op::Start { .. } => Some(Entry::Start),
        Op::Step { .. } => Some(Entry::Step),
        Op::Drain { .. } => Some(Entry::Drain),
        Op::List { .. } => Some(Entry::List),
        Op::Death { .. } => Some(Entry::Death),
        _poke => None,
    }
}
