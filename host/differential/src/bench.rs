//! The oracle, the shadow of the dock beside it, and where each turn's expectation goes: to the port to be
//! compared, or into a recording.

use oracle_paused::{Access, Answer, Call, Ending, LIST_LIMIT, Moved, Oracle, Report, Request};
use simmerhusk::raw::{Buffers, Dock, Op, Outcome, RECORD_BYTES, WHOLE_LIMIT};

use crate::comparer::{Comparer, who_of};
use crate::expected::{
    ACCEPTED, ANSWERED, Contents, Expected, FOUND, FREED, Made, Named, REFUSED, digest,
};
use crate::places::call_at;
use crate::record_bytes::{RecordBytes, write_list};
use crate::recording::Recording;
use crate::refusals::refusal;
use crate::shadow::{Damaged, Kind, Life, List, Shadow, call_of};
use crate::words::{FREE, LOCKED, borrowed_of, giving, granting, head_of, held};

pub enum Sink {
    Port(Box<Comparer>),
    File(Recording),
}

pub struct Bench {
    pub oracle: Oracle,
    pub shadow: Shadow,
    sink: Sink,
    /// What is compared by itself, and what is yet to be: accepted starts and steps, and drains that made
    /// steps.
    pub compared: u64,
}

/// A dock as a setup leaves it.
pub fn fresh(kind: Kind, capacity: u32, records: usize) -> Dock {
    let buffers = match kind {
        Kind::Plain => Buffers::Plain {
            slots: (1..=capacity + 1).collect(),
            custody: vec![FREE; capacity as usize],
        },
        Kind::Robust => Buffers::Robust {
            cells: vec![u64::MAX; capacity as usize],
        },
    };
    Dock {
        capacity,
        word: 0,
        buffers,
        records: vec![0; records * RECORD_BYTES],
    }
}

pub fn start(who: u8, call: u8, index_or_room: u32, owner: u64, mode: u8) -> Op {
    Op::Start {
        who,
        call,
        index_or_room,
        owner,
        mode,
    }
}

fn refused(number: u32) -> Outcome {
    Outcome {
        progress: REFUSED,
        number,
        ..Outcome::default()
    }
}

fn answered(answer: Answer, steps: u32) -> Outcome {
    Outcome {
        progress: ANSWERED,
        number: answer.number,
        value: answer.value,
        steps,
        ..Outcome::default()
    }
}

fn note(outcome: &mut Outcome, report: Option<Report>) {
    match report {
        None => {}
        Some(Report::Found { index }) => {
            outcome.noted = FOUND;
            outcome.noted_index = index;
        }
        Some(Report::Freed { index, owner }) => {
            outcome.noted = FREED;
            outcome.noted_index = index;
            outcome.noted_owner = owner;
        }
    }
}

impl Bench {
    pub fn new(sink: Sink) -> Self {
        let dock = fresh(Kind::Plain, 1, 1);
        Self {
            oracle: Oracle::plain(1),
            shadow: Shadow::of(&dock),
            sink,
            compared: 0,
        }
    }

    /// A scene begins with this dock, on both sides. Its records are idle.
    pub fn load(&mut self, title: &str, dock: &Dock) {
        self.shadow = Shadow::of(dock);
        if self.shadow.own_entries() > 0 {
            self.renew_oracle();
            self.oracle.poke_word(dock.word);
            match &dock.buffers {
                Buffers::Plain { slots, .. } => {
                    let own = self.oracle.slots().len();
                    self.oracle.slots_mut().copy_from_slice(&slots[..own]);
                }
                Buffers::Robust { cells } => {
                    let own = self.oracle.cells().len();
                    self.oracle.cells_mut().copy_from_slice(&cells[..own]);
                }
            }
        }
        match &mut self.sink {
            Sink::Port(comparer) => comparer.load(title, dock),
            Sink::File(recording) => recording.setup(self.shadow.kind, dock),
        }
    }

    fn renew_oracle(&mut self) {
        match self.shadow.kind {
            Kind::Plain => self.oracle.renew_plain(self.shadow.capacity),
            Kind::Robust => self.oracle.renew_robust(self.shadow.capacity),
        }
    }

    pub fn comparer(&mut self) -> &mut Comparer {
        match &mut self.sink {
            Sink::Port(comparer) => comparer,
            Sink::File(_) => panic!("a recording compares nothing"),
        }
    }

    pub fn recording(&self) -> &Recording {
        match &self.sink {
            Sink::Port(_) => panic!("nothing is recorded"),
            Sink::File(recording) => recording,
        }
    }

    pub fn word(&self) -> u64 {
        match self.shadow.own_entries() {
            0 => self.shadow.word_alone,
            _ => self.oracle.word(),
        }
    }

    /// Makes a turn on the Rust's side, and asks the port for the same.
    pub fn make(&mut self, op: Op) -> Outcome {
        let turn = match refusal(&self.shadow, &op) {
            Some(number) => Turn {
                outcome: refused(number),
                ..Turn::quiet(Named::Same)
            },
            None => self.accepted(&op),
        };
        self.expect(op, turn)
    }

    /// An op while a record is damaged. A refused one, a setup, and one on another record are compared as
    /// ever; of what a damaged record makes of an accepted one the scope says all but for steps, of which the
    /// Rust knows nothing: the scene ends there. True if it goes on.
    pub fn make_damaged(&mut self, op: Op) -> bool {
        let named = match (refusal(&self.shadow, &op), &self.shadow.damaged) {
            (None, Some(damaged)) if who_of(&op) == Some(damaged.who) => {
                let (who, bytes) = (damaged.who, damaged.bytes);
                self.named_damaged(&op, who, bytes)
            }
            _ => None,
        };
        match named {
            Some(named) => self.expect(op, Turn::quiet(named)),
            None => self.make(op),
        };
        !matches!(named, Some(Named::Adrift(..)))
    }

    /// A damaged record after an accepted op; none if it is then as sound as any.
    fn named_damaged(&mut self, op: &Op, who: u8, mut bytes: [u8; RECORD_BYTES]) -> Option<Named> {
        let record = RecordBytes::of(&bytes);
        let list = record.list();
        match op {
            // What an idle record remembers is not read, and its list is carried on.
            Op::Start { .. } => {
                self.oracle.abandon(who);
                self.shadow.lives[who as usize] = Life::Idle;
                self.shadow.lists[who as usize] = list;
                self.shadow.damaged = None;
                return None;
            }
            Op::Death { .. } => bytes[0] = 1,
            Op::List { owners, .. } => write_list(&mut bytes, List::of(owners)),
            Op::Drain { budget: 0, .. } => {}
            _steps => {
                let call = call_at(self.shadow.kind, record.place()).expect("a call's place");
                return Some(Named::Adrift(call, list));
            }
        }
        self.shadow.damaged = Some(Damaged { who, bytes });
        Some(Named::Bytes(bytes))
    }

    fn expect(&mut self, op: Op, turn: Turn) -> Outcome {
        let outcome = turn.outcome;
        let starts = matches!(op, Op::Start { .. }) && outcome.progress != REFUSED;
        let compared = u64::from(starts || outcome.steps > 0);
        let within_drain = match op {
            Op::Drain { .. } => u64::from(outcome.steps),
            _ => 0,
        };
        self.compared += compared;
        let call = match &op {
            Op::Start { call, .. } => call_of(*call),
            _ => turn.call,
        };
        let contents = self.contents();
        let expected = Expected {
            op,
            outcome,
            compared,
            within_drain,
            kind: self.shadow.kind,
            capacity: self.shadow.capacity,
            word: self.word(),
            contents,
            named: turn.named,
            call,
            made: turn.made,
        };
        match &mut self.sink {
            Sink::Port(comparer) => comparer.expect(expected),
            Sink::File(recording) => {
                recording.turn(&expected, self.oracle.slots(), self.oracle.cells());
            }
        }
        outcome
    }

    fn contents(&mut self) -> Contents {
        let own = self.shadow.own_entries();
        let (slots, cells) = match own {
            0 => ([].as_slice(), [].as_slice()),
            _ => (self.oracle.slots(), self.oracle.cells()),
        };
        let shadow = &self.shadow;
        if shadow.lent + shadow.custody.len() > WHOLE_LIMIT {
            let slots = slots.iter().chain(&shadow.slots_beyond);
            let cells = cells.iter().chain(&shadow.cells_beyond);
            let custody = shadow.custody.iter();
            return Contents::Digests(match shadow.kind {
                Kind::Plain => [
                    digest(slots.flat_map(|slot| slot.to_le_bytes())),
                    digest(custody.flat_map(|entry| entry.to_le_bytes())),
                ],
                Kind::Robust => [digest(cells.flat_map(|cell| cell.to_le_bytes())), 0],
            });
        }
        match &mut self.sink {
            Sink::Port(comparer) => Contents::Whole {
                slots: comparer.keep_short(slots, &shadow.slots_beyond),
                custody: comparer.keep_short(&shadow.custody, &[]),
                cells: comparer.keep_long(cells, &shadow.cells_beyond),
            },
            Sink::File(_) => Contents::Digests([0, 0]),
        }
    }

    fn accepted(&mut self, op: &Op) -> Turn {
        match op {
            Op::Setup { asked } => self.set_up(*asked),
            Op::Start { who, .. } => self.enter(*who, op),
            Op::Step { who } => self.step(*who),
            Op::Drain { who, budget } => self.drain(*who, *budget),
            Op::List { who, owners } => {
                let list = List::of(owners);
                self.shadow.lists[*who as usize] = list;
                Turn::quiet(Named::Listed(list))
            }
            Op::Death { who } => {
                self.oracle.abandon(*who);
                self.shadow.lives[*who as usize] = Life::Dead;
                Turn::quiet(Named::Dead)
            }
            poke => self.poke(poke),
        }
    }

    fn set_up(&mut self, asked: u32) -> Turn {
        let shadow = &mut self.shadow;
        // What was the set's own, and is beyond the new one, is lent as it stands.
        let mut slots = Vec::new();
        let mut cells = Vec::new();
        if shadow.own_entries() > 0 {
            slots.extend_from_slice(self.oracle.slots());
            cells.extend_from_slice(self.oracle.cells());
        }
        slots.extend_from_slice(&shadow.slots_beyond);
        cells.extend_from_slice(&shadow.cells_beyond);
        let own = shadow.entries_for(asked);
        shadow.capacity = asked;
        shadow.slots_beyond = slots.get(own..).unwrap_or(&[]).to_vec();
        shadow.cells_beyond = cells.get(own..).unwrap_or(&[]).to_vec();
        if shadow.kind == Kind::Plain {
            shadow.custody[..asked as usize].fill(FREE);
        }
        shadow.lives.fill(Life::Idle);
        shadow.lists.fill(List::default());
        shadow.damaged = None;
        self.renew_oracle();
        Turn::quiet(Named::AllIdle)
    }

    fn enter(&mut self, who: u8, op: &Op) -> Turn {
        let Op::Start {
            call,
            index_or_room,
            owner,
            mode,
            ..
        } = *op
        else {
            unreachable!("only a start enters a call");
        };
        let call = call_of(call).expect("an accepted call");
        let list = self.shadow.lists[who as usize];
        let request = Request {
            call,
            index_or_room,
            owner,
            mode,
            // A bad list is carried on, and read by no call that is accepted.
            listed: list.count.min(LIST_LIMIT as u8),
            list: list.owners,
        };
        let ending = self.oracle.start(who, request);
        self.shadow.lives[who as usize] = Life::Calling(request);
        if self.shadow.kind == Kind::Plain && call == Call::Release {
            self.shadow.custody[index_or_room as usize] = giving(who);
        }
        let named = match (ending, self.oracle.pending(who)) {
            (None, Some(access)) => Named::Before(call, access, list),
            _ => self.stop("the Rust's call ended before its first access"),
        };
        Turn {
            call: Some(call),
            ..Turn::quiet(named)
        }
    }

    fn step(&mut self, who: u8) -> Turn {
        let request = self.shadow.request(who).expect("a call under way");
        let moved = self.oracle.step(who);
        let answer = self.after_step(who, &request, &moved);
        let mut turn = self.after_steps(who, request.call, answer, 1);
        note(&mut turn.outcome, moved.report);
        turn.made = Some(Made {
            access: moved.access,
            won: moved.won,
        });
        turn
    }

    fn drain(&mut self, who: u8, budget: u32) -> Turn {
        let request = self.shadow.request(who).expect("a call under way");
        let mut taken = 0;
        let mut answer = None;
        while answer.is_none() && taken < budget {
            let moved = self.oracle.step(who);
            answer = self.after_step(who, &request, &moved);
            taken += 1;
        }
        self.after_steps(who, request.call, answer, taken)
    }

    fn after_steps(&mut self, who: u8, call: Call, answer: Option<Answer>, steps: u32) -> Turn {
        let list = self.shadow.lists[who as usize];
        let Some(answer) = answer else {
            let access = self.oracle.pending(who).expect("a call under way");
            return Turn {
                outcome: Outcome {
                    progress: ACCEPTED,
                    steps,
                    ..Outcome::default()
                },
                named: Named::Before(call, access, list),
                made: None,
                call: Some(call),
            };
        };
        self.shadow.lives[who as usize] = Life::Idle;
        if call == Call::Recover {
            self.shadow.lists[who as usize] = List::default();
        }
        Turn {
            outcome: answered(answer, steps),
            named: Named::Idle(self.shadow.lists[who as usize]),
            made: None,
            call: Some(call),
        }
    }

    /// Custody by the scope's rules, and the call's answer, if this step gave it.
    fn after_step(&mut self, who: u8, request: &Request, moved: &Moved) -> Option<Answer> {
        let answer = match moved.ending {
            None => None,
            Some(Ending::Answer(answer)) => Some(answer),
            Some(Ending::Panic) => self.stop("the Rust panicked"),
        };
        if self.shadow.kind == Kind::Robust {
            return answer;
        }
        let won = moved.won == Some(true);
        match (request.call, moved.access, answer) {
            (Call::Acquire, Access::ExchangeWord { expected, .. }, _) if won => {
                self.mark(head_of(expected), granting(who));
            }
            (Call::Acquire, _, Some(Answer { number: 0, value })) => self.mark(value, held(who)),
            (Call::Release, Access::ExchangeWord { .. }, _) if won => {
                self.mark(request.index_or_room, FREE);
            }
            (Call::Release, Access::LookWord | Access::ExchangeWord { .. }, None) => {
                return self.judged_look(who, request.index_or_room);
            }
            _ => {}
        }
        answer
    }

    fn mark(&mut self, index: u32, entry: u32) {
        match self.shadow.custody.get_mut(index as usize) {
            Some(custody) => *custody = entry,
            None => self.stop("the Rust works on an index beyond the capacity"),
        }
    }

    /// A listed difference: a release look that finds borrowed 0 or locked ends with 14; the Rust's call,
    /// which would subtract from it, is abandoned there.
    fn judged_look(&mut self, who: u8, index: u32) -> Option<Answer> {
        let borrowed = borrowed_of(self.oracle.word());
        if borrowed != 0 && borrowed != LOCKED {
            return None;
        }
        self.oracle.abandon(who);
        self.mark(index, held(who));
        Some(Answer {
            number: 14,
            value: 0,
        })
    }

    fn poke(&mut self, op: &Op) -> Turn {
        match op {
            Op::PokeWord(word) => self.oracle.poke_word(*word),
            Op::PokeSlot(slot, value) => self.oracle.slots_mut()[*slot as usize] = *value,
            Op::PokeCell(cell, value) => self.oracle.cells_mut()[*cell as usize] = *value,
            Op::PokeCustody(index, entry) => self.shadow.custody[*index as usize] = *entry,
            Op::PokeRecords(..) => return Turn::quiet(Named::Poked),
            call => panic!("{call:?} is no poke"),
        }
        Turn::quiet(Named::Same)
    }

    /// Writes a record's bytes; it is gone by them until they are mended.
    pub fn damage(&mut self, who: u8, bytes: [u8; RECORD_BYTES]) {
        let at = u32::from(who) * RECORD_BYTES as u32;
        self.shadow.damaged = Some(Damaged { who, bytes });
        self.make(Op::PokeRecords(at, bytes.to_vec()));
    }

    /// Writes the bytes that a damaged record had before.
    pub fn mend(&mut self, who: u8, bytes: [u8; RECORD_BYTES]) {
        self.damage(who, bytes);
        self.shadow.damaged = None;
    }

    /// A difference that shows on the Rust's side alone.
    fn stop(&mut self, why: &str) -> ! {
        match &mut self.sink {
            Sink::Port(comparer) => comparer.stop(why),
            Sink::File(_) => panic!("{why}"),
        }
    }
}

/// What an accepted op comes to.
struct Turn {
    outcome: Outcome,
    named: Named,
    made: Option<Made>,
    call: Option<Call>,
}

impl Turn {
    fn quiet(named: Named) -> Self {
        Self {
            outcome: Outcome::default(),
            named,
            made: None,
            call: None,
        }
    }
}
