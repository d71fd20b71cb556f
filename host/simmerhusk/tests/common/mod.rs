//! What the sheets of both sets do with a dock.

use simmerhusk::{
    Answer, Error, Index, PlainCall, PlainDock, Progress, RecordNumber, RecordState, RobustCall,
    RobustDock, Turn,
};

/// A dock of either set.
pub trait Moved {
    type Call;
    fn begin(&mut self, who: RecordNumber, call: Self::Call) -> Result<Progress, Error>;
    fn go_on(&mut self, who: RecordNumber) -> Result<Turn, Error>;
    fn state(&self, who: RecordNumber) -> Option<RecordState>;
}

impl Moved for PlainDock {
    type Call = PlainCall;
    fn begin(&mut self, who: RecordNumber, call: PlainCall) -> Result<Progress, Error> {
        self.start(who, call)
    }
    fn go_on(&mut self, who: RecordNumber) -> Result<Turn, Error> {
        self.step(who)
    }
    fn state(&self, who: RecordNumber) -> Option<RecordState> {
        self.record_state(who)
    }
}

impl Moved for RobustDock {
    type Call = RobustCall;
    fn begin(&mut self, who: RecordNumber, call: RobustCall) -> Result<Progress, Error> {
        self.start(who, call)
    }
    fn go_on(&mut self, who: RecordNumber) -> Result<Turn, Error> {
        self.step(who)
    }
    fn state(&self, who: RecordNumber) -> Option<RecordState> {
        self.record_state(who)
    }
}

pub fn start<D: Moved>(dock: &mut D, who: RecordNumber, call: D::Call) -> Result<(), Error> {
    assert_eq!(dock.begin(who, call)?, Progress::Accepted);
    assert_eq!(dock.state(who), Some(RecordState::Calling));
    Ok(())
}

/// Steps that have no answer yet.
pub fn steps<D: Moved>(dock: &mut D, who: RecordNumber, count: u32) -> Result<(), Error> {
    for _ in 0..count {
        let turn = dock.go_on(who)?;
        assert_eq!((turn.progress, turn.steps), (Progress::Accepted, 1));
    }
    Ok(())
}

/// The step that ends a call.
pub fn last_step<D: Moved>(dock: &mut D, who: RecordNumber, answer: Answer) -> Result<(), Error> {
    assert_eq!(dock.go_on(who)?.progress, Progress::Answered(answer));
    assert_eq!(dock.state(who), Some(RecordState::Idle));
    Ok(())
}

/// A whole call that takes this many steps.
pub fn call<D: Moved>(
    dock: &mut D,
    who: RecordNumber,
    call: D::Call,
    count: u32,
    answer: Answer,
) -> Result<(), Error> {
    start(dock, who, call)?;
    steps(dock, who, count - 1)?;
    last_step(dock, who, answer)
}

pub fn acquired(index: u32) -> Answer {
    Answer::Acquired(Index(index))
}
