//! An outcome's numbers read. What the answer's value is depends on the call that was answered.

use crate::kinds::{Index, Owner, ReleaseState};
use crate::raw::Outcome;
use crate::reports::{AcquireFailure, Answer, Error, Noted, Progress, Refusal, Turn};

/// The calls of both sets, with their numbers in the header.
#[derive(Clone, Copy, PartialEq, Eq, Debug)]
pub enum Call {
    Acquire = 1,
    Release = 2,
    BorrowedIndices = 3,
    IsLocked = 4,
    Find = 5,
    Recover = 6,
}

pub fn turn(outcome: Outcome, call: Option<Call>) -> Result<Turn, Error> {
    let read = progress(outcome, call).zip(noted(outcome));
    let (progress, noted) = read.ok_or(Error::Unreadable(outcome))?;
    Ok(Turn {
        progress,
        noted,
        steps: outcome.steps,
    })
}

fn progress(outcome: Outcome, call: Option<Call>) -> Option<Progress> {
    match outcome.progress {
        0 => Some(Progress::Accepted),
        1 => answer(call?, outcome.number, outcome.value).map(Progress::Answered),
        2 => Refusal::from_number(outcome.number).map(Progress::Refused),
        _ => None,
    }
}

fn answer(call: Call, number: u32, value: u32) -> Option<Answer> {
    match (call, number) {
        (Call::Acquire, 0) => Some(Answer::Acquired(Index(value))),
        (Call::Acquire, 1) => Some(Answer::NotAcquired(AcquireFailure::OutOfIndices)),
        (Call::Acquire, 2) => Some(Answer::NotAcquired(AcquireFailure::IsLocked)),
        (Call::Release, 0) => release_state(value).map(Answer::Released),
        (Call::Release, 6) => Some(Answer::NotOwned),
        (Call::Release, 14) => Some(Answer::NotBorrowed),
        (Call::BorrowedIndices, 0) => Some(Answer::Borrowed(value)),
        (Call::IsLocked, 0) => truth(value).map(Answer::Locked),
        (Call::Find, 0) => Some(Answer::Found(value)),
        (Call::Recover, 0) => release_state(value).map(Answer::Recovered),
        _ => None,
    }
}

fn truth(value: u32) -> Option<bool> {
    match value {
        0 => Some(false),
        1 => Some(true),
        _ => None,
    }
}

fn release_state(value: u32) -> Option<ReleaseState> {
    truth(value).map(|locked| match locked {
        false => ReleaseState::Unlocked,
        true => ReleaseState::Locked,
    })
}

fn noted(outcome: Outcome) -> Option<Noted> {
    let index = Index(outcome.noted_index);
    match outcome.noted {
        0 => Some(Noted::Nothing),
        1 => Some(Noted::Found(index)),
        2 => Owner::new(outcome.noted_owner)
            .ok()
            .map(|owner| Noted::Freed(index, owner)),
        _ => None,
    }
}

#[cfg(test)]
mod tests {
    use super::*;

    fn outcome(progress: u32, number: u32, value: u32) -> Outcome {
        Outcome {
            progress,
            number,
            value,
            ..Outcome::default()
        }
    }

    fn is_unreadable(outcome: Outcome, call: Option<Call>) -> bool {
        matches!(turn(outcome, call), Err(Error::Unreadable(of)) if of == outcome)
    }

    #[test]
    fn numbers_without_a_meaning_are_an_error() {
        assert!(is_unreadable(outcome(3, 0, 0), None));
        assert!(is_unreadable(outcome(1, 0, 0), None));
        assert!(is_unreadable(outcome(1, 6, 0), Some(Call::Acquire)));
        assert!(is_unreadable(outcome(1, 0, 2), Some(Call::Release)));
        for number in [0, 1, 2, 6, 12, 14, 15] {
            assert!(is_unreadable(outcome(2, number, 0), None));
        }
        let freed_of_nobody = Outcome {
            noted: 2,
            noted_owner: u64::MAX,
            ..Outcome::default()
        };
        assert!(is_unreadable(freed_of_nobody, Some(Call::Recover)));
    }

    #[test]
    fn an_answer_keeps_its_number() {
        let calls = [
            Call::Acquire,
            Call::Release,
            Call::BorrowedIndices,
            Call::IsLocked,
            Call::Find,
            Call::Recover,
        ];
        for (call, number) in calls
            .into_iter()
            .flat_map(|call| (0..20).map(move |n| (call, n)))
        {
            if let Some(answer) = answer(call, number, 1) {
                assert_eq!(answer.number(), number);
            }
        }
    }

    #[test]
    fn a_refusal_keeps_its_number() {
        for number in [3, 4, 5, 7, 8, 9, 10, 11, 13] {
            assert_eq!(
                Refusal::from_number(number).map(Refusal::number),
                Some(number)
            );
        }
    }
}
