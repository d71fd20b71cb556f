//! Custody and answer 14, which a trace does not show.
//!
//! 14: a release in progress, or an index that may be released, stands
//! for an acquire whose exchange counted it as borrowed. So the count is at
//! least 1 at each release look, and a release that locks was the only one.
//! Indices granted twice, as in `two_holders`, only add to the count, and to
//! reach the lock mark by them would take a schedule of no sensible length. So
//! 14 is shown here on words written by hand.

use crate::kinds::{After, Answer, Call, Index, Mode, Owner, Request};
use crate::plain::{Custody, Place, PlainSet, Word};
use crate::table::IndexSet;

const LOCKED: Word = Word(0x0000_0000_00FF_FFFF);
const NONE_BORROWED: Word = Word(0);
const OVER: (Option<crate::kinds::Report>, After<Place>) =
    (None, After::Answers(Answer::NothingBorrowed));

#[test]
fn a_release_look_that_finds_none_borrowed_or_the_lock() {
    for word in [NONE_BORROWED, LOCKED] {
        let mut set = PlainSet::new(1);
        set.word = word;
        set.custody[0] = Custody::Held(3);
        let request = Request {
            call: 2,
            index_or_room: 0,
            owner: Owner(0),
            mode: 1,
        };
        let place = set.start(3, Call::Release, &request).unwrap();
        assert_eq!(set.custody[0], Custody::BeingGivenBack(3));
        assert_eq!(set.step(3, place, &[]), OVER);
        assert_eq!(set.custody[0], Custody::Held(3));
        assert_eq!(set.word, word);
        assert_eq!(set.slots, [Index(1), Index(2)]);
    }
}

#[test]
fn a_release_exchange_that_lost_is_such_a_look() {
    for word in [NONE_BORROWED, LOCKED] {
        let mut set = PlainSet::new(1);
        set.word = word;
        set.custody[0] = Custody::Free;
        let place = Place::ReleaseExchange {
            index: Index(0),
            mode: Mode::Default,
            seen: Word(1),
        };
        assert_eq!(set.step(3, place, &[]), OVER);
        assert_eq!(set.custody[0], Custody::Held(3));
        assert_eq!(set.word, word);
    }
}

#[test]
fn one_borrowed_and_one_below_the_lock_mark_go_on() {
    for word in [Word(1), Word(0x00FF_FFFE)] {
        let mut set = PlainSet::new(1);
        set.word = word;
        let (index, mode, seen) = (Index(0), Mode::Default, word);
        let next = Place::ReleaseWrite { index, mode, seen };
        let look = Place::ReleaseLook { index, mode };
        assert_eq!(set.step(3, look, &[]), (None, After::GoesOn(next)));
    }
}

#[test]
fn the_numbers() {
    assert_eq!(Answer::Done(9).numbers(), (0, 9));
    assert_eq!(Answer::OutOfIndices.numbers(), (1, 0));
    assert_eq!(Answer::Locked.numbers(), (2, 0));
    assert_eq!(Answer::NotOwned.numbers(), (6, 0));
    assert_eq!(Answer::NothingBorrowed.numbers(), (14, 0));
}

#[test]
fn exchanges_and_the_last_write_mark_custody_whatever_stood_there() {
    for stood in [
        Custody::Free,
        Custody::BeingGranted(5),
        Custody::Held(5),
        Custody::BeingGivenBack(5),
    ] {
        let mut set = PlainSet::new(1);
        let (seen, following) = (Word(0), Index(1));
        let (index, mode) = (Index(0), Mode::Default);

        set.custody[0] = stood;
        set.step(3, Place::AcquireExchange { seen, following }, &[]);
        assert_eq!(set.custody[0], Custody::BeingGranted(3));

        set.custody[0] = stood;
        set.step(3, Place::AcquireWrite { won: index }, &[]);
        assert_eq!(set.custody[0], Custody::Held(3));

        set.custody[0] = stood;
        let seen = set.word;
        set.step(3, Place::ReleaseExchange { index, mode, seen }, &[]);
        assert_eq!(set.custody[0], Custody::Free);
    }
}
