//! the scope's bench sheet, and what it says beside it is run and compared.

use super::{text, Schedule, PLAIN, ROBUST};
use crate::format::{first_entry, Entry};
use crate::kinds::{After, Answer, Generation, Index, Owner};
use crate::plain::{Place, PlainSet, Word};
use crate::robust;
use crate::table::{IndexSet, Table};

/// The plain set after a schedule, for its slots.
fn plain_slots(capacity: u32, schedule: &Schedule) -> Vec<u32> {
    let (_, mut rest) = first_entry(&schedule.0).unwrap();
    let mut table = Table::new(PlainSet::new(capacity), 16);
    while let Some((Entry::Turn { record, action }, after)) = first_entry(rest) {
        let _ = table.turn(record, action);
        rest = after;
    }
    table.set.slots.iter().map(|slot| slot.0).collect()
}

#[test]
fn first_acquire_byte_for_byte() {
    #[rustfmt::skip]
    let schedule = [
        8, 0, 1, 0, 0, 1, 1, 0, 0, 0,
        17, 0, 2, 0, 0, 1, 0, 0, 0, 0, 0, 0, 0, 0, 0, 0, 0, 0, 0,
        3, 0, 3, 0, 0,
        3, 0, 3, 0, 0,
        3, 0, 3, 0, 0,
        3, 0, 3, 0, 0,
    ];
    let expected = b"set plain 1 1\n\
        0 0 begin\n\
        1 0 step\n\
        2 0 step\n\
        3 0 step\n\
        4 0 done 0 0\n\
        end 0000010001000001 1 4\n";
    assert_eq!(crate::trace(&schedule), expected);
    assert_eq!(
        Schedule::new(PLAIN, 1, 1).acquire(0, 0).steps(0, 4).0,
        schedule
    );
}

#[test]
fn p1_fresh() {
    let fresh = Schedule::new(PLAIN, 3, 1);
    fresh.shows(&["set plain 3 1", "end 0000000000000000 0 0"]);
    assert_eq!(plain_slots(3, &fresh), [1, 2, 3, 4]);
}

#[test]
fn p2_acquire() {
    let p2 = Schedule::new(PLAIN, 3, 1).acquire(0, 0).steps(0, 4);
    p2.shows(&[
        "set plain 3 1",
        "0 0 begin",
        "1-3 0 step",
        "4 0 done 0 0",
        "end 0000010001000001 1 4",
    ]);
    assert_eq!(plain_slots(3, &p2), [4, 2, 3, 4]);
}

#[test]
fn p2_capacity_plus_one_is_written_after_the_exchange() {
    let cut = Schedule::new(PLAIN, 3, 1).acquire(0, 0).steps(0, 3);
    cut.shows(&[
        "set plain 3 1",
        "0 0 begin",
        "1-3 0 step",
        "end 0000010001000001 0 3",
    ]);
    assert_eq!(plain_slots(3, &cut), [1, 2, 3, 4]);
}

#[test]
fn p4_release_locks() {
    let p2 = Schedule::new(PLAIN, 3, 1).acquire(0, 0).steps(0, 4);
    let p4 = p2.release(0, 0, 0, 1).steps(0, 3);
    assert_eq!(plain_slots(3, &p4), [1, 2, 3, 4]);
    p4.acquire(0, 0)
        .steps(0, 1)
        .borrowed(0)
        .steps(0, 1)
        .locked(0)
        .steps(0, 1)
        .shows(&[
            "set plain 3 1",
            "0 0 begin",
            "1-3 0 step",
            "4 0 done 0 0",
            "5 0 begin",
            "6-7 0 step",
            "8 0 done 0 1",
            "9 0 begin",
            "10 0 done 2 0",
            "11 0 begin",
            "12 0 done 0 0",
            "13 0 begin",
            "14 0 done 0 1",
            "end 0000000002FFFFFF 1 10",
        ]);
}

#[test]
fn p5_out_of_indices() {
    let p5 = Schedule::new(PLAIN, 1, 1)
        .acquire(0, 0)
        .steps(0, 4)
        .acquire(0, 0)
        .steps(0, 1);
    p5.shows(&[
        "set plain 1 1",
        "0 0 begin",
        "1-3 0 step",
        "4 0 done 0 0",
        "5 0 begin",
        "6 0 done 1 0",
        "end 0000010001000001 1 5",
    ]);
    assert_eq!(plain_slots(1, &p5), [2, 2]);
}

#[test]
fn p6_the_tag_wraps() {
    let mut set = PlainSet::new(3);
    set.word = Word(0x0000_00FF_FF00_0000);
    let mut place = Place::AcquireLook;
    for _ in 0..3 {
        match set.step(0, place, &[]) {
            (None, After::GoesOn(next)) => place = next,
            other => panic!("{other:?}"),
        }
    }
    assert_eq!(set.word, Word(0x0000_0100_0000_0001));
    let last = set.step(0, place, &[]);
    assert_eq!(last, (None, After::Answers(Answer::Done(0))));
}

#[test]
fn p8_a_lost_exchange_is_a_look() {
    let p8 = Schedule::new(PLAIN, 2, 2)
        .acquire(0, 0)
        .steps(0, 2)
        .acquire(1, 0)
        .steps(1, 4)
        .steps(0, 4);
    p8.shows(&[
        "set plain 2 2",
        "0 0 begin",
        "1-2 0 step",
        "3 1 begin",
        "4-6 1 step",
        "7 1 done 0 0",
        "8-10 0 step",
        "11 0 done 0 1",
        "end 0000020002000002 2 10",
    ]);
    assert_eq!(plain_slots(2, &p8), [3, 3, 3]);
}

fn r1() -> Schedule {
    Schedule::new(ROBUST, 2, 1).acquire(0, 313).steps(0, 4)
}

#[test]
fn r1_acquire() {
    r1().shows(&[
        "set robust 2 1",
        "0 0 begin",
        "1-3 0 step",
        "4 0 done 0 0",
        "end 0000000000000001 1 4",
    ]);
}

#[test]
fn r2_released_by_another_owner() {
    r1().release(0, 0, 314, 0)
        .steps(0, 1)
        .find(0, 1, 313)
        .steps(0, 1)
        .shows(&[
            "set robust 2 1",
            "0 0 begin",
            "1-3 0 step",
            "4 0 done 0 0",
            "5 0 begin",
            "6 0 done 6 0",
            "7 0 begin",
            "8 0 found 0",
            "8 0 done 0 1",
            "end 0000000000000001 1 6",
        ]);
}

#[test]
fn r3_release_locks() {
    Schedule::new(ROBUST, 1, 1)
        .acquire(0, 313)
        .steps(0, 4)
        .release(0, 0, 313, 1)
        .steps(0, 9)
        .shows(&[
            "set robust 1 1",
            "0 0 begin",
            "1-3 0 step",
            "4 0 done 0 0",
            "5 0 begin",
            "6-13 0 step",
            "14 0 done 0 1",
            "end FFFFFFFFFFFFFFFF 1 13",
        ]);
}

/// Record 0 is owner 7, record 1 is owner 8.
fn r5() -> Schedule {
    Schedule::new(ROBUST, 2, 2)
        .acquire(0, 7)
        .steps(0, 4)
        .acquire(1, 8)
        .steps(1, 2)
        .release(0, 0, 7, 1)
        .steps(0, 9)
        .steps(1, 1)
        .steps(0, 1)
        .steps(1, 1)
        .find(1, 1, 8)
        .steps(1, 2)
}

const R5_LINES: [&str; 15] = [
    "set robust 2 2",
    "0 0 begin",
    "1-3 0 step",
    "4 0 done 0 0",
    "5 1 begin",
    "6-7 1 step",
    "8 0 begin",
    "9-17 0 step",
    "18 1 step",
    "19 0 done 0 1",
    "20 1 done 2 0",
    "21 1 begin",
    "22 1 step",
    "23 1 found 1",
    "23 1 done 0 1",
];

#[test]
fn r5_locked_with_the_cell_still_populated() {
    let end = ["end FFFFFFFFFFFFFFFF 1 20"];
    r5().shows(&[&R5_LINES[..], &end].concat());
}

#[test]
fn r5_then_a_release_in_mode_0_answers_unlocked() {
    let then = [
        "24 1 begin",
        "25 1 step",
        "26 1 done 0 0",
        "end FFFFFFFFFFFFFFFF 1 22",
    ];
    let released = r5().release(1, 1, 8, 0).steps(1, 2);
    released.shows(&[&R5_LINES[..], &then].concat());
}

#[test]
fn r5_then_a_release_in_mode_1_answers_locked() {
    let then = [
        "24 1 begin",
        "25-26 1 step",
        "27 1 done 0 1",
        "end FFFFFFFFFFFFFFFF 1 23",
    ];
    let released = r5().release(1, 1, 8, 1).steps(1, 3);
    released.shows(&[&R5_LINES[..], &then].concat());
}

/// Record 0 is owner 7, A is record 1 (owner 8), C is record 2 (owner 9).
#[test]
fn r6_out_of_indices_though_never_full() {
    Schedule::new(ROBUST, 2, 3)
        .acquire(0, 7)
        .steps(0, 4)
        .acquire(1, 8)
        .steps(1, 2)
        .acquire(2, 9)
        .steps(2, 2)
        .release(0, 0, 7, 0)
        .steps(0, 1)
        .steps(2, 1)
        .steps(1, 2)
        .shows(&[
            "set robust 2 3",
            "0 0 begin",
            "1-3 0 step",
            "4 0 done 0 0",
            "5 1 begin",
            "6-7 1 step",
            "8 2 begin",
            "9-10 2 step",
            "11 0 begin",
            "12 0 step",
            "13 2 step",
            "14 1 step",
            "15 1 done 1 0",
            "end 0000000000000001 1 12",
        ]);
}

#[test]
fn the_last_generation_locks_at_the_next_bump() {
    let mut set = robust::RobustSet::new(1);
    set.generation = Generation(u64::MAX - 1);
    let mut place = robust::Place::AcquireLook { owner: Owner(7) };
    for _ in 0..3 {
        match set.step(0, place, &[]) {
            (None, After::GoesOn(next)) => place = next,
            other => panic!("{other:?}"),
        }
    }
    let last = set.step(0, place, &[]);
    assert_eq!(last, (None, After::Answers(Answer::Locked)));
    assert_eq!(set.generation, Generation::LOCKED);
    assert_eq!(set.cells, [Owner(7)]);
}

#[test]
fn an_exchange_compares_the_borrowed_count_too() {
    let mut set = PlainSet::new(3);
    set.word = Word(2);
    let place = Place::AcquireExchange {
        seen: Word(1),
        following: Index(1),
    };
    let looked = set.step(0, place, &[]);
    let seen = Word(2);
    assert_eq!(looked, (None, After::GoesOn(Place::AcquireRead { seen })));
    assert_eq!(set.word, Word(2));
}

/// Record 1 takes 0, 1 and 2 and gives back 1 and 0: the chain is 0, 1, with 2
/// held, word (0, tag 5, borrowed 1). Record 0 looks and reads slot 0, which
/// says 1. Record 1 takes 0 and 1, gives back 2 and 0 (now slot 0 says 2), and
/// then takes and gives back 0 for 32,766 times: 65,536 head changes, so that
/// the word is (0, tag 5, borrowed 1) again. Record 0 wins 0 and makes 1, held
/// by record 1, the head; its next acquire is granted 1 as well.
#[test]
fn two_holders() {
    let pairs = 32_766;
    let mut schedule = Schedule::new(PLAIN, 3, 2);
    for _ in 0..3 {
        schedule = schedule.acquire(1, 0).steps(1, 4);
    }
    for index in [1, 0] {
        schedule = schedule.release(1, index, 0, 0).steps(1, 3);
    }
    schedule = schedule.acquire(0, 0).steps(0, 2);
    for _ in 0..2 {
        schedule = schedule.acquire(1, 0).steps(1, 4);
    }
    for index in [2, 0] {
        schedule = schedule.release(1, index, 0, 0).steps(1, 3);
    }
    for _ in 0..pairs {
        schedule = schedule.acquire(1, 0).steps(1, 4);
        schedule = schedule.release(1, 0, 0, 0).steps(1, 3);
    }
    // 15 + 8 + 3 + 10 + 8 + 9 * 32,766 entries so far: the next is 294,938.
    schedule = schedule.steps(0, 2).acquire(0, 0).steps(0, 4);
    schedule = schedule.release(1, 1, 0, 0);

    let all = text(&schedule.0);
    let lines: Vec<&str> = all.lines().collect();
    // Record 1 was granted 1 at its fifth acquire (entries 31 to 35, the line
    // of the setup before them) and has not given it back.
    assert_eq!(lines[1 + 35], "35 1 done 0 1");
    assert_eq!(
        lines[lines.len() - 9..],
        [
            "294938 0 step",
            "294939 0 done 0 0",
            "294940 0 begin",
            "294941 0 step",
            "294942 0 step",
            "294943 0 step",
            "294944 0 done 0 1",
            "294945 1 refused 8",
            "end 0000040007000003 32773 229402",
        ]
    );
}
