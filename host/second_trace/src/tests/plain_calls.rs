//! The plain set's calls where they meet, and deaths.

use super::{Schedule, PLAIN};

#[test]
fn a_release_that_lost_writes_its_slot_anew_and_may_lock() {
    // Record 0 sees (2, 2, 2); record 1 makes it (1, 3, 1); record 0 sees that
    // at its exchange, writes its slot again and locks: (0, 4, locked).
    Schedule::new(PLAIN, 2, 2)
        .acquire(0, 0)
        .steps(0, 4)
        .acquire(1, 0)
        .steps(1, 4)
        .release(0, 0, 0, 1)
        .steps(0, 2)
        .release(1, 1, 0, 0)
        .steps(1, 3)
        .steps(0, 3)
        .shows(&[
            "set plain 2 2",
            "0 0 begin",
            "1-3 0 step",
            "4 0 done 0 0",
            "5 1 begin",
            "6-8 1 step",
            "9 1 done 0 1",
            "10 0 begin",
            "11-12 0 step",
            "13 1 begin",
            "14-15 1 step",
            "16 1 done 0 0",
            "17-18 0 step",
            "19 0 done 0 1",
            "end 0000000004FFFFFF 2 16",
        ]);
}

#[test]
fn the_chain_is_last_in_first_out() {
    // 0 and 1 are taken, 0 is given back, then 1: the next two are 1 and 0.
    Schedule::new(PLAIN, 2, 1)
        .acquire(0, 0)
        .steps(0, 4)
        .acquire(0, 0)
        .steps(0, 4)
        .release(0, 0, 0, 0)
        .steps(0, 3)
        .release(0, 1, 0, 0)
        .steps(0, 3)
        .acquire(0, 0)
        .steps(0, 4)
        .acquire(0, 0)
        .steps(0, 4)
        .borrowed(0)
        .steps(0, 1)
        .locked(0)
        .steps(0, 1)
        .shows(&[
            "set plain 2 1",
            "0 0 begin",
            "1-3 0 step",
            "4 0 done 0 0",
            "5 0 begin",
            "6-8 0 step",
            "9 0 done 0 1",
            "10 0 begin",
            "11-12 0 step",
            "13 0 done 0 0",
            "14 0 begin",
            "15-16 0 step",
            "17 0 done 0 0",
            "18 0 begin",
            "19-21 0 step",
            "22 0 done 0 1",
            "23 0 begin",
            "24-26 0 step",
            "27 0 done 0 0",
            "28 0 begin",
            "29 0 done 0 2",
            "30 0 begin",
            "31 0 done 0 0",
            "end 0000020006000002 4 24",
        ]);
}

#[test]
fn a_lost_exchange_may_find_nothing_left() {
    Schedule::new(PLAIN, 1, 2)
        .acquire(0, 0)
        .steps(0, 2)
        .acquire(1, 0)
        .steps(1, 4)
        .steps(0, 1)
        .shows(&[
            "set plain 1 2",
            "0 0 begin",
            "1-2 0 step",
            "3 1 begin",
            "4-6 1 step",
            "7 1 done 0 0",
            "8 0 done 1 0",
            "end 0000010001000001 1 7",
        ]);
}

#[test]
fn a_lost_exchange_may_find_the_lock() {
    Schedule::new(PLAIN, 2, 2)
        .acquire(0, 0)
        .steps(0, 4)
        .acquire(1, 0)
        .steps(1, 2)
        .release(0, 0, 0, 1)
        .steps(0, 3)
        .steps(1, 1)
        .shows(&[
            "set plain 2 2",
            "0 0 begin",
            "1-3 0 step",
            "4 0 done 0 0",
            "5 1 begin",
            "6-7 1 step",
            "8 0 begin",
            "9-10 0 step",
            "11 0 done 0 1",
            "12 1 done 2 0",
            "end 0000000002FFFFFF 1 10",
        ]);
}

#[test]
fn a_death_after_the_exchange_keeps_the_index_from_the_others() {
    Schedule::new(PLAIN, 2, 2)
        .acquire(0, 0)
        .steps(0, 3)
        .death(0)
        .steps(0, 1)
        .acquire(0, 0)
        .death(0)
        .acquire(1, 0)
        .steps(1, 4)
        .acquire(1, 0)
        .steps(1, 1)
        .release(1, 0, 0, 0)
        .shows(&[
            "set plain 2 2",
            "0 0 begin",
            "1-3 0 step",
            "4 0 dead",
            "5-7 0 refused 9",
            "8 1 begin",
            "9-11 1 step",
            "12 1 done 0 1",
            "13 1 begin",
            "14 1 done 1 0",
            "15 1 refused 8",
            "end 0000020002000002 1 8",
        ]);
}

#[test]
fn a_death_before_the_exchange_leaves_the_index_free() {
    Schedule::new(PLAIN, 1, 2)
        .acquire(0, 0)
        .steps(0, 2)
        .death(0)
        .acquire(1, 0)
        .steps(1, 4)
        .death(1)
        .shows(&[
            "set plain 1 2",
            "0 0 begin",
            "1-2 0 step",
            "3 0 dead",
            "4 1 begin",
            "5-7 1 step",
            "8 1 done 0 0",
            "9 1 dead",
            "end 0000010001000001 1 6",
        ]);
}
