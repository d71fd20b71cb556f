//! The robust set's calls where they meet; find, recover and lists; deaths.

use super::{Schedule, ROBUST};

/// Record 0 takes every cell, one for each of these owners; the lines of that
/// are `TAKEN_1`, `TAKEN_2` and `TAKEN_3`, and the generation ends at their
/// number, after 4, 9 and 15 steps.
fn taken(records: u8, owners: &[u64]) -> Schedule {
    let mut schedule = Schedule::new(ROBUST, owners.len() as u32, records);
    for (before, owner) in owners.iter().enumerate() {
        schedule = schedule.acquire(0, *owner).steps(0, 4 + before);
    }
    schedule
}

const TAKEN_1: [&str; 3] = ["0 0 begin", "1-3 0 step", "4 0 done 0 0"];
const TAKEN_2: [&str; 3] = ["5 0 begin", "6-9 0 step", "10 0 done 0 1"];
const TAKEN_3: [&str; 3] = ["11 0 begin", "12-16 0 step", "17 0 done 0 2"];

#[track_caller]
fn shows(schedule: &Schedule, set: &str, taken: &[[&str; 3]], then: &[&str]) {
    schedule.shows(&[&[set], &taken.concat()[..], then].concat());
}

#[test]
fn a_bump_that_lost_is_a_look() {
    Schedule::new(ROBUST, 2, 2)
        .acquire(0, 7)
        .steps(0, 3)
        .acquire(1, 8)
        .steps(1, 5)
        .steps(0, 2)
        .shows(&[
            "set robust 2 2",
            "0 0 begin",
            "1-3 0 step",
            "4 1 begin",
            "5-8 1 step",
            "9 1 done 0 1",
            "10 0 step",
            "11 0 done 0 0",
            "end 0000000000000002 2 10",
        ]);
}

#[test]
fn a_closing_exchange_that_lost_scans_anew() {
    let schedule = taken(2, &[7])
        .acquire(1, 8)
        .steps(1, 2)
        .release(0, 0, 7, 0)
        .steps(0, 3)
        .steps(1, 4);
    let then = [
        "5 1 begin",
        "6-7 1 step",
        "8 0 begin",
        "9-10 0 step",
        "11 0 done 0 0",
        "12-14 1 step",
        "15 1 done 0 0",
        "end 0000000000000003 2 13",
    ];
    shows(&schedule, "set robust 1 2", &[TAKEN_1], &then);
}

#[test]
fn a_closing_exchange_may_find_the_lock_and_a_first_look_too() {
    let schedule = taken(2, &[7])
        .acquire(1, 8)
        .steps(1, 2)
        .release(0, 0, 7, 1)
        .steps(0, 9)
        .steps(1, 1)
        .acquire(1, 8)
        .steps(1, 1)
        .borrowed(1)
        .steps(1, 1)
        .locked(1)
        .steps(1, 1);
    let then = [
        "5 1 begin",
        "6-7 1 step",
        "8 0 begin",
        "9-16 0 step",
        "17 0 done 0 1",
        "18 1 done 2 0",
        "19 1 begin",
        "20 1 done 2 0",
        "21 1 begin",
        "22 1 done 0 0",
        "23 1 begin",
        "24 1 done 0 1",
        "end FFFFFFFFFFFFFFFF 1 19",
    ];
    shows(&schedule, "set robust 1 2", &[TAKEN_1], &then);
}

#[test]
fn a_count_is_taken_again_if_the_generation_moved() {
    Schedule::new(ROBUST, 1, 2)
        .borrowed(0)
        .steps(0, 2)
        .acquire(1, 8)
        .steps(1, 4)
        .steps(0, 6)
        .locked(0)
        .steps(0, 1)
        .shows(&[
            "set robust 1 2",
            "0 0 begin",
            "1-2 0 step",
            "3 1 begin",
            "4-6 1 step",
            "7 1 done 0 0",
            "8-12 0 step",
            "13 0 done 0 1",
            "14 0 begin",
            "15 0 done 0 0",
            "end 0000000000000003 1 13",
        ]);
}

#[test]
fn a_count_whose_bump_finds_the_lock_is_taken_again_and_is_0() {
    let schedule = taken(2, &[7])
        .borrowed(1)
        .steps(1, 2)
        .release(0, 0, 7, 1)
        .steps(0, 9)
        .steps(1, 2);
    let then = [
        "5 1 begin",
        "6-7 1 step",
        "8 0 begin",
        "9-16 0 step",
        "17 0 done 0 1",
        "18 1 step",
        "19 1 done 0 0",
        "end FFFFFFFFFFFFFFFF 1 17",
    ];
    shows(&schedule, "set robust 1 2", &[TAKEN_1], &then);
}

#[test]
fn a_lock_exchange_that_lost_counts_again() {
    let schedule = taken(2, &[7])
        .release(0, 0, 7, 1)
        .steps(0, 8)
        .borrowed(1)
        .steps(1, 4)
        .steps(0, 6);
    let then = [
        "5 0 begin",
        "6-13 0 step",
        "14 1 begin",
        "15-17 1 step",
        "18 1 done 0 0",
        "19-23 0 step",
        "24 0 done 0 1",
        "end FFFFFFFFFFFFFFFF 1 22",
    ];
    shows(&schedule, "set robust 1 2", &[TAKEN_1], &then);
}

#[test]
fn a_release_does_not_lock_while_another_cell_is_held() {
    let schedule = taken(1, &[7, 8]).release(0, 0, 7, 1).steps(0, 9);
    let then = [
        "11 0 begin",
        "12-19 0 step",
        "20 0 done 0 0",
        "end 0000000000000004 2 18",
    ];
    shows(&schedule, "set robust 2 1", &[TAKEN_1, TAKEN_2], &then);
}

#[test]
fn a_count_in_a_lock_may_find_the_lock_and_then_exchanges_it_for_itself() {
    // Record 1 gives back 1 up to its lock's look; record 0 gives back 0 and
    // locks; record 1's count finds the lock.
    let schedule = taken(2, &[7, 8])
        .release(1, 1, 8, 1)
        .steps(1, 4)
        .release(0, 0, 7, 1)
        .steps(0, 10)
        .steps(1, 2);
    let then = [
        "11 1 begin",
        "12-15 1 step",
        "16 0 begin",
        "17-25 0 step",
        "26 0 done 0 1",
        "27 1 step",
        "28 1 done 0 1",
        "end FFFFFFFFFFFFFFFF 2 25",
    ];
    shows(&schedule, "set robust 2 2", &[TAKEN_1, TAKEN_2], &then);
}

#[test]
fn find_reports_until_its_room_is_full() {
    let schedule = taken(1, &[7, 8, 7])
        .find(0, 3, 7)
        .steps(0, 3)
        .find(0, 1, 7)
        .steps(0, 1)
        .find(0, u32::MAX, 9)
        .steps(0, 3)
        .find(0, 2, 7)
        .steps(0, 3);
    let then = [
        "18 0 begin",
        "19 0 found 0",
        "19-20 0 step",
        "21 0 found 2",
        "21 0 done 0 2",
        "22 0 begin",
        "23 0 found 0",
        "23 0 done 0 1",
        "24 0 begin",
        "25-26 0 step",
        "27 0 done 0 0",
        "28 0 begin",
        "29 0 found 0",
        "29-30 0 step",
        "31 0 found 2",
        "31 0 done 0 2",
        "end 0000000000000003 3 25",
    ];
    let all = [TAKEN_1, TAKEN_2, TAKEN_3];
    shows(&schedule, "set robust 3 1", &all, &then);
}

#[test]
fn recover_frees_what_its_list_names_and_uses_the_list_up() {
    let schedule = taken(1, &[7, 8, 7])
        .list(0, &[7])
        .recover(0, 0)
        .steps(0, 11)
        .acquire(0, 7)
        .steps(0, 4)
        .recover(0, 1)
        .steps(0, 5);
    let then = [
        "18 0 list",
        "19 0 begin",
        "20-21 0 step",
        "22 0 freed 0 7",
        "22-26 0 step",
        "27 0 freed 2 7",
        "27-29 0 step",
        "30 0 done 0 0",
        "31 0 begin",
        "32-34 0 step",
        "35 0 done 0 0",
        "36 0 begin",
        "37-40 0 step",
        "41 0 done 0 0",
        "end 0000000000000006 4 35",
    ];
    let all = [TAKEN_1, TAKEN_2, TAKEN_3];
    shows(&schedule, "set robust 3 1", &all, &then);
}

#[test]
fn recover_from_a_dead_holder_locks_in_mode_1() {
    let schedule = taken(2, &[u64::MAX - 1])
        .death(0)
        .list(1, &[9, u64::MAX - 1])
        .recover(1, 1)
        .steps(1, 12)
        .recover(1, 0)
        .steps(1, 1);
    let then = [
        "5 0 dead",
        "6 1 list",
        "7 1 begin",
        "8-9 1 step",
        "10 1 freed 0 18446744073709551614",
        "10-18 1 step",
        "19 1 done 0 1",
        "20 1 begin",
        "21 1 done 0 1",
        "end FFFFFFFFFFFFFFFF 1 17",
    ];
    shows(&schedule, "set robust 1 2", &[TAKEN_1], &then);
}

#[test]
fn recover_goes_on_where_its_lock_finds_another_holder() {
    let schedule = taken(1, &[7, 8]).list(0, &[7]).recover(0, 1).steps(0, 13);
    let then = [
        "11 0 list",
        "12 0 begin",
        "13-14 0 step",
        "15 0 freed 0 7",
        "15-24 0 step",
        "25 0 done 0 0",
        "end 0000000000000004 2 22",
    ];
    shows(&schedule, "set robust 2 1", &[TAKEN_1, TAKEN_2], &then);
}

#[test]
fn recover_does_not_try_a_lost_exchange_again() {
    let schedule = taken(2, &[7])
        .list(1, &[7])
        .recover(1, 0)
        .steps(1, 2)
        .release(0, 0, 7, 0)
        .steps(0, 1)
        .steps(1, 2);
    let then = [
        "5 1 list",
        "6 1 begin",
        "7-8 1 step",
        "9 0 begin",
        "10 0 step",
        "11 1 step",
        "12 1 done 0 0",
        "end 0000000000000001 1 9",
    ];
    shows(&schedule, "set robust 1 2", &[TAKEN_1], &then);
}

#[test]
fn recover_ends_where_its_bump_finds_the_lock() {
    let schedule = taken(2, &[7, 8])
        .list(1, &[8])
        .recover(1, 0)
        .steps(1, 4)
        .release(0, 0, 7, 1)
        .steps(0, 10)
        .steps(1, 1);
    let then = [
        "11 1 list",
        "12 1 begin",
        "13-15 1 step",
        "16 1 freed 1 8",
        "16 1 step",
        "17 0 begin",
        "18-26 0 step",
        "27 0 done 0 1",
        "28 1 done 0 1",
        "end FFFFFFFFFFFFFFFF 2 24",
    ];
    shows(&schedule, "set robust 2 2", &[TAKEN_1, TAKEN_2], &then);
}

#[test]
fn an_acquire_cut_by_death_is_recovered() {
    Schedule::new(ROBUST, 1, 2)
        .acquire(0, 7)
        .steps(0, 2)
        .death(0)
        .list(0, &[7])
        .list(1, &[7])
        .recover(1, 0)
        .steps(1, 6)
        .shows(&[
            "set robust 1 2",
            "0 0 begin",
            "1-2 0 step",
            "3 0 dead",
            "4 0 refused 9",
            "5 1 list",
            "6 1 begin",
            "7-8 1 step",
            "9 1 freed 0 7",
            "9-11 1 step",
            "12 1 done 0 0",
            "end 0000000000000001 0 8",
        ]);
}

#[test]
fn a_waiting_list_stays_until_a_recover_takes_it() {
    let nine = [7; 9];
    let schedule = taken(1, &[7])
        .list(0, &[7])
        .list(0, &nine)
        .list(0, &[u64::MAX])
        .recover(0, 2)
        .locked(0)
        .steps(0, 1)
        .recover(0, 0)
        .steps(0, 6)
        .acquire(0, 7)
        .steps(0, 4)
        .list(0, &[7])
        .list(0, &[])
        .recover(0, 0)
        .steps(0, 3);
    let then = [
        "5 0 list",
        "6 0 refused 13",
        "7 0 refused 5",
        "8 0 refused 13",
        "9 0 begin",
        "10 0 done 0 0",
        "11 0 begin",
        "12-13 0 step",
        "14 0 freed 0 7",
        "14-16 0 step",
        "17 0 done 0 0",
        "18 0 begin",
        "19-21 0 step",
        "22 0 done 0 0",
        "23-24 0 list",
        "25 0 begin",
        "26-27 0 step",
        "28 0 done 0 0",
        "end 0000000000000003 2 18",
    ];
    shows(&schedule, "set robust 1 1", &[TAKEN_1], &then);
}
