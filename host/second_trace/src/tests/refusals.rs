//! Each refusal that a schedule can show, on both sides of its limit, and
//! which comes first where several apply. (12 is in `reader`; see lib.rs for
//! 11.)

use super::{text, Schedule, PLAIN, ROBUST};

#[test]
fn setups_3_4_and_10() {
    for (set, name) in [(PLAIN, "plain"), (ROBUST, "robust")] {
        for (capacity, records, refused) in [
            (1, 1, None),
            (1024, 1, None),
            (1025, 1, Some(3)),
            (u32::MAX, 1, Some(3)),
            (0, 1, Some(4)),
            (1, 0, None),
            (1, 16, None),
            (1024, 16, None),
            (1, 17, Some(10)),
            (1, 255, Some(10)),
            (1025, 17, Some(3)),
            (0, 17, Some(4)),
        ] {
            // A step follows: it is read only after an accepted setup.
            let schedule = Schedule::new(set, capacity, records).steps(0, 1);
            let expected = match refused {
                Some(number) => format!("refused {number}\n"),
                None => format!(
                    "set {name} {capacity} {records}\n0 0 refused 9\nend 0000000000000000 0 0\n"
                ),
            };
            assert_eq!(text(&schedule.0), expected);
        }
    }
}

#[test]
fn the_last_index_of_the_largest_plain_set() {
    // 1,024 acquires; the last is 1,023 and the next is out of indices.
    let mut schedule = Schedule::new(PLAIN, 1024, 1);
    for _ in 0..1025 {
        schedule = schedule.acquire(0, 0).steps(0, 4);
    }
    let all = text(&schedule.0);
    let lines: Vec<&str> = all.lines().collect();
    assert_eq!(
        lines[lines.len() - 7..],
        [
            "5119 0 done 0 1023",
            "5120 0 begin",
            "5121 0 done 1 0",
            "5122 0 refused 9",
            "5123 0 refused 9",
            "5124 0 refused 9",
            "end 0004000400000400 1024 4097",
        ]
    );
}

#[test]
fn no_records_at_all() {
    Schedule::new(ROBUST, 1, 0)
        .acquire(0, u64::MAX)
        .steps(0, 1)
        .death(0)
        .list(0, &[7; 9])
        .shows(&[
            "set robust 1 0",
            "0-3 0 refused 9",
            "end 0000000000000000 0 0",
        ]);
}

#[test]
fn records_9() {
    Schedule::new(ROBUST, 1, 16)
        .steps(15, 1)
        .acquire(15, 7)
        .acquire(15, 7)
        .start(15, 0, 0, u64::MAX, 9)
        .list(15, &[])
        .steps(15, 1)
        .death(15)
        .steps(15, 1)
        .acquire(15, 7)
        .list(15, &[])
        .death(15)
        .acquire(16, 7)
        .steps(16, 1)
        .death(16)
        .list(16, &[])
        .start(255, 99, 0, u64::MAX, 9)
        .death(14)
        .acquire(14, 7)
        .shows(&[
            "set robust 1 16",
            "0 15 refused 9",
            "1 15 begin",
            "2-4 15 refused 9",
            "5 15 step",
            "6 15 dead",
            "7-10 15 refused 9",
            "11-14 16 refused 9",
            "15 255 refused 9",
            "16 14 dead",
            "17 14 refused 9",
            "end 0000000000000000 0 1",
        ]);
}

#[test]
fn plain_starts() {
    Schedule::new(PLAIN, 2, 1)
        .start(0, 0, 0, 0, 0)
        .start(0, 7, 0, 0, 0)
        .start(0, 255, 0, 0, 0)
        .find(0, 1, 7)
        .recover(0, 0)
        .list(0, &[])
        .list(0, &[u64::MAX])
        .list(1, &[])
        // 13 before 7 before 8.
        .release(0, 2, 0, 2)
        .release(0, 2, 0, 1)
        .release(0, u32::MAX, 0, 0)
        .release(0, 1, 0, 1)
        .release(0, 1, 0, 255)
        // Owner, index and mode of an acquire are not looked at.
        .start(0, 1, u32::MAX, u64::MAX, 255)
        .steps(0, 4)
        .start(0, 3, u32::MAX, u64::MAX, 255)
        .steps(0, 1)
        .start(0, 4, u32::MAX, u64::MAX, 255)
        .steps(0, 1)
        // Nor is the owner of a release.
        .release(0, 0, u64::MAX, 0)
        .steps(0, 3)
        .shows(&[
            "set plain 2 1",
            "0-6 0 refused 13",
            "7 1 refused 9",
            "8 0 refused 13",
            "9-10 0 refused 7",
            "11 0 refused 8",
            "12 0 refused 13",
            "13 0 begin",
            "14-16 0 step",
            "17 0 done 0 0",
            "18 0 begin",
            "19 0 done 0 1",
            "20 0 begin",
            "21 0 done 0 0",
            "22 0 begin",
            "23-24 0 step",
            "25 0 done 0 0",
            "end 0000000002000000 1 9",
        ]);
}

#[test]
fn custody_8() {
    Schedule::new(PLAIN, 2, 2)
        // Free; being granted to record 0; held by it.
        .release(1, 0, 0, 0)
        .acquire(0, 0)
        .steps(0, 3)
        .release(1, 0, 0, 0)
        .steps(0, 1)
        .release(1, 0, 0, 0)
        // Being given back, also by a record that dies over it.
        .release(0, 0, 0, 0)
        .release(1, 0, 0, 0)
        .steps(0, 3)
        .release(0, 0, 0, 0)
        .acquire(0, 0)
        .steps(0, 4)
        .release(0, 0, 0, 0)
        .death(0)
        .release(1, 0, 0, 0)
        .shows(&[
            "set plain 2 2",
            "0 1 refused 8",
            "1 0 begin",
            "2-4 0 step",
            "5 1 refused 8",
            "6 0 done 0 0",
            "7 1 refused 8",
            "8 0 begin",
            "9 1 refused 8",
            "10-11 0 step",
            "12 0 done 0 0",
            "13 0 refused 8",
            "14 0 begin",
            "15-17 0 step",
            "18 0 done 0 0",
            "19 0 begin",
            "20 0 dead",
            "21 1 refused 8",
            "end 0000010003000001 2 11",
        ]);
}

#[test]
fn robust_starts() {
    const EMPTY: u64 = u64::MAX;
    Schedule::new(ROBUST, 2, 1)
        .start(0, 0, 0, EMPTY, 0)
        .start(0, 7, 0, EMPTY, 0)
        .find(0, 0, EMPTY)
        .release(0, 2, EMPTY, 2)
        .recover(0, 2)
        .recover(0, 255)
        .acquire(0, EMPTY)
        .release(0, 2, EMPTY, 0)
        .find(0, 1, EMPTY)
        .release(0, 2, 7, 1)
        .release(0, u32::MAX, 7, 0)
        // The other side of 7 (answers 6), of 5 and of room 0.
        .release(0, 1, 7, 0)
        .steps(0, 1)
        .start(0, 1, u32::MAX, EMPTY - 1, 255)
        .steps(0, 4)
        .start(0, 5, 1, EMPTY - 1, 255)
        .steps(0, 1)
        .release(0, 0, EMPTY - 1, 0)
        .steps(0, 3)
        .start(0, 6, u32::MAX, EMPTY, 1)
        .steps(0, 4)
        .start(0, 3, u32::MAX, EMPTY, 255)
        .steps(0, 5)
        .start(0, 4, u32::MAX, EMPTY, 255)
        .steps(0, 1)
        .shows(&[
            "set robust 2 1",
            "0-5 0 refused 13",
            "6-8 0 refused 5",
            "9-10 0 refused 7",
            "11 0 begin",
            "12 0 done 6 0",
            "13 0 begin",
            "14-16 0 step",
            "17 0 done 0 0",
            "18 0 begin",
            "19 0 found 0",
            "19 0 done 0 1",
            "20 0 begin",
            "21-22 0 step",
            "23 0 done 0 0",
            "24 0 begin",
            "25-27 0 step",
            "28 0 done 0 0",
            "29 0 begin",
            "30-33 0 step",
            "34 0 done 0 0",
            "35 0 begin",
            "36 0 done 0 0",
            "end 0000000000000003 1 19",
        ]);
}

#[test]
fn lists() {
    const EMPTY: u64 = u64::MAX;
    Schedule::new(ROBUST, 1, 1)
        .list(0, &[])
        .list(0, &[7; 8])
        .list(0, &[7; 9])
        .list(0, &[EMPTY; 9])
        .list(0, &[7; 255])
        .list(1, &[7; 255])
        .list(0, &[EMPTY])
        .list(0, &[1, 2, 3, 4, 5, 6, 7, EMPTY])
        .list(0, &[1, 2, 3, 4, 5, 6, 7, EMPTY - 1])
        .list(0, &[EMPTY, 2])
        .shows(&[
            "set robust 1 1",
            "0-1 0 list",
            "2-4 0 refused 13",
            "5 1 refused 9",
            "6-7 0 refused 5",
            "8 0 list",
            "9 0 refused 5",
            "end 0000000000000000 0 0",
        ]);
    Schedule::new(PLAIN, 1, 1)
        .list(0, &[])
        .list(0, &[7; 8])
        .list(0, &[7; 9])
        .list(0, &[EMPTY; 255])
        .list(1, &[7])
        .shows(&[
            "set plain 1 1",
            "0-3 0 refused 13",
            "4 1 refused 9",
            "end 0000000000000000 0 0",
        ]);
}

#[test]
fn the_eighth_owner_of_a_list_counts() {
    Schedule::new(ROBUST, 1, 1)
        .acquire(0, 8)
        .steps(0, 4)
        .list(0, &[1, 2, 3, 4, 5, 6, 7, 8])
        .recover(0, 0)
        .steps(0, 6)
        .shows(&[
            "set robust 1 1",
            "0 0 begin",
            "1-3 0 step",
            "4 0 done 0 0",
            "5 0 list",
            "6 0 begin",
            "7-8 0 step",
            "9 0 freed 0 8",
            "9-11 0 step",
            "12 0 done 0 0",
            "end 0000000000000002 1 10",
        ]);
}
