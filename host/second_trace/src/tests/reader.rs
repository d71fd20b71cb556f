//! The format: what is an entry, and 12 for everything else.

use super::{text, Schedule, PLAIN, ROBUST};

const REFUSED: &str = "refused 12\n";

#[test]
fn empty_input() {
    assert_eq!(text(&[]), REFUSED);
}

#[test]
fn a_setup_must_come_first_and_be_whole() {
    let nothing = || Schedule(Vec::new());
    let setup = Schedule::new(PLAIN, 1, 1).0;
    for cut in 0..setup.len() {
        assert_eq!(text(&setup[..cut]), REFUSED, "cut at {cut}");
    }
    for first in [
        nothing().acquire(0, 0),
        nothing().steps(0, 1),
        nothing().death(0),
        nothing().list(0, &[]),
        nothing().entry(0, &[0, 1, 1, 0, 0, 0]),
        nothing().entry(0x0101, &[0, 1, 1, 0, 0, 0]),
        nothing().entry(1, &[0, 1, 1, 0, 0]),
        nothing().entry(1, &[0, 1, 1, 0, 0, 0, 0]),
        nothing().entry(1, &[]),
        nothing().raw(b"garbage, and more of it than a setup is long"),
        nothing().raw(&[0xff; 100]),
        nothing().raw(&[0; 100]),
    ] {
        // What comes after it is not read.
        let followed = first.raw(&setup);
        assert_eq!(text(&followed.0), REFUSED, "{:?}", followed.0);
    }
}

#[test]
fn an_unknown_set_comes_before_all_other_faults() {
    for set in [2, 3, 255] {
        for capacity in [0, 1, 1025, u32::MAX] {
            for records in [0, 1, 17, 255] {
                let schedule = Schedule::new(set, capacity, records);
                assert_eq!(text(&schedule.0), REFUSED);
            }
        }
    }
}

#[test]
fn every_cut() {
    // Each entry, its line, and what `end` says after it.
    let nothing = || Schedule(Vec::new());
    let entries = [
        (
            nothing().list(0, &[7, 8]),
            "0 0 list",
            "end 0000000000000000 0 0",
        ),
        (
            nothing().acquire(0, 7),
            "1 0 begin",
            "end 0000000000000000 0 0",
        ),
        (
            nothing().steps(0, 1),
            "2 0 step",
            "end 0000000000000000 0 1",
        ),
        (
            nothing().steps(0, 1),
            "3 0 step",
            "end 0000000000000000 0 2",
        ),
        (
            nothing().steps(0, 1),
            "4 0 step",
            "end 0000000000000000 0 3",
        ),
        (
            nothing().steps(0, 1),
            "5 0 done 0 0",
            "end 0000000000000001 1 4",
        ),
        (nothing().death(0), "6 0 dead", "end 0000000000000001 1 4"),
        (
            nothing().list(9, &[]),
            "7 9 refused 9",
            "end 0000000000000001 1 4",
        ),
    ];
    let mut whole = Schedule::new(ROBUST, 1, 1);
    let mut lines = String::from("set robust 1 1\n");
    let mut end = "end 0000000000000000 0 0";
    for (number, (entry, line, end_after)) in entries.into_iter().enumerate() {
        for cut in 1..entry.0.len() {
            let schedule = whole.clone().raw(&entry.0[..cut]);
            let expected = format!("{lines}{number} 0 refused 12\n{end}\n");
            assert_eq!(text(&schedule.0), expected, "entry {number} cut at {cut}");
        }
        whole = whole.raw(&entry.0);
        lines += &format!("{line}\n");
        end = end_after;
        assert_eq!(text(&whole.0), format!("{lines}{end}\n"));
    }
}

#[test]
fn bad_entries_stop_the_reading() {
    let good = || Schedule::new(PLAIN, 1, 6).acquire(5, 0);
    let long_start = [0; 16];
    for bad in [
        // Lengths 0 and 1, and a kind without its body.
        good().raw(&[0, 0]),
        good().raw(&[1, 0, 3]),
        good().entry(3, &[]),
        good().entry(5, &[5]),
        // A length that is another kind's, or nobody's.
        good().entry(3, &[5, 0]),
        good().entry(4, &[5, 0]),
        good().entry(3, &long_start[..15]),
        good().entry(2, &[5]),
        good().entry(2, &long_start[..14]),
        good().entry(2, &long_start),
        // Unknown kinds; both bytes count, and the order of the bytes.
        good().entry(0, &[5]),
        good().entry(6, &[5]),
        good().entry(0x0103, &[5]),
        good().entry(0x0300, &[5]),
        good().entry(0xffff, &[5]),
        good().raw(&[0, 3, 3, 0, 5]),
        // A list whose count and length disagree.
        good().entry(5, &[5, 1]),
        good().entry(5, &[5, 0, 7, 0, 0, 0, 0, 0, 0, 0]),
        good().entry(5, &[5, 1, 7, 0, 0, 0, 0, 0, 0]),
        good().entry(5, &[5, 2, 7, 0, 0, 0, 0, 0, 0, 0]),
        // A second setup, whatever it holds.
        good().entry(1, &[0, 6, 1, 0, 0, 0]),
        good().entry(1, &[2, 255, 0, 0, 0, 0]),
        good().entry(1, &[5]),
        good().raw(&[0xff; 70_000]),
    ] {
        let expected = [
            "set plain 1 6",
            "0 5 begin",
            "1 0 refused 12",
            "end 0000000000000000 0 0",
        ];
        bad.shows(&expected);
        // Whole entries after it are not read.
        bad.steps(5, 4).shows(&expected);
    }
}

#[test]
fn garbage_ends_with_a_line() {
    // A small generator (xorshift) damages a good schedule at one byte.
    let good = Schedule::new(ROBUST, 2, 2)
        .list(0, &[7])
        .acquire(0, 7)
        .steps(0, 4)
        .recover(0, 1)
        .steps(0, 20)
        .death(1);
    let mut state: u64 = 0x9E37_79B9_7F4A_7C15;
    for _ in 0..2_000 {
        state ^= state << 13;
        state ^= state >> 7;
        state ^= state << 17;
        let mut schedule = good.0.clone();
        let at = (state >> 32) as usize % schedule.len();
        schedule[at] = state as u8;
        let lines = text(&schedule);
        let last = lines.lines().last().unwrap();
        let alone = lines.lines().count() == 1;
        assert!(lines.ends_with('\n'));
        assert!(last.starts_with("end ") && !alone || last.starts_with("refused ") && alone);
    }
}
