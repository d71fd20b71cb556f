//! Damaged schedules are really damaged.

use std::collections::BTreeMap;

use super::reader::read;
use super::{all_drawn, COUNT};
use crate::damage::Way;

/// After these there may still be a whole schedule: one byte may turn a record
/// into another, and a cut may fall between two entries.
const MAY_BE_WHOLE: [Way; 4] = [
    Way::ByteChanged,
    Way::Cut,
    Way::BytesInserted,
    Way::BytesRemoved,
];

#[derive(Default)]
struct Tally {
    all: u64,
    whole: u64,
    /// Those that are read up to an entry after the setup.
    after_setup: u64,
}

fn tallies() -> BTreeMap<Way, Tally> {
    let mut tallies: BTreeMap<Way, Tally> = BTreeMap::new();
    for drawn in all_drawn() {
        if let Some((way, bytes)) = &drawn.damaged {
            assert_ne!(*bytes, drawn.composed.bytes, "{way:?}");
            let found = read(bytes);
            let tally = tallies.entry(*way).or_default();
            tally.all += 1;
            tally.whole += found.whole as u64;
            tally.after_setup += (found.entries.len() > 1) as u64;
        }
    }
    tallies
}

fn sum(of: impl Fn(&Tally) -> u64) -> u64 {
    tallies().values().map(of).sum()
}

#[test]
fn about_a_third_is_damaged() {
    let damaged = sum(|tally| tally.all);
    assert!(damaged * 4 > COUNT && damaged * 5 < COUNT * 2);
}

#[test]
fn every_way_is_taken_and_damages() {
    let tallies = tallies();
    for (_, way) in Way::ALL {
        let tally = tallies.get(&way).unwrap_or_else(|| panic!("no {way:?}"));
        if MAY_BE_WHOLE.contains(&way) {
            assert!(tally.whole < tally.all, "{way:?}");
        } else {
            assert_eq!(tally.whole, 0, "{way:?}");
        }
    }
}

#[test]
fn few_are_whole_after_the_damage() {
    assert!(sum(|tally| tally.whole) * 10 < sum(|tally| tally.all));
}

#[test]
fn most_are_damaged_behind_the_setup() {
    assert!(sum(|tally| tally.after_setup) * 4 > sum(|tally| tally.all) * 3);
}
