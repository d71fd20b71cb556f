//! Every class of thing that is to be compared is met, and met often.

use super::census::Census;
use super::reader::read;
use super::{all_drawn, COUNT};

/// A class, and how often it is met at the least.
const CLASSES: [(&str, u64); 95] = [
    ("plain", 70),
    ("robust", 100),
    ("unknown set", 6),
    ("refused setup", 20),
    ("capacity 0", 3),
    ("capacity 1", 35),
    ("capacity 2", 35),
    ("capacity 3", 30),
    ("capacity 4 to 16", 30),
    ("capacity 17 to 1023", 30),
    ("capacity 1024", 9),
    ("capacity 1025", 5),
    ("capacity above 1025", 6),
    ("records 0", 8),
    ("records 1", 10),
    ("records 2", 35),
    ("records 3", 20),
    ("records 4", 40),
    ("records 5 to 15", 20),
    ("records 16", 25),
    ("records 17", 10),
    ("records above 17", 5),
    ("entries 0 to 9", 15),
    ("entries 10 to 99", 55),
    ("entries 100 to 999", 80),
    ("entries 1000 to 3999", 20),
    ("entries 4000 to 17999", 10),
    ("entries 18000 and more", 2),
    ("plain call 1", 11_000),
    ("plain call 2", 5000),
    ("plain call 3", 800),
    ("plain call 4", 850),
    ("plain call 5", 100),
    ("plain call 6", 100),
    ("plain unknown call", 100),
    ("plain call 2 mode 0", 4500),
    ("plain call 2 mode 1", 400),
    ("plain call 2 unknown mode", 100),
    ("plain call 6 mode 0", 70),
    ("plain call 6 mode 1", 15),
    ("plain call 6 unknown mode", 30),
    ("plain index inside", 5000),
    ("plain index outside", 100),
    ("plain room 0", 45),
    ("plain room 1", 15),
    ("plain room for many", 60),
    ("plain owner that no call may name", 1500),
    ("robust call 1", 4500),
    ("robust call 2", 3000),
    ("robust call 3", 350),
    ("robust call 4", 350),
    ("robust call 5", 600),
    ("robust call 6", 750),
    ("robust unknown call", 100),
    ("robust call 2 mode 0", 3000),
    ("robust call 2 mode 1", 300),
    ("robust call 2 unknown mode", 75),
    ("robust call 6 mode 0", 600),
    ("robust call 6 mode 1", 100),
    ("robust call 6 unknown mode", 25),
    ("robust index inside", 3000),
    ("robust index outside", 75),
    ("robust room 0", 40),
    ("robust room 1", 200),
    ("robust room for many", 350),
    ("robust owner that no call may name", 300),
    ("owner 0", 16_500),
    ("list of 0", 95),
    ("list of 1", 100),
    ("list of 2", 100),
    ("list of 3", 100),
    ("list of 4", 100),
    ("list of 5", 85),
    ("list of 6", 85),
    ("list of 7", 80),
    ("list of 8", 250),
    ("list of 9", 100),
    ("list of 10 to 254", 40),
    ("list of 255", 45),
    ("list with the owner that no list may name", 250),
    ("list on a plain set", 400),
    ("step", 168_500),
    ("missing record", 1000),
    ("death", 85),
    ("death of a missing record", 200),
    ("death of a dead record", 45),
    ("step of a dead record", 1500),
    ("start of a dead record", 65),
    ("list of a dead record", 35),
    ("alternation of 2", 70),
    ("alternation of 3", 35),
    ("alternation of 4 to 8", 65),
    ("alternation of 9 to 15", 10),
    ("alternation of 16", 20),
    ("calls after one that may lock", 100),
];

fn census() -> Census {
    let mut census = Census::default();
    for drawn in all_drawn() {
        census.take(&read(drawn.bytes()));
    }
    census
}

#[test]
fn every_class_is_met_often() {
    let census = census();
    for (class, least) in CLASSES {
        let met = census.of(class);
        assert!(met >= least, "{class}: met {met} times, not {least}");
    }
}

#[test]
fn deaths_are_not_too_many() {
    assert!(census().of("death") <= COUNT);
}

#[test]
fn steps_are_most_of_all_entries() {
    let census = census();
    let starts: u64 = ["plain", "robust"]
        .iter()
        .flat_map(|set| (1..=6).map(move |call| format!("{set} call {call}")))
        .map(|class| census.of(&class))
        .sum();
    assert!(census.of("step") > 2 * starts);
}

#[test]
fn what_is_composed_is_whole() {
    for drawn in all_drawn() {
        let found = read(&drawn.composed.bytes);
        assert!(found.whole);
        assert_eq!(found.entries.len(), drawn.composed.begins.len());
    }
}
