//! The bytes of an entry, and that a seed and a number always give the same.

use super::reader::read;
use crate::entries::{Ask, Entry};
use crate::schedule;

#[test]
fn entries_have_the_format_of_the_scope() {
    let setup = Entry::Setup {
        set: 1,
        records: 16,
        capacity: 1025,
    };
    assert_eq!(setup.bytes(), [8, 0, 1, 0, 1, 16, 1, 4, 0, 0]);
    let ask = Ask {
        call: 2,
        index_or_room: 0x0403_0201,
        owner: 0x0807_0605_0403_0201,
        mode: 1,
    };
    let start = [17, 0, 2, 0, 9, 2, 1, 2, 3, 4, 1, 2, 3, 4, 5, 6, 7, 8, 1];
    assert_eq!(Entry::Start(9, ask).bytes(), start);
    assert_eq!(Entry::Step(7).bytes(), [3, 0, 3, 0, 7]);
    assert_eq!(Entry::Death(7).bytes(), [3, 0, 4, 0, 7]);
    let list = Entry::List(3, vec![u64::MAX, 1]).bytes();
    assert_eq!(list[..6], [20, 0, 5, 0, 3, 2]);
    assert_eq!(list[6..14], [255; 8]);
    assert_eq!(list[14..], [1, 0, 0, 0, 0, 0, 0, 0]);
}

#[test]
fn the_longest_list_has_a_length_of_two_bytes() {
    let list = Entry::List(0, vec![0; 255]).bytes();
    assert_eq!(list.len(), 6 + 8 * 255);
    assert_eq!(list[..2], 2044_u16.to_le_bytes());
}

#[test]
fn the_test_reader_reads_what_is_written() {
    let entries = vec![
        Entry::Setup {
            set: 0,
            records: 3,
            capacity: 70_000,
        },
        Entry::List(1, vec![5, u64::MAX]),
        Entry::Step(255),
        Entry::Death(0),
        Entry::List(2, Vec::new()),
    ];
    let bytes: Vec<u8> = entries.iter().flat_map(Entry::bytes).collect();
    let found = read(&bytes);
    assert!(found.whole);
    assert_eq!(found.entries, entries);
    assert!(!read(&bytes[..bytes.len() - 1]).whole);
    assert!(!read(&bytes[10..]).whole);
    assert!(!read(&[]).whole);
}

/// FNV-1a, 64 bits.
fn digest(bytes: &[u8]) -> u64 {
    bytes.iter().fold(0xcbf2_9ce4_8422_2325, |digest, &byte| {
        (digest ^ byte as u64).wrapping_mul(0x0100_0000_01b3)
    })
}

/// What these give on one machine they give on every other. A change here
/// means that other schedules are compared from now on.
#[test]
fn a_seed_and_a_number_give_the_same_bytes_everywhere() {
    assert_eq!(digest(b""), 0xcbf2_9ce4_8422_2325);
    assert_eq!(digest(b"a"), 0xaf63_dc4c_8601_ec8c);
    let of = |seed, number| digest(&schedule(seed, number));
    assert_eq!(of(1, 0), 0xed2b_7536_782b_97ce);
    assert_eq!(of(1, 1), 0x76fa_fef8_16c0_f6fc);
    assert_eq!(of(1, 399), 0x6a08_a204_50f7_5e33);
    assert_eq!(of(2, 0), 0x3644_929e_b623_95a2);
    assert_eq!(of(u64::MAX, u64::MAX - 1), 0xaadf_b056_988b_09f4);
    let hundred: Vec<u8> = (0..100).flat_map(|number| schedule(1, number)).collect();
    assert_eq!(digest(&hundred), 0xd916_f5cf_0c72_9d65);
}

#[test]
fn seeds_and_numbers_give_different_schedules() {
    let mut digests: Vec<u64> = (0..200)
        .map(|number| schedule(1 + number / 100, number % 100))
        .filter(|bytes| bytes.len() > 100)
        .map(|bytes| digest(&bytes))
        .collect();
    let count = digests.len();
    digests.sort();
    digests.dedup();
    assert!(count > 120);
    assert_eq!(digests.len(), count);
}
