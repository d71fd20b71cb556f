//! The scope's bench sheet by whole calls, and the sets of fixed size.

use oracle_whole::{Answer, Call, LIST_LIMIT, Report, Request, WholeSet};

fn request(call: Call, index_or_room: u32, owner: u64, mode: u8, owners: &[u64]) -> Request {
    let mut list = [0; LIST_LIMIT];
    list[..owners.len()].copy_from_slice(owners);
    Request {
        call,
        index_or_room,
        owner,
        mode,
        listed: owners.len() as u8,
        list,
    }
}

fn answers(set: &mut dyn WholeSet, asks: Request) -> (u32, u32) {
    let Answer { number, value } = set.call(&asks, &mut Vec::new());
    (number, value)
}

fn plain_sheet(set: &mut dyn WholeSet) {
    assert_eq!((set.word(), set.entries()), (0, vec![1, 2, 3, 4]));
    assert_eq!(answers(set, request(Call::Acquire, 0, 0, 0, &[])), (0, 0));
    assert_eq!(set.word(), 0x0000_0100_0100_0001);
    assert_eq!(set.entries(), [4, 2, 3, 4]);
    assert_eq!(answers(set, request(Call::Release, 0, 0, 1, &[])), (0, 1));
    assert_eq!(set.word(), 0x0000_0000_02FF_FFFF);
    assert_eq!(answers(set, request(Call::Acquire, 0, 0, 0, &[])), (2, 0));
}

fn robust_sheet(set: &mut dyn WholeSet) {
    assert_eq!((set.word(), set.entries()), (0, vec![u64::MAX; 2]));
    for (index, owner) in [(0, 313), (1, 314)] {
        let acquire = request(Call::Acquire, 0, owner, 0, &[]);
        assert_eq!(answers(set, acquire), (0, index));
    }
    assert_eq!((set.word(), set.entries()), (2, vec![313, 314]));
    assert_eq!(answers(set, request(Call::Acquire, 0, 1, 0, &[])), (1, 0));
    assert_eq!(answers(set, request(Call::Release, 0, 314, 0, &[])), (6, 0));
    let mut reports = Vec::new();
    set.call(&request(Call::Find, 1, 314, 0, &[]), &mut reports);
    set.call(&request(Call::Recover, 0, 0, 1, &[313, 314]), &mut reports);
    let freed = |index, owner| Report::Freed { index, owner };
    assert_eq!(
        reports,
        [Report::Found { index: 1 }, freed(0, 313), freed(1, 314)]
    );
    assert_eq!(set.word(), u64::MAX);
    assert_eq!(answers(set, request(Call::Locked, 0, 0, 0, &[])), (0, 1));
}

#[test]
fn plain() {
    plain_sheet(&mut *oracle_whole::plain(3));
}

#[test]
fn plain_of_fixed_size() {
    plain_sheet(&mut *oracle_whole::fixed_plain::<3>(3).unwrap());
    plain_sheet(&mut *oracle_whole::fixed_plain::<8>(3).unwrap());
}

#[test]
fn robust() {
    robust_sheet(&mut *oracle_whole::robust(2));
}

#[test]
fn robust_of_fixed_size() {
    robust_sheet(&mut *oracle_whole::fixed_robust::<2>(2).unwrap());
    robust_sheet(&mut *oracle_whole::fixed_robust::<8>(2).unwrap());
}

#[test]
fn refused_capacities() {
    assert_eq!(oracle_whole::fixed_plain::<3>(4).err(), Some(3));
    assert_eq!(oracle_whole::fixed_plain::<3>(0).err(), Some(4));
    assert_eq!(oracle_whole::fixed_robust::<3>(4).err(), Some(3));
    assert_eq!(oracle_whole::fixed_robust::<3>(0).err(), Some(4));
}
