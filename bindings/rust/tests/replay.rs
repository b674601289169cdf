//! Replay limits and start file at their limits.

use std::collections::BTreeSet;

use locker_log::{check_replay, start_file, Kind, Refusal};

#[test]
fn limits() {
    const LARGEST: usize = 268_435_456;
    assert_eq!(check_replay(Kind::Insert, 4096, 32768, LARGEST), Ok(()));
    assert_eq!(check_replay(Kind::Update, 4097, 32769, LARGEST + 1), Err(Refusal::RegionTooLarge));
    assert_eq!(check_replay(Kind::Update, 4097, 32769, LARGEST), Err(Refusal::KeyTooLong));
    assert_eq!(check_replay(Kind::Update, 4096, 32769, LARGEST), Err(Refusal::ValueTooLong));
    assert_eq!(check_replay(Kind::Insert, 4096, 32768, 36_879), Err(Refusal::NoSpace));
    assert_eq!(check_replay(Kind::Insert, 4096, 32768, 36_880), Ok(()));
    assert_eq!(check_replay(Kind::Insert, usize::MAX, usize::MAX, 0), Err(Refusal::KeyTooLong));
    assert_eq!(check_replay(Kind::Tombstone, 8, usize::MAX, 16), Ok(()));
    assert_eq!(check_replay(Kind::Tombstone, 9, 0, 16), Err(Refusal::NoSpace));
    assert_eq!(check_replay(Kind::Tombstone, 4097, 0, 16), Err(Refusal::KeyTooLong));
}

#[test]
fn start() {
    assert_eq!(start_file(&[], 0), Ok(None));
    assert_eq!(start_file(&[3], u64::MAX), Ok(Some(0)));
    assert_eq!(start_file(&[1, 5, 9], 5), Ok(Some(1)));
    assert_eq!(start_file(&[1, 5, 9], 6), Ok(Some(2)));
    assert_eq!(start_file(&[1, 5, 9], 10), Ok(Some(2)));
    assert_eq!(start_file(&[9, 5, 1], 4), Ok(Some(1)), "the smallest at or above, not the first");
    assert_eq!(start_file(&[5, 9, 1], 10), Ok(Some(1)), "the largest, not the last");
    assert_eq!(start_file(&[7; 64], 7), Err(Refusal::EqualOrdinals));
    assert_eq!(start_file(&[7; 65], 7), Err(Refusal::TooManyOrdinals));
}

/// Heap's way through all orders of a list.
fn each_order(list: &mut [u64], of: usize, visit: &mut impl FnMut(&[u64])) {
    if of <= 1 {
        return visit(list);
    }
    for i in 0..of {
        each_order(list, of - 1, visit);
        list.swap(if of % 2 == 0 { i } else { 0 }, of - 1);
    }
}

/// In each of the 720 orders of six ordinals the file is the one that the sorted list gives; with one of them twice there is
/// none.
#[test]
fn start_in_any_order() {
    const SORTED: [u64; 6] = [0, 1, 5, 9, u64::MAX - 1, u64::MAX];
    let mut list = SORTED;
    let mut orders = BTreeSet::new();
    each_order(&mut list, 6, &mut |list| {
        orders.insert(list.to_vec());
        for cursor in [0, 1, 2, 5, 6, 9, 10, u64::MAX - 1, u64::MAX] {
            let right = *SORTED.iter().find(|&&ordinal| ordinal >= cursor).unwrap();
            let place = start_file(list, cursor).unwrap().unwrap();
            assert_eq!(list[place], right);
            let few = start_file(&list[..3], cursor).unwrap().unwrap();
            let right = list[..3].iter().filter(|&&o| o >= cursor).min().or(list[..3].iter().max()).unwrap();
            assert_eq!(list[few], *right);
        }
        for twice in 0..6 {
            let longer = [list, &[list[twice]]].concat();
            assert_eq!(start_file(&longer, 5), Err(Refusal::EqualOrdinals));
        }
    });
    assert_eq!(orders.len(), 720, "each order was met");
}
