//! Sets of items as the crate's type: what is a member, what is refused, and the members in order.

use std::collections::HashSet;

use rights::{Item, ItemSet, Refusal};

/// Items that no set has a bit for; cut to six bits each would be one that is.
const BEYOND: [u32; 7] = [64, 65, 64 + 63, 128, 255, 1 << 31, u32::MAX];

/// Sets with the first and the last bit, neither, alternate ones, none and all.
const SETS: [u64; 7] =
    [0, 1, 1 << 63, 1 << 63 | 1, 0x5555_5555_5555_5555, 0x0123_4567_89ab_cdef, u64::MAX];

fn collected(items: impl IntoIterator<Item = u32>) -> Result<ItemSet, Refusal> {
    items.into_iter().map(Item).collect()
}

#[test]
fn empty() {
    assert_eq!(ItemSet::default(), ItemSet::EMPTY);
    assert_eq!(collected([]), Ok(ItemSet(0)));
    assert_eq!((ItemSet::EMPTY.len(), ItemSet::EMPTY.is_empty()), (0, true));
    assert_eq!(ItemSet::EMPTY.iter().next(), None);
}

/// "bit i for item i".
#[test]
fn one_member() {
    for item in 0..64 {
        let set = collected([item]).expect("a set");
        assert_eq!(set, ItemSet(1 << item));
        assert_eq!((set.len(), set.is_empty()), (1, false));
        assert!((0..64).all(|other| set.contains(Item(other)) == (other == item)));
        assert!(set.iter().eq([Item(item)]));
    }
}

/// The members come rising, each once, and collect to the same set, also backwards and twice.
#[test]
fn round_trip() {
    for set in SETS.map(ItemSet) {
        let items: Vec<Item> = set.iter().collect();
        assert!(items.windows(2).all(|pair| pair[0] < pair[1]), "{set:?}");
        assert!((0..64).map(Item).all(|item| items.contains(&item) == set.contains(item)));
        let twice = items.iter().rev().chain(&items).copied();
        assert_eq!(twice.collect::<Result<ItemSet, Refusal>>(), Ok(set));
        assert!(set.into_iter().eq(items.iter().copied()) && (&set).into_iter().eq(items));
    }
}

#[test]
fn exact_size() {
    for set in SETS.map(ItemSet) {
        let mut items = set.iter();
        for left in (0..set.len()).rev() {
            assert_eq!((items.len(), items.size_hint()), (left + 1, (left + 1, Some(left + 1))));
            assert!(items.next().is_some());
        }
        assert_eq!((items.len(), items.next(), items.next()), (0, None, None));
    }
    assert_eq!(SETS.map(|set| ItemSet(set).len()), [0, 1, 1, 2, 32, 32, 64]);
}

#[test]
fn insert_and_remove() {
    let mut set = ItemSet::EMPTY;
    for (count, item) in (1..).zip([63, 0, 31, 32]) {
        assert_eq!(set.insert(Item(item)), Ok(true));
        assert_eq!(set.insert(Item(item)), Ok(false));
        assert_eq!(set.len(), count);
    }
    assert_eq!(set, ItemSet(1 << 0 | 1 << 31 | 1 << 32 | 1 << 63));
    assert_eq!((set.remove(Item(32)), set.remove(Item(32))), (true, false));
    assert_eq!((set.remove(Item(1)), set), (false, ItemSet(1 << 0 | 1 << 31 | 1 << 63)));
}

/// An item above 63 is refused where a set would lose it, and is no member of any; the set stays.
#[test]
fn beyond_the_limit() {
    for item in BEYOND {
        for whole in SETS.map(ItemSet) {
            let mut set = whole;
            assert_eq!(set.insert(Item(item)), Err(Refusal::OutOfRange));
            assert!(!set.contains(Item(item)) && !set.remove(Item(item)));
            assert_eq!(set, whole);
        }
        for items in [vec![item], vec![item, 3], vec![3, item, 4], vec![0, 63, item]] {
            assert_eq!(collected(items), Err(Refusal::OutOfRange));
        }
    }
    assert_eq!(rights::ITEM_MAX, 63);
}

#[test]
fn told_and_hashed() {
    assert_eq!(format!("{:?}", ItemSet(1 << 63 | 1 << 3)), "{Item(3), Item(63)}");
    assert_eq!(format!("{:?}", ItemSet::EMPTY), "{}");
    assert_eq!(SETS.map(ItemSet).into_iter().collect::<HashSet<_>>().len(), SETS.len());
}
