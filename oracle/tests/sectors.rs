//! Kinds, items and their text against consts.rs.
#![cfg(oracle)]

use oracle::abi;
use oracle::asked::{self, Item};
use oracle::inputs;
use oracle::random::Random;

/// Our text of an item; what stands after it must be zero.
fn text_of(kind: u32, a: u64, b: u64) -> String {
    let mut out = [0xee; 32];
    let len = abi::sector_text(kind, a, b, &mut out);
    assert!(out[len..].iter().all(|&byte| byte == 0));
    String::from_utf8(out[..len].to_vec()).unwrap()
}

/// Our item at a place, and the place past it; nothing where there is none.
fn item_at(sectors: &[u32], at: usize) -> Option<(Item, usize)> {
    let mut item = [0x1234; 3];
    let kind = abi::prettify(sectors, at, &mut item);
    if kind == abi::NONE {
        assert_eq!(item, [0; 3]);
        return None;
    }
    let [a, b, past] = item;
    let item = Item { kind, a, b, text: text_of(kind, a, b) };
    Some((item, past as usize))
}

/// How many sectors an item covers.
fn covered(item: &Item) -> usize {
    let count = if item.kind == abi::RANGE { item.b - item.a + 1 } else { item.a };
    count as usize
}

/// Walks a list by our items and holds each against the Rust's. The number of items.
fn walk(sectors: &[u32]) -> u64 {
    let rusts = asked::prettify(sectors);
    let mut at = 0;
    for rust in &rusts {
        let (item, past) = item_at(sectors, at).unwrap();
        assert_eq!((&item, past), (rust, at + covered(rust)), "{sectors:x?} at {at}");
        at = past;
    }
    assert_eq!(at, sectors.len());
    for beyond in [at, at + 1, usize::MAX] {
        assert_eq!(item_at(sectors, beyond), None);
    }
    rusts.len() as u64
}

/// Holds the first item of each end of a list against the Rust's. The number of ends.
fn ends(sectors: &[u32]) -> u64 {
    for at in 0..sectors.len() {
        let first = asked::prettify(&sectors[at..]).swap_remove(0);
        let past = at + covered(&first);
        assert_eq!(item_at(sectors, at), Some((first, past)), "{sectors:x?} at {at}");
    }
    sectors.len() as u64
}

#[test]
fn kinds() {
    let mut counts = [0u64; 6];
    let mut random = Random::new("kinds");
    inputs::entries(&mut random, &mut |entry| {
        let kind = abi::kind_of(entry);
        assert_eq!(kind, asked::kind_of(entry), "{entry:x}");
        counts[kind as usize] += 1;
    });
    assert_eq!(counts.iter().sum::<u64>(), 2 * 65_536 + 64 + 1_000_000);
    assert!(counts.iter().all(|&count| count > 0), "{counts:?}");
}

#[test]
fn every_short_list() {
    let (mut lists, mut items, mut starts) = (0, 0, 0);
    inputs::short_lists(&mut |sectors| {
        lists += 1;
        items += walk(sectors);
        starts += ends(sectors);
    });
    assert_eq!(lists, 111_111);
    assert_eq!(starts, 10 + 2 * 100 + 3 * 1_000 + 4 * 10_000 + 5 * 100_000);
    // Of the 100 pairs of neighbours 7 are one item: 0 1, 1 2, f9 fa, fa fb, and the pairs of DIFAT, FAT, FREE.
    assert_eq!(items, starts - (7 + 2 * 70 + 3 * 700 + 4 * 7_000));
}

#[test]
fn long_lists() {
    let (mut lists, mut items, mut long) = (0, 0, 0);
    let mut random = Random::new("long lists");
    inputs::long_lists(&mut random, &mut |sectors| {
        lists += 1;
        items += walk(sectors);
        long += u64::from(sectors.len() > 1_000);
    });
    assert_eq!(lists, inputs::LONG_LISTS);
    assert!(items > 10_000 && long > 1_000, "{items} {long}");
}

/// A range may end at the reserved value; DIFAT, which comes next as a number, is no part of it.
#[test]
fn range_up_to_the_reserved_value() {
    let sectors = [0xffff_fff9, 0xffff_fffa, 0xffff_fffb, 0xffff_fffc, 0xffff_fffd, 0xffff_fffe, 0xffff_ffff, 0];
    assert_eq!(walk(&sectors), 6);
    assert_eq!(ends(&sectors), 8);
    let (first, past) = item_at(&sectors, 0).unwrap();
    assert_eq!((first.text.as_str(), past), ("4294967289..=4294967291", 3));
}

/// Holds our text against the Rust's; where there is no such item ours is empty. Whether there is one.
fn same_text(kind: u32, a: u64, b: u64) -> bool {
    let rusts = asked::sector_text(kind, a, b);
    assert_eq!(text_of(kind, a, b), rusts.clone().unwrap_or_default(), "{kind} {a} {b}");
    rusts.is_some()
}

#[test]
fn texts() {
    let (mut all, mut some) = (0, 0);
    let mut random = Random::new("texts");
    inputs::edge_items(&mut |kind, a, b| {
        all += 1;
        some += u64::from(same_text(kind, a, b));
    });
    assert_eq!(all, 13 * 56 * 56);
    // Four kinds take any numbers; a range takes two of the 31 edges below 2^32.
    assert_eq!(some, 4 * 56 * 56 + 31 * 31);
    inputs::random_items(&mut random, &mut |kind, a, b| {
        all += 1;
        some += u64::from(same_text(kind, a, b));
    });
    assert_eq!(all, 13 * 56 * 56 + 200_000);
    assert!(some > 100_000);
}
