//! The calls that change a chain against `Chain` over the stand-ins: lists of changes, each compared with the Rust.
//!
//! The Rust keeps its allocator and its bytes through a whole list. What it does where ours refuses by a number that it does
//! not have stands in `changes_differences.rs`; the same calls against the model in `changes_model.rs`.
#![cfg(oracle)]

use oracle::abi;
use oracle::calls::scratch;
use oracle::changed::{Call, Change, Holding};
use oracle::edited::{Both, Tally};
use oracle::edits::{self, buffer};
use oracle::inputs::END;
use oracle::layout::Layout;
use oracle::random::Random;

/// Holds so many random changes of one image, of at most so many sectors each.
fn list(tally: &mut Tally, random: &mut Random, both: &mut Both, times: usize, most: usize) {
    let ids = scratch(random.below(6), both.ours.room() + random.below(4));
    for _ in 0..times {
        let (start, change) = edits::next(random, &both.ours, most);
        tally.see(both, &Call { ids: &ids, start, change: &change });
    }
}

/// Holds lists of changes of random images until so many changes were made.
fn lists(name: &str, changes: u64, version: u16, sectors: impl Fn(&mut Random) -> usize) -> Tally {
    let mut tally = Tally::default();
    let mut random = Random::new(name);
    while tally.answers[0] < changes {
        let (n, more) = (sectors(&mut random), random.pick(&[0, 0, 1, 2, 3, 5, 9, 14]));
        let mut both = Both::of(edits::holding(&mut random, version, n, more));
        list(&mut tally, &mut random, &mut both, 40, 5);
    }
    tally
}

/// Each kind and each effect was met so often, and each refusal; there is a refusal for four changes at least.
fn is_mixed(tally: &Tally, times: u64) {
    assert!(tally.refused() > tally.answers[0] / 4, "{tally:?}");
    assert!(tally.kinds.iter().chain(&tally.effects).all(|&count| count >= times), "{tally:?}");
    tally.has([20, 21, 22, 23, 24, 25], times.min(20));
}

/// Images of version 3 that need one FAT sector.
#[test]
fn short_images() {
    let tally = lists("changes short", 400_000, 3, |random| random.below(20));
    is_mixed(&tally, 10_000);
    assert!(tally.added[0] > 100, "{tally:?}");
}

/// The same with some more sectors.
#[test]
fn longer_images() {
    let tally = lists("changes longer", 150_000, 3, |random| random.below(60));
    is_mixed(&tally, 1_000);
}

/// Images of version 4 with few sectors.
#[test]
fn fourth_version() {
    let tally = lists("changes fourth", 50_000, 4, |random| random.below(6));
    is_mixed(&tally, 2_000);
    assert!(tally.added[0] > 50, "{tally:?}");
}

/// Images of version 3 whose last FAT sector is about full.
#[test]
fn around_a_fat_sector() {
    let mut tally = lists("changes around 128", 40_000, 3, |random| 120 + random.below(12) + 128 * random.below(2));
    is_mixed(&tally, 300);
    let mut random = Random::new("changes around 128, full");
    while tally.answers[0] < 60_000 {
        let (n, more) = (122 + random.below(8) + 128 * random.below(2), 1 + random.below(12));
        let mut both = Both::of(edits::full(&mut random, 3, n, more));
        list(&mut tally, &mut random, &mut both, 10, 5);
    }
    assert!(tally.added[0] > 500, "{tally:?}");
}

/// The free list in random orders, on both sides, before every change.
#[test]
fn permuted_free_lists() {
    let mut tally = Tally::default();
    let mut random = Random::new("changes permuted");
    while tally.answers[0] < 50_000 {
        let (n, more) = (random.below(24), random.below(4));
        let mut both = Both::of(edits::holding(&mut random, 3, n, more));
        for _ in 0..20 {
            edits::permute(&mut random, &mut both.ours);
            both.order();
            list(&mut tally, &mut random, &mut both, 1, 5);
        }
    }
    is_mixed(&tally, 1_000);
}

/// Every image of at most 3 sectors that opens strictly, with room for none, one and three more: changes around every edge
/// from every start. Of version 4 of at most 2.
#[test]
fn every_small_image() {
    let mut tally = Tally::default();
    let mut see = |holding: &Holding| {
        let ids = scratch(0, holding.room());
        edits::each(holding, &mut |start, change| {
            let mut both = Both::of(holding.clone());
            tally.see(&mut both, &Call { ids: &ids, start, change });
        });
    };
    for (n, place) in [(0, 0), (1, 0), (2, 0), (2, 1), (3, 0), (3, 1), (3, 2)] {
        [0, 1, 3].into_iter().for_each(|more| edits::every_fat(3, n, place, more, &mut see));
    }
    for (n, place) in [(0, 0), (1, 0), (2, 1)] {
        edits::every_fat(4, n, place, 1, &mut see);
    }
    let expected = [7_979, 68_238, 50_592, 6_783, 6_948, 5_736, 918];
    assert_eq!([0, 20, 21, 22, 23, 24, 25].map(|number| tally.answers[number]), expected);
    assert_eq!(
        (tally.compared(), tally.kinds, tally.effects),
        (147_194, [4_325, 3_075, 579], [5_884, 1_308, 3_632, 320])
    );
}

/// Q with room for some more sectors: every change around an edge, and after it every other one.
#[test]
fn every_two() {
    let mut tally = Tally::default();
    for more in [1, 2] {
        let first = Holding::strict(Layout::q().bytes(), more);
        let ids = scratch(2, first.room());
        for start in [1, END] {
            let mut changes = Vec::new();
            edits::each(&first, &mut |from, change| changes.extend((from == start).then(|| change.clone())));
            for change in changes {
                let mut both = Both::of(first.clone());
                let after = tally.see(&mut both, &Call { ids: &ids, start, change: &change });
                let second = both.ours.clone();
                for start in [1, END, after.answer[1] as u32] {
                    edits::each(&second, &mut |from, next| {
                        if after.number == 0 && from == start {
                            let mut both = Both::of(first.clone());
                            tally.see(&mut both, &Call { ids: &ids, start, change: &change });
                            tally.see(&mut both, &Call { ids: &ids, start, change: next });
                        }
                    });
                }
            }
        }
    }
    assert_eq!([0, 21, 23, 24].map(|number| tally.answers[number]), [20_264, 2_952, 4_788, 1_888]);
    assert_eq!(
        (tally.compared(), tally.kinds, tally.effects),
        (29_892, [11_438, 8_070, 756], [16_802, 8_186, 1_788, 3_136])
    );
}

/// Grows a chain of a full image and a new one over the end of the last FAT sector in several ways, and goes on at random.
fn grown(tally: &mut Tally, random: &mut Random, version: u16, n: usize, more: usize) {
    let full = edits::full(random, version, n, more);
    let step = full.length();
    let start = (0..n as u32).find(|&id| full.listed(id) == Some(n - full.listed_sectors().iter().sum::<usize>()));
    let (start, end) = (start.unwrap(), full.listed(start.unwrap()).unwrap() * step);
    let ways = [
        (start, Change::Write(end as u64, buffer(3 * step + 1))),
        (start, Change::Resize((end + 5 * step) as u64)),
        (END, Change::Write(0, buffer(2 * step))),
        (END, Change::Resize(9 * step as u64 - 1)),
    ];
    for (start, change) in ways {
        let mut both = Both::of(full.clone());
        let ids = scratch(random.below(6), full.room());
        tally.see(&mut both, &Call { ids: &ids, start, change: &change });
        list(tally, random, &mut both, 8, 12);
    }
}

/// Images of version 3 in which the next FAT sector is the first in a DIFAT sector.
#[test]
fn around_the_first_difat_sector() {
    let mut tally = Tally::default();
    let mut random = Random::new("changes first DIFAT");
    for n in [13_948, 13_951, 13_952] {
        grown(&mut tally, &mut random, 3, n, 30);
    }
    assert!(tally.answers[0] > 60 && tally.added.iter().all(|&added| added >= 10), "{tally:?}");
}

/// Images of version 3 in which the next FAT sector is one more in the DIFAT sector.
#[test]
fn around_a_further_difat_place() {
    let mut tally = Tally::default();
    let mut random = Random::new("changes further DIFAT");
    for n in [14_077, 14_080, 16_255] {
        grown(&mut tally, &mut random, 3, n, 30);
    }
    assert!(tally.answers[0] > 60 && tally.added[0] >= 11 && tally.added[1] == 0, "{tally:?}");
}

/// Images with almost as many sectors as may be, lent with room for more.
#[test]
fn around_the_most_sectors() {
    let mut tally = Tally::default();
    let mut random = Random::new("changes most");
    for n in [16_379, 16_382, 16_384] {
        grown(&mut tally, &mut random, 3, n, 16_390 - n);
    }
    assert!(tally.answers[0] > 40 && tally.answers[24] >= 8, "{tally:?}");
}

/// Images of version 4 whose last FAT sector is about full.
#[test]
fn fourth_around_a_fat_sector() {
    let mut tally = Tally::default();
    let mut random = Random::new("changes around 1,024");
    for n in [1_020, 1_023, 1_024] {
        grown(&mut tally, &mut random, 4, n, 20);
    }
    assert!(tally.answers[0] > 60 && tally.added[0] >= 10 && tally.added[1] == 0, "{tally:?}");
}

/// A first DIFAT sector of FREE reads as END, and its bytes stay until there is one.
#[test]
fn first_difat_of_free() {
    let mut tally = Tally::default();
    let mut image = Layout::plain(3, 0).bytes();
    image[68..72].fill(0xff);
    let mut both = Both::of(Holding::strict(image, 3));
    let ids = scratch(3, 3);
    for change in [Change::Write(0, buffer(600)), Change::Resize(0)] {
        let start = if change == Change::Resize(0) { 1 } else { END };
        tally.see(&mut both, &Call { ids: &ids, start, change: &change });
        assert_eq!(both.ours.state[abi::HEADER + abi::FIRST_DIFAT], u64::from(END));
        assert_eq!(both.ours.image[68..72], [0xff; 4]);
    }
    assert_eq!(tally.answers[0], 2);
}
