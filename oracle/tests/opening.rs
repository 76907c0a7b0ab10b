//! The opening against `Allocator::new` over the stand-ins, and against the model, in both modes.
//!
//! What is meant to differ is said in `against.rs`, and each has a smallest input in `opening_differences.rs`.
#![cfg(oracle)]

use oracle::against::Tally;
use oracle::inputs::{put32, END};
use oracle::layout::Layout;
use oracle::random::Random;
use oracle::{lengths, openings};

/// Cases 1, 10 and 13 of the specification; what ours must answer stands in `opening_model.rs`.
#[test]
fn cases() {
    let mut tally = Tally::default();
    let mut image = Layout::q().bytes();
    for entry in [END, 0xffff_fffa, 0xffff_fffb] {
        put32(&mut image, 512 + 4 * 3, entry);
        openings::both(3, &image, &mut |case| tally.see(case));
    }
    for (version, n) in [(3, 16_384), (3, 16_385), (4, 16_384), (4, 16_385)] {
        openings::both(version, &Layout::plain(version, n).bytes(), &mut |case| tally.see(case));
    }
    // Opened: Q in both modes, its pointer past the end in one, and 16,384 sectors. The Rust opens 16,385 too.
    assert_eq!([0, 10, 15, 17].map(|number| tally.answers[number]), [7, 4, 1, 2]);
    assert_eq!((tally.compared(), tally.opened[10]), (14, 4));
}

#[test]
fn good_images() {
    let mut tally = Tally::default();
    openings::good(&mut Random::new("opening good"), &mut |case| tally.see(case));
    assert_eq!((tally.compared(), tally.answers[0]), (2_283, 2_283));
}

#[test]
fn damaged_images() {
    let mut tally = Tally::default();
    openings::damaged(&mut Random::new("opening damaged"), 1, &mut |case| tally.see(case));
    assert!(tally.compared() > 60_000, "{tally:?}");
    tally.has([0, 2, 3, 4, 5, 6, 7, 8, 9, 12, 13, 14, 15, 16, 17, 18], 100);
    assert!(tally.opened[12] > 100 && tally.forgotten > 10_000, "{tally:?}");
}

#[test]
fn damaged_difat_sectors() {
    let mut tally = Tally::default();
    openings::difats(&mut Random::new("opening difats"), &mut |case| tally.see(case));
    assert!(tally.compared() > 700, "{tally:?}");
    tally.has([0, 9, 12, 14], 10);
    assert!(tally.opened[12] > 100, "{tally:?}");
}

#[test]
fn broken_images() {
    let mut tally = Tally::default();
    openings::broken(&mut Random::new("opening broken"), 20_000, &mut |case| tally.see(case));
    assert_eq!(tally.compared(), 40_000);
    tally.has([0, 2, 3, 4, 5, 6, 7, 8, 9, 12, 13, 14, 15, 16, 17, 18], 50);
}

#[test]
fn random_images() {
    let mut tally = Tally::default();
    openings::random(&mut Random::new("opening random"), 40_000, &mut |case| tally.see(case));
    assert_eq!(tally.compared(), 80_000);
    tally.has([0, 9, 12, 14, 15, 16, 17, 18], 500);
    tally.has([13], 100);
}

#[test]
fn every_small_image() {
    let mut tally = Tally::default();
    openings::every_small(&mut |case| tally.see(case));
    let expected = [43_382, 0, 0, 0, 0, 0, 0, 0, 0, 0, 0, 0, 0, 0, 58_942, 2_364, 5_702, 16_746, 2_676];
    assert_eq!((tally.compared(), tally.answers), (129_812, expected));
}

#[test]
fn every_image_of_five() {
    let mut tally = Tally::default();
    openings::every_five(&mut |case| tally.see(case));
    let expected = [128_100, 0, 0, 0, 0, 0, 0, 0, 0, 0, 0, 0, 0, 0, 228_096, 9_080, 42_900, 75_100, 14_388];
    assert_eq!((tally.compared(), tally.answers), (2 * 12u64.pow(5), expected));
}

#[test]
fn every_small_header() {
    let mut tally = Tally::default();
    openings::every_header(&mut |case| tally.see(case));
    let expected = [68, 0, 0, 0, 0, 0, 0, 0, 0, 97_200, 0, 0, 33_940, 0, 12, 0, 0, 0, 0];
    assert_eq!((tally.compared(), tally.answers), (131_220, expected));
    assert_eq!((tally.opened[12], tally.forgotten), (2_632, 12_960));
}

#[test]
fn used_lengths() {
    let mut tally = Tally::default();
    lengths::used(&mut Random::new("opening used"), &mut |case| tally.see(case));
    assert_eq!((tally.compared(), tally.beyond), (5_004, 2_034));
    tally.has([0, 1, 10, 12], 200);
}

#[test]
fn table_lengths() {
    let mut tally = Tally::default();
    lengths::tables(&mut Random::new("opening tables"), &mut |case| tally.see(case));
    // Where a table is too short, the opening is asked once more with longer ones.
    assert_eq!((tally.compared(), tally.answers[0], tally.answers[11]), (40_904, 21_970, 18_934));
}

#[test]
fn long_lent() {
    let mut tally = Tally::default();
    lengths::long_lent(&mut Random::new("opening long"), &mut |case| tally.see(case));
    assert_eq!((tally.answers[0], tally.answers[10], tally.answers[11]), (750, 200, 300));
}
