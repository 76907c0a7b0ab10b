//! The opening of the archive against the model, with no Rust at hand: number, state, every table to its end.
//!
//! The kinds of input are those that are compared with the Rust; the random ones are others, and more of them long.

use oracle::abi::{self, Tables, REFUSED_STATE};
use oracle::damage::Edit;
use oracle::held::{self, Answer, Case};
use oracle::inputs::{END, FREE};
use oracle::layout::{Layout, DIFAT, FAT};
use oracle::random::Random;
use oracle::{lengths, openings};

/// How often each answer was met.
#[derive(Default)]
struct Tally([u64; 19]);

impl Tally {
    fn see(&mut self, case: &Case) {
        self.0[held::same(case).number as usize] += 1;
    }

    fn compared(&self) -> u64 {
        self.0.iter().sum()
    }

    /// Each of these answers was met so often.
    fn has(&self, numbers: impl IntoIterator<Item = usize>, times: u64) {
        for number in numbers {
            assert!(self.0[number] >= times, "{number} in {:?}", self.0);
        }
    }
}

#[test]
fn good_images() {
    let mut tally = Tally::default();
    openings::good(&mut Random::new("model good"), &mut |case| tally.see(case));
    assert_eq!((tally.compared(), tally.0[0]), (2_283, 2_283));
}

#[test]
fn damaged_images() {
    let mut tally = Tally::default();
    openings::damaged(&mut Random::new("model damaged"), 4, &mut |case| tally.see(case));
    assert!(tally.compared() > 75_000, "{:?}", tally.0);
    tally.has([0, 2, 3, 4, 5, 6, 7, 8, 9, 12, 13, 14, 15, 16, 17, 18], 100);
}

#[test]
fn damaged_difat_sectors() {
    let mut tally = Tally::default();
    openings::difats(&mut Random::new("model difats"), &mut |case| tally.see(case));
    assert!(tally.compared() > 700, "{:?}", tally.0);
    tally.has([0, 9, 12, 14], 10);
}

#[test]
fn broken_images() {
    let mut tally = Tally::default();
    openings::broken(&mut Random::new("model broken"), 40_000, &mut |case| tally.see(case));
    assert_eq!(tally.compared(), 80_000);
    tally.has([0, 2, 3, 4, 5, 6, 7, 8, 9, 12, 13, 14, 15, 16, 17, 18], 100);
}

#[test]
fn random_images() {
    let mut tally = Tally::default();
    openings::random(&mut Random::new("model random"), 60_000, &mut |case| tally.see(case));
    assert_eq!(tally.compared(), 120_000);
    tally.has([0, 9, 12, 14, 15, 16, 17, 18], 1_000);
}

#[test]
fn every_small_image() {
    let mut tally = Tally::default();
    openings::every_small(&mut |case| tally.see(case));
    let expected = [43_382, 0, 0, 0, 0, 0, 0, 0, 0, 0, 0, 0, 0, 0, 58_942, 2_364, 5_702, 16_746, 2_676];
    assert_eq!((tally.compared(), tally.0), (129_812, expected));
}

#[test]
fn every_small_header() {
    let mut tally = Tally::default();
    openings::every_header(&mut |case| tally.see(case));
    let expected = [68, 0, 0, 0, 0, 0, 0, 0, 0, 97_200, 0, 0, 33_940, 0, 12, 0, 0, 0, 0];
    assert_eq!((tally.compared(), tally.0), (131_220, expected));
}

#[test]
fn used_lengths() {
    let mut tally = Tally::default();
    lengths::used(&mut Random::new("model used"), &mut |case| tally.see(case));
    assert_eq!(tally.compared(), 5_004);
    tally.has([0, 1, 10, 12], 200);
}

#[test]
fn table_lengths() {
    let mut tally = Tally::default();
    lengths::tables(&mut Random::new("model tables"), &mut |case| tally.see(case));
    assert_eq!((tally.compared(), tally.0[0], tally.0[11]), (21_970, 3_036, 18_934));
}

#[test]
fn long_lent() {
    let mut tally = Tally::default();
    lengths::long_lent(&mut Random::new("model long"), &mut |case| tally.see(case));
    assert_eq!((tally.0[0], tally.0[10], tally.0[11]), (450, 200, 300));
}

/// Any mode but 0 is strict, and the state says 1.
#[test]
fn other_modes() {
    let mut random = Random::new("model modes");
    let mut compared = 0;
    openings::broken(&mut random, 2_000, &mut |case| {
        if case.mode == 0 {
            return;
        }
        let strict = held::ask(case);
        for mode in [2, 256, 0x1_0000, 0x8000_0000, u32::MAX] {
            assert!(held::ask(&Case { mode, ..*case }) == strict, "{} {mode}", case.told());
            compared += 1;
        }
    });
    assert_eq!(compared, 10_000);
}

/// An image may begin at any place: each from 0 to 15 in a longer one.
#[test]
fn at_any_place() {
    let mut compared = 0;
    openings::broken(&mut Random::new("model places"), 500, &mut |case| {
        let first = held::ask(case);
        for place in 0..16 {
            let mut around = vec![0x99; case.image.len() + 16];
            let image = &mut around[place..place + case.image.len()];
            image.copy_from_slice(case.image);
            assert!(held::ask(&Case { image, ..*case }) == first, "{} {place}", case.told());
            compared += 1;
        }
    });
    assert_eq!(compared, 16_000);
}

/// An answer to Q, with room for a seventh sector and tables that are longer still, after these edits.
fn open_q(edits: &[(usize, u32)], mode: u32) -> Answer {
    let layout = Layout::q();
    let mut image = layout.bytes();
    for &(i, entry) in edits {
        Edit::long(layout.entry_at(i), entry).swap(&mut image);
    }
    let used = image.len();
    image.resize(used + 512, 0x11);
    held::same(&Case { image: &image, used, mode, lengths: [7, 8, 9, 10, 11] })
}

/// The tables of Q, whose sector 3 has this entry.
fn tables_of_q(third: u32) -> Tables {
    let mut tables = Tables::zero([7, 8, 9, 10, 11]);
    tables.fat[..6].copy_from_slice(&[FAT, 2, 3, third, FREE, FREE]);
    tables.frees[..2].copy_from_slice(&[4, 5]);
    tables.marks[2..4].fill(1);
    tables
}

/// Case 1: Q opens with six sectors, and 4 and 5 are free.
#[test]
fn opened() {
    for mode in [0, 1] {
        let answer = open_q(&[], mode);
        assert_eq!((answer.number, answer.tables), (0, tables_of_q(END)));
        assert_eq!(answer.state[..4], [mode.into(), 7 * 512, 6, 2]);
        let mut words = [FREE; 117];
        words[..9].copy_from_slice(&[3, 0, 1, 1, END, 0, END, 0, 0]);
        assert_eq!(answer.state[4..], words.map(u64::from));
    }
}

/// Case 10: a pointer past the end, and the reserved value.
#[test]
fn past_the_end_and_reserved() {
    let strict = open_q(&[(3, 0xffff_fffa)], 1);
    assert_eq!((strict.number, strict.state), (15, REFUSED_STATE));
    let permissive = open_q(&[(3, 0xffff_fffa)], 0);
    assert_eq!((permissive.number, permissive.tables), (0, tables_of_q(END)));
    for mode in [0, 1] {
        assert_eq!(open_q(&[(3, 0xffff_fffb)], mode).number, 17);
    }
}

/// Case 13: n = 16,384 opens, 16,385 is 10; in both versions.
#[test]
fn the_most_sectors() {
    for version in [3, 4] {
        for (n, number) in [(16_384, 0), (16_385, 10)] {
            let image = Layout::plain(version, n).bytes();
            for mode in [0, 1] {
                let answer = held::same(&Case { image: &image, used: image.len(), mode, lengths: [16_384; 5] });
                assert_eq!(answer.number, number);
                let frees = if version == 3 { 16_384 - 129 } else { 16_384 - 16 };
                let counts = if number == 0 { [16_384, frees] } else { [0, 0] };
                assert_eq!(answer.state[abi::SECTORS..abi::HEADER], counts);
            }
        }
    }
}

/// The first bad sector decides among 15 to 17; 18 comes after all of them, 14 before.
#[test]
fn the_first_bad_sector() {
    let [past, twice, reserved, free] = [(1, 9), (2, 3), (3, 0xffff_fffb), (1, 4)];
    // Sector 1 points to 2 and sector 2 to 3: an edit of another sector points there once more.
    for (edits, strict, permissive) in [
        (vec![past, (3, 3)], 15, 16),
        (vec![(1, 3), twice, reserved], 16, 16),
        (vec![(1, 0xffff_fffb), (3, 9)], 17, 17),
        (vec![free, (3, 9)], 15, 18),
        (vec![free, reserved], 17, 17),
        (vec![free, (3, 3)], 16, 16),
        (vec![free], 18, 18),
        (vec![(0, END), reserved], 14, 17),
        (vec![(0, 3), free], 14, 18),
        (vec![(6, 0), (0, END), reserved], 13, 13),
    ] {
        assert_eq!(open_q(&edits, 1).number, strict, "{edits:x?}");
        assert_eq!(open_q(&edits, 0).number, permissive, "{edits:x?}");
    }
}

/// What is left of an image of version 3 after one edit: the answers, permissive and strict.
fn edited(layout: &Layout, at: usize, number: u32) -> [Answer; 2] {
    let mut image = layout.bytes();
    Edit::long(at, number).swap(&mut image);
    let lengths = [layout.n(); 5];
    [0, 1].map(|mode| held::same(&Case { image: &image, used: image.len(), mode, lengths }))
}

/// After the last DIFAT sector, or in the header where there is none, stands END or FREE; the state then has END.
#[test]
fn ends_of_the_difat() {
    for n in [0, 1, 13_953] {
        let layout = Layout::plain(3, n);
        let first = layout.difats.first().copied().unwrap_or(END);
        let at = layout.pointer_at(layout.difats.len());
        for (end, number) in [(END, 0), (FREE, 0), (0xffff_fffb, 12), (DIFAT, 12), (FAT, 12), (0, 12)] {
            for answer in edited(&layout, at, end) {
                assert_eq!(answer.number, number, "{n} {end:x}");
                let expected = if number == 0 { first.into() } else { 0 };
                assert_eq!(answer.state[abi::HEADER + abi::FIRST_DIFAT], expected);
            }
        }
    }
}

/// A sector that is listed as DIFAT and as FAT is not marked as both; a permissive table marks it FAT.
#[test]
fn listed_as_both() {
    let layout = Layout::plain(3, 13_953);
    assert_eq!(layout.difats, [110]);
    let [permissive, strict] = edited(&layout, layout.listed_at(5), 110);
    assert_eq!((permissive.number, strict.number), (0, 14));
    let tables = permissive.tables;
    assert_eq!([tables.fats[5], tables.difats[0], tables.fat[110]], [110, 110, FAT]);
    // The entries of sectors 640 to 767 are what the DIFAT sector holds: an id, FREE, END.
    assert_eq!([tables.fat[640], tables.fat[641], tables.fat[767]], [109, FREE, END]);
}
