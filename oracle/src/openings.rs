//! Openings to compare on: images, used lengths, modes and table lengths.

use crate::damage;
use crate::held::Case;
use crate::inputs::{put32, END, FREE, REGULAR_LAST};
use crate::layout::{self, Layout, DIFAT, FAT};
use crate::random::Random;
use std::hint::black_box;

/// The sectors that a lent image has room for.
pub fn room(version: u16, lent: usize) -> usize {
    (lent / layout::length_of(version)).saturating_sub(1).min(16_384)
}

/// Shows an image in both modes, all of it used, with tables that are just long enough.
pub fn both(version: u16, image: &[u8], see: &mut impl FnMut(&Case)) {
    let lengths = [room(version, image.len()); 5];
    for mode in [0, 1] {
        see(&Case { image, used: image.len(), mode, lengths });
    }
}

/// A number that hardly two images share.
fn sum_of(image: &[u8]) -> u64 {
    let words = black_box(image).chunks_exact(8).map(|eight| u64::from_le_bytes(eight.try_into().unwrap()));
    words.fold(1, |sum, word| (sum.rotate_left(5) ^ word).wrapping_mul(0x9e37_79b9_7f4a_7c15))
}

/// Shows an image, and looks at it afterwards.
pub fn untouched(image: &mut [u8], show: impl FnOnce(&mut [u8])) {
    let before = sum_of(image);
    show(image);
    assert!(sum_of(image) == before, "the image was written");
}

/// Good images of version 3 around every multiple of 128 up to 16,384, each in one mode; of version 4 around every
/// multiple of 1,024, and shorter ones, in both.
pub fn good(random: &mut Random, see: &mut impl FnMut(&Case)) {
    let around = |each: usize, last: usize| {
        (0..=last).flat_map(move |times| [(times * each).wrapping_sub(1), times * each, times * each + 1])
    };
    for n in around(128, 128).filter(|&n| n <= 16_384) {
        let layout = Layout::random(random, 3, n);
        let mode = random.below(2) as u32;
        untouched(&mut layout.noisy(random), |image| {
            see(&Case { image, used: image.len(), mode, lengths: [n; 5] });
        });
    }
    for n in around(1024, 16).filter(|&n| n <= 16_384) {
        let layout = Layout::random(random, 4, n);
        untouched(&mut layout.noisy(random), |image| both(4, image, see));
    }
    for n in 0..300 {
        let layouts = [Layout::plain(3, n), Layout::random(random, 3, n), Layout::random(random, 4, n.min(20))];
        for layout in layouts {
            both(layout.version, &layout.noisy(random), see);
        }
    }
}

/// Version, number of sectors, how many places of each kind are damaged, and that only one damage in so many is shown.
const DAMAGED: [(u16, usize, usize, usize); 26] = [
    (3, 0, 200, 1),
    (3, 1, 200, 1),
    (3, 2, 200, 1),
    (3, 5, 200, 1),
    (3, 6, 200, 1),
    (3, 64, 200, 1),
    (3, 127, 200, 1),
    (3, 128, 200, 1),
    (3, 129, 200, 1),
    (3, 256, 300, 2),
    (3, 257, 300, 2),
    (3, 1_000, 30, 4),
    (3, 13_951, 5, 40),
    (3, 13_952, 5, 40),
    (3, 13_953, 5, 8),
    (3, 13_954, 5, 40),
    (3, 14_080, 5, 40),
    (3, 14_081, 5, 40),
    (3, 16_383, 5, 40),
    (3, 16_384, 5, 40),
    (4, 1, 30, 1),
    (4, 6, 30, 1),
    (4, 1_023, 12, 8),
    (4, 1_024, 12, 8),
    (4, 1_025, 12, 8),
    (4, 2_049, 8, 16),
];

/// Images with one damage each: every field, list entries, pointers, FAT entries of every kind, entries past n. Of long
/// images so many times more are shown.
pub fn damaged(random: &mut Random, times: usize, see: &mut impl FnMut(&Case)) {
    for (version, n, most, thin) in DAMAGED {
        let layout = Layout::random(random, version, n);
        let mut image = layout.noisy(random);
        let mut edits = damage::edits(&layout, &image, most);
        edits.retain(|_| random.once_in(thin.div_ceil(times)));
        untouched(&mut image, |image| damage::each(&edits, image, &mut |image| both(version, image, see)));
    }
}

/// Images with a DIFAT sector, damaged in everything that names it or stands in it.
pub fn difats(random: &mut Random, see: &mut impl FnMut(&Case)) {
    for n in [13_953, 16_384] {
        let layout = Layout::random(random, 3, n);
        let edits = damage::of_difats(&layout);
        untouched(&mut layout.noisy(random), |image| {
            damage::each(&edits, image, &mut |image| both(3, image, see));
        });
    }
}

/// Images with several damages each, some of them lent with room after the used part.
pub fn broken(random: &mut Random, times: usize, see: &mut impl FnMut(&Case)) {
    for _ in 0..times {
        let version = if random.once_in(20) { 4 } else { 3 };
        let n = if random.once_in(20) { random.below(400) } else { random.below(12) };
        let layout = Layout::random(random, version, n);
        let mut image = layout.noisy(random);
        let used = image.len();
        let edits = damage::edits(&layout, &image, 20);
        damage::several(random, &edits, &mut image);
        image.resize(used + random.pick(&[0, 0, 1, 511, 512, 4096, 9000]), 0xff);
        let room = room(version, image.len());
        let lengths = std::array::from_fn(|_| room + random.below(6));
        for mode in [0, 1] {
            see(&Case { image: &image, used, mode, lengths });
        }
    }
}

/// A number for an entry of an image with n sectors.
fn entry(random: &mut Random, n: usize) -> u32 {
    match random.below(8) {
        0 => REGULAR_LAST - 1 + random.below(7) as u32,
        1 => random.pick(&[FREE, END, FAT, DIFAT]),
        2 => random.word(),
        _ => random.below(n + 1) as u32,
    }
}

/// Images with random entries among good ones, and now and then random numbers in the header.
pub fn random(random: &mut Random, times: usize, see: &mut impl FnMut(&Case)) {
    for _ in 0..times {
        let n = if random.once_in(20) { random.below(300) } else { random.below(9) };
        let mut layout = Layout::random(random, 3, n);
        let odds = random.pick(&[1, 3, 10, 100]);
        for i in 0..n {
            if random.once_in(odds) {
                layout.entries[i] = entry(random, n);
            }
        }
        let mut image = layout.noisy(random);
        if random.once_in(4) {
            for at in [44, 68, 72, 76, 80] {
                let number = entry(random, n);
                if random.once_in(4) {
                    put32(&mut image, at, number);
                }
            }
        }
        both(3, &image, see);
    }
}

/// Every image of n sectors whose FAT sector is `place`, its entries from these: 0 to n, the last regular value, and
/// the five special ones.
pub fn every_fat(version: u16, n: usize, place: usize, see: &mut impl FnMut(&Case)) {
    let mut letters: Vec<u32> = (0..=n as u32).collect();
    letters.extend(REGULAR_LAST..=FREE);
    let mut layout = Layout::plain(version, n);
    layout.fats.fill(place as u32);
    let mut image = layout.bytes();
    for mut word in 0..letters.len().pow(n as u32) {
        for i in 0..n {
            put32(&mut image, layout.entry_at(i), letters[word % letters.len()]);
            word /= letters.len();
        }
        both(version, &image, see);
    }
}

/// Every image of at most 4 sectors with the FAT sector at each place; of version 4 up to 3.
pub fn every_small(see: &mut impl FnMut(&Case)) {
    for n in 0..=4 {
        (0..n.max(1)).for_each(|place| every_fat(3, n, place, see));
    }
    for n in 0..=3 {
        (0..n.max(1)).for_each(|place| every_fat(4, n, place, see));
    }
}

/// Every image of 5 sectors whose FAT sector is the first.
pub fn every_five(see: &mut impl FnMut(&Case)) {
    every_fat(3, 5, 0, see);
}

/// Every small header: counts, first DIFAT sector, the first two places of the list; over FATs of two sectors.
pub fn every_header(see: &mut impl FnMut(&Case)) {
    let ids = [0, 1, 2, REGULAR_LAST, REGULAR_LAST + 1, DIFAT, FAT, END, FREE];
    for n in 0..=2 {
        for entries in [[FAT, FREE], [FAT, FAT], [FAT, DIFAT], [DIFAT, FAT], [END, FAT]] {
            let mut image = Layout::plain(3, n).bytes();
            for sector in 1..=n {
                (0..n).for_each(|i| put32(&mut image, 512 * sector + 4 * i, entries[i]));
                image[512 * sector + 4 * n..512 * (sector + 1)].fill(0xff);
            }
            for word in 0..9 * 9 * 9 * 3 * 2 {
                put32(&mut image, 68, ids[word % 9]);
                put32(&mut image, 76, ids[word / 9 % 9]);
                put32(&mut image, 80, ids[word / 81 % 9]);
                put32(&mut image, 44, (word / 729 % 3) as u32);
                put32(&mut image, 72, (word / 2187) as u32);
                both(3, &image, see);
            }
        }
    }
}
