//! Damages to an image: one number put somewhere else than what stands there.

use crate::inputs::{EDGES, FREE, LONGS, REGULAR_LAST, SHORTS};
use crate::layout::{Layout, DIFATS_AT, FATS_AT};
use crate::random::Random;

/// Four bytes for a place of an image. Swapped in twice, the image is as before.
#[derive(Clone, Copy, Debug)]
pub struct Edit {
    pub at: usize,
    pub bytes: [u8; 4],
}

impl Edit {
    /// A number of four bytes.
    pub fn long(at: usize, number: u32) -> Edit {
        Edit { at, bytes: number.to_le_bytes() }
    }

    /// A number of two bytes; the two after it stay.
    fn short(image: &[u8], at: usize, number: u16) -> Edit {
        let [low, high] = number.to_le_bytes();
        Edit { at, bytes: [low, high, image[at + 2], image[at + 3]] }
    }

    /// Swaps the bytes with those of the image.
    pub fn swap(&mut self, image: &mut [u8]) {
        image[self.at..self.at + 4].swap_with_slice(&mut self.bytes);
    }
}

/// At most about this many of the places below `count`, the first and the last among them.
pub fn some(count: usize, most: usize) -> Vec<usize> {
    if count <= most {
        return (0..count).collect();
    }
    let mut places: Vec<usize> = (0..most - 2).map(|i| i * (count - 1) / (most - 3)).collect();
    places.extend([1, count - 2]);
    places.sort_unstable();
    places.dedup();
    places
}

/// Numbers of all six kinds that mean something in this image.
pub fn numbers(layout: &Layout) -> Vec<u32> {
    let n = layout.n() as u32;
    let mut numbers = vec![0, 1, n.saturating_sub(1), n, n + 1, REGULAR_LAST];
    numbers.extend(REGULAR_LAST + 1..=FREE);
    numbers.extend(layout.fats.iter().take(1).chain(layout.fats.last()).chain(&layout.difats));
    let of_kind = |wanted: fn(u32) -> bool| layout.entries.iter().position(move |&entry| wanted(entry));
    // A free sector, one that points, and one that is pointed to.
    numbers.extend(of_kind(|entry| entry == FREE).map(|at| at as u32));
    if let Some(at) = of_kind(|entry| entry <= REGULAR_LAST) {
        numbers.extend([at as u32, layout.entries[at]]);
    }
    numbers.sort_unstable();
    numbers.dedup();
    numbers
}

/// Edits of the header's fields, the list apart.
fn of_fields(layout: &Layout, image: &[u8]) -> Vec<Edit> {
    let mut edits: Vec<Edit> = (0..8).map(|at| Edit::long(at, 0xd0)).collect();
    for at in SHORTS {
        edits.extend([0, 3, 4, 6, 9, 12, 0xfffe, 0xffff].map(|number| Edit::short(image, at, number)));
    }
    let (k, d) = (layout.fats.len() as u32, layout.difats.len() as u32);
    let counts = [k.wrapping_sub(1), k, k + 1, d.wrapping_sub(1), d, d + 1, k + 0x1_0000];
    for at in LONGS {
        let all = numbers(layout).into_iter().chain(EDGES).chain(counts);
        edits.extend(all.map(|number| Edit::long(at, number)));
    }
    edits
}

/// Edits of the list, of the DIFAT pointers, and of FAT entries: at most so many places of each.
fn of_tables(layout: &Layout, most: usize) -> Vec<Edit> {
    let (listed, _) = layout.places();
    let k = layout.fats.len();
    let mut places: Vec<usize> = some(listed.min(109), most).into_iter().map(|p| layout.listed_at(p)).collect();
    places.extend(some(listed.saturating_sub(109), most).into_iter().map(|p| layout.listed_at(109 + p)));
    places.extend([k.saturating_sub(1), k].iter().filter(|&&p| p < listed).map(|&p| layout.listed_at(p)));
    places.extend((0..=layout.difats.len()).map(|j| layout.pointer_at(j)));
    places.extend(some(layout.n(), most).into_iter().map(|i| layout.entry_at(i)));
    let of_sectors = layout.fats.iter().take(2).chain(&layout.difats);
    places.extend(of_sectors.map(|&id| layout.entry_at(id as usize)));
    places.sort_unstable();
    places.dedup();
    let numbers = numbers(layout);
    places.into_iter().flat_map(|at| numbers.iter().map(move |&number| Edit::long(at, number))).collect()
}

/// Edits of the entries past n, one number of each kind: at most so many places.
fn of_the_tail(layout: &Layout, most: usize) -> Vec<Edit> {
    let (n, (_, entries)) = (layout.n(), layout.places());
    let places = some(entries - n, most).into_iter().map(|i| layout.entry_at(n + i));
    places.flat_map(|at| [0].into_iter().chain(REGULAR_LAST..=FREE).map(move |number| Edit::long(at, number))).collect()
}

/// Edits of the counts, of every pointer to a DIFAT sector, of its first and last places, of those where the list ends,
/// and of the entries of the DIFAT sectors and of two FAT sectors.
pub fn of_difats(layout: &Layout) -> Vec<Edit> {
    let (k, d) = (layout.fats.len(), layout.difats.len());
    let (listed, _) = layout.places();
    let mut places = vec![FATS_AT, DIFATS_AT];
    places.extend((0..=d).map(|j| layout.pointer_at(j)));
    places.extend([108, 109, 110, k - 1, k, k + 1, listed - 1].map(|p| layout.listed_at(p)));
    let of_sectors = layout.difats.iter().chain([&layout.fats[0], &layout.fats[k - 1]]);
    places.extend(of_sectors.map(|&id| layout.entry_at(id as usize)));
    places.sort_unstable();
    places.dedup();
    let (k, d) = (k as u32, d as u32);
    let mut numbers = numbers(layout);
    numbers.extend([k - 1, k + 1, d + 1]);
    places.into_iter().flat_map(|at| numbers.iter().map(move |&number| Edit::long(at, number))).collect()
}

/// Every edit, at most so many places of each kind.
pub fn edits(layout: &Layout, image: &[u8], most: usize) -> Vec<Edit> {
    let mut all = of_fields(layout, image);
    all.extend(of_tables(layout, most));
    all.extend(of_the_tail(layout, most));
    all
}

/// Shows the image with each of these edits alone; it is as before afterwards.
pub fn each(edits: &[Edit], image: &mut [u8], see: &mut impl FnMut(&[u8])) {
    for &(mut edit) in edits {
        edit.swap(image);
        see(image);
        edit.swap(image);
    }
}

/// Puts some of these edits in for good.
pub fn several(random: &mut Random, edits: &[Edit], image: &mut [u8]) {
    for _ in 0..1 + random.below(4) {
        random.pick(edits).swap(image);
    }
}
