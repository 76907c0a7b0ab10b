//! Changes to compare on: images with room after them, starts, offsets, buffers and lengths.

use crate::calls::{make_odd, one_chain};
use crate::changed::{Change, Holding};
use crate::inputs::{END, FREE, REGULAR_LAST};
use crate::layout::{self, Layout, FAT};
use crate::openings::{self, room};
use crate::random::Random;

/// A random image that opens strictly, its last bytes other than all that is before: chains, one long chain, loops, stray
/// marks, chains into the tables' own sectors. It is lent with so many sectors and bytes more, and tables a little longer.
pub fn holding(random: &mut Random, version: u16, n: usize, more: usize) -> Holding {
    let layout = match random.below(4) {
        0 => one_chain(random, version, n),
        1 => {
            let mut odd = Layout::random(random, version, n);
            make_odd(random, &mut odd, false);
            odd
        }
        _ => Layout::random(random, version, n),
    };
    let mut image = layout.noisy(random);
    let used = image.len();
    image.resize(used + more * layout.length() + random.pick(&[0, 0, 1, 511]), 0xd0 + more as u8 % 16);
    let room = room(version, image.len());
    let lengths = std::array::from_fn(|_| room + random.below(4));
    Holding::of(image, used, 1, lengths).unwrap()
}

/// Whether a sector begins what may be a chain: no entry points to it, and its own is END or a pointer.
fn is_head(holding: &Holding, id: usize) -> bool {
    let entry = holding.tables.fat[id];
    holding.tables.marks[id] == 0 && (entry == END || entry <= REGULAR_LAST)
}

/// Some head, if it is met soon.
fn head(random: &mut Random, holding: &Holding) -> Option<u32> {
    let n = holding.n();
    if n == 0 {
        return None;
    }
    let place = random.below(n);
    (place..n).chain(0..place).find(|&id| is_head(holding, id)).map(|id| id as u32)
}

/// A start: most often a head, or END; now and then any sector, or none at all.
pub fn start(random: &mut Random, holding: &Holding) -> u32 {
    let n = holding.n();
    match random.below(24) {
        0..=2 => END,
        3 | 4 => random.below(n + 1) as u32,
        5 if random.once_in(4) => random.pick(&[n as u32, n as u32 + 1, REGULAR_LAST, FAT, FREE, 1 << 31]),
        _ => head(random, holding).unwrap_or(END),
    }
}

/// One of the edges of a chain's sectors, or a byte beside it.
fn edge(random: &mut Random, length: usize, sectors: usize) -> u64 {
    let edge = (random.below(sectors + 1) * length) as u64;
    random.pick(&[edge.saturating_sub(1), edge, edge, edge + 1])
}

/// Numbers of bytes that no image has room for.
pub const TOO_LONG: [u64; 15] = [
    (1 << 28) + 4096,
    1 << 32,
    (1 << 32) + 1,
    (1 << 41) + 512,
    (1 << 44) + 4096,
    1 << 55,
    (1 << 55) + 1,
    1 << 63,
    (1 << 63) + 1,
    u64::MAX - 4096,
    u64::MAX - 4095,
    u64::MAX - 511,
    u64::MAX - 510,
    u64::MAX - 1,
    u64::MAX,
];

/// How many sectors may still be taken, FAT and DIFAT sectors among them; or one more, or one less.
fn around_the_room(random: &mut Random, holding: &Holding) -> usize {
    let left = holding.frees().len() + holding.room() - holding.n();
    random.pick(&[left.saturating_sub(2), left.saturating_sub(1), left, left, left + 1])
}

/// An offset for a write to a chain of so many sectors: its end, an edge, any byte; now and then past the end.
fn offset(random: &mut Random, length: usize, sectors: usize) -> u64 {
    let end = (sectors * length) as u64;
    match random.below(24) {
        0..=7 => end,
        8 | 9 => 0,
        10..=15 => edge(random, length, sectors).min(end),
        16 if random.once_in(2) => end + 1 + random.below(2 * length) as u64,
        17 if random.once_in(8) => random.pick(&TOO_LONG),
        _ => random.below(end as usize + 1) as u64,
    }
}

/// How many bytes are written: few, about a sector, several, to the end of the chain, all that there is room for.
fn count(random: &mut Random, holding: &Holding, sectors: usize, offset: u64, most: usize) -> usize {
    let length = holding.length();
    let rest = (sectors * length).saturating_sub(offset as usize);
    match random.below(16) {
        0 => 0,
        1 | 2 => 1,
        3..=5 => length + random.below(3) - 1,
        6 => rest,
        7 => rest + 1,
        8 => (around_the_room(random, holding).min(most) * length + rest).saturating_sub(random.below(2)),
        9 => (1 + random.below(most)) * length,
        10 | 11 => 1 + random.below(most * length),
        _ => 1 + random.below(length),
    }
}

/// A change of a chain of so many sectors: bytes and sectors of at most so many sectors more, but for lengths that no
/// image has room for.
pub fn change(random: &mut Random, holding: &Holding, sectors: usize, most: usize) -> Change {
    let length = holding.length();
    let end = sectors * length;
    match random.below(16) {
        0..=7 => {
            let offset = offset(random, length, sectors);
            let mut buf = vec![0; count(random, holding, sectors, offset, most)];
            random.fill(&mut buf);
            Change::Write(offset, buf)
        }
        8 => Change::Resize(0),
        9 => Change::Resize(end as u64),
        10 => Change::Resize(edge(random, length, sectors)),
        11 => Change::Resize(random.below(end + 1) as u64),
        12 => Change::Resize((end + random.below(most * length)) as u64),
        13 if random.once_in(4) => Change::Resize(random.pick(&TOO_LONG)),
        13 => {
            let more = around_the_room(random, holding).min(most);
            Change::Resize((end + more * length).saturating_add_signed(random.below(3) as isize - 1) as u64)
        }
        14 => Change::Resize(((sectors + random.below(most)) * length) as u64 + random.below(2) as u64),
        _ => Change::Free,
    }
}

/// A start and a change of its chain.
pub fn next(random: &mut Random, holding: &Holding, most: usize) -> (u32, Change) {
    let start = start(random, holding);
    let sectors = holding.listed(start).unwrap_or(1);
    (start, change(random, holding, sectors, most))
}

/// Gives the free list a random order.
pub fn permute(random: &mut Random, holding: &mut Holding) {
    let count = holding.frees().len();
    let frees = &mut holding.tables.frees[..count];
    match random.below(3) {
        0 => frees.reverse(),
        1 => frees.rotate_left(count / 2),
        _ => (1..count).for_each(|i| frees.swap(i, random.below(i + 1))),
    }
}

/// A buffer of this length, its bytes other than those of an image.
pub fn buffer(length: usize) -> Vec<u8> {
    (0..length).map(|i| 0x21 + (i % 0x5d) as u8).collect()
}

/// Changes around every edge of a chain of so many sectors.
fn each_change(length: usize, sectors: usize) -> Vec<Change> {
    let end = (sectors * length) as u64;
    let mut offsets = vec![0, 1, end.saturating_sub(1), end, end + 1, u64::MAX];
    let counts = [0, 1, length - 1, length, length + 1, 2 * length];
    let step = length as u64;
    let mut lengths = vec![0, 1, step - 1, step, step + 1, end.saturating_sub(step), end.saturating_sub(1), end];
    lengths.extend([end + 1, end + step, end + step + 1, end + 2 * step, end + 2 * step + 1, end + 3 * step]);
    lengths.extend([1 << 63, u64::MAX - step + 1, u64::MAX - step + 2, u64::MAX]);
    for list in [&mut offsets, &mut lengths] {
        list.sort_unstable();
        list.dedup();
    }
    let writes = offsets.into_iter().flat_map(|at| counts.map(|count| Change::Write(at, buffer(count))));
    writes.chain(lengths.into_iter().map(Change::Resize)).chain([Change::Free]).collect()
}

/// Shows changes around every edge of the chain from each sector, from END, and from three starts that are none.
pub fn each(holding: &Holding, see: &mut impl FnMut(u32, &Change)) {
    let n = holding.n() as u32;
    for start in (0..=n).chain([REGULAR_LAST, END, FREE]) {
        let sectors = holding.listed(start).unwrap_or(1);
        each_change(holding.length(), sectors).iter().for_each(|change| see(start, change));
    }
}

/// Shows every image of n sectors that opens strictly, its FAT sector at this place, lent with so many sectors more.
pub fn every_fat(version: u16, n: usize, place: usize, more: usize, see: &mut impl FnMut(&Holding)) {
    openings::every_fat(version, n, place, &mut |case| {
        if case.mode == 1 {
            let mut image = case.image.to_vec();
            image.resize(case.used + more * layout::length_of(version), 0x99);
            if let Some(holding) = Holding::of(image, case.used, 1, [n + more; 5]) {
                see(&holding);
            }
        }
    });
}

/// An image with n sectors of which none is FREE: those that are not of the tables are one chain, upward or downward or
/// mixed. It is lent with so many sectors more.
pub fn full(random: &mut Random, version: u16, n: usize, more: usize) -> Holding {
    let layout = one_chain(random, version, n);
    Holding::strict(layout.noisy(random), more)
}
