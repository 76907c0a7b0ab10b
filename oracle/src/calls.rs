//! Calls to compare on: images that open, with what the opening gave; starts, offsets and buffers.

use crate::abi::{self, Lent, State, Tables};
use crate::called::Call;
use crate::damage;
use crate::held::Case;
use crate::inputs::{END, FREE, REGULAR_LAST};
use crate::layout::{length_of, Layout, DIFAT, FAT};
use crate::openings::{room, untouched};
use crate::random::Random;

/// An image that opens, what the opening gave, and what the id list holds before a call.
pub struct Opened<'a> {
    pub image: &'a [u8],
    pub state: State,
    pub tables: Tables,
    pub ids: Vec<u32>,
}

/// What an id list may hold before a call.
pub fn scratch(kind: usize, length: usize) -> Vec<u32> {
    let i = 0..length as u32;
    match kind % 6 {
        0 => i.map(|i| 0x5a5a_0000 + i % 0xffff).collect(),
        1 => i.map(|_| 0).collect(),
        2 => i.collect(),
        3 => i.map(|_| u32::MAX).collect(),
        4 => i.rev().collect(),
        _ => i.map(|i| i ^ 1).collect(),
    }
}

impl<'a> Opened<'a> {
    /// What the library's opening gives, if it accepts.
    pub fn of(case: &Case<'a>) -> Option<Opened<'a>> {
        let mut tables = Tables::zero(case.lengths);
        let mut state = abi::REFUSED_STATE;
        let number = abi::open(case.image, case.used, case.mode, &mut tables, &mut state);
        let ids = scratch(0, case.lengths[0]);
        (number == 0).then_some(Opened { image: case.image, state, tables, ids })
    }

    pub fn lent(&self) -> Lent<'_> {
        Lent { state: &self.state, image: self.image, tables: &self.tables }
    }

    /// A call on the chain from this start.
    pub fn call(&self, start: u32, read: Option<(u64, usize)>) -> Call<'_> {
        Call { lent: self.lent(), ids: &self.ids, start, read }
    }

    pub fn n(&self) -> usize {
        self.state[abi::SECTORS] as usize
    }

    /// Bytes of a sector.
    pub fn length(&self) -> usize {
        length_of(self.state[abi::HEADER] as u16)
    }

    /// Some places below n, the first and the last; two past the last; and numbers of every kind.
    pub fn starts(&self, most: usize) -> Vec<u32> {
        let n = self.n() as u32;
        let mut starts: Vec<u32> = damage::some(self.n(), most).into_iter().map(|id| id as u32).collect();
        starts.extend([n, n + 1, n + 2, 0x4000, 0x1_0000, 0x8000_0000]);
        starts.extend(REGULAR_LAST..=u32::MAX);
        starts
    }

    /// How many sectors the library lists from this start, if it opens.
    fn listed(&self, start: u32) -> Option<usize> {
        let mut answer = [0; 3];
        let number = abi::open_chain(&self.lent(), &mut self.ids.clone(), start, &mut answer);
        (number == 0).then_some(answer[0] as usize)
    }

    /// Offsets around the edge of every sector of a chain, of at most so many; and numbers that are too large.
    fn offsets(&self, sectors: usize, most: usize) -> Vec<u64> {
        let length = self.length() as u64;
        let mut offsets = Vec::new();
        for edge in damage::some(sectors + 1, most).into_iter().map(|edge| edge as u64 * length) {
            offsets.extend([edge.saturating_sub(1), edge, edge + 1]);
        }
        let end = sectors as u64 * length;
        offsets.extend([end + length, (1 << 32) - 1, 1 << 32, (1 << 32) + end, (1 << 63) - 1, 1 << 63]);
        offsets.extend([u64::MAX - length, u64::MAX - length + 2, u64::MAX - 1, u64::MAX]);
        offsets.sort_unstable();
        offsets.dedup();
        offsets
    }

    /// Buffers of none, one, around a sector, around the chain, around what remains of it.
    fn buffers(&self, sectors: usize, offset: u64) -> Vec<usize> {
        let (length, all) = (self.length(), sectors * self.length());
        let rest = all.saturating_sub(usize::try_from(offset).unwrap());
        let mut buffers =
            vec![0, 1, length - 1, length, length + 1, all, all + 1, rest.saturating_sub(1), rest, rest + 1];
        buffers.sort_unstable();
        buffers.dedup();
        buffers
    }

    /// Opens the chain from each sector, from END, and from three starts that are none.
    pub fn each_start(&self, see: &mut impl FnMut(&Call)) {
        let n = self.n() as u32;
        (0..=n).chain([REGULAR_LAST, END, FREE]).for_each(|start| see(&self.call(start, None)));
    }

    /// Opens the chain from every start, of at most so many below n.
    pub fn every_start(&self, most: usize, see: &mut impl FnMut(&Call)) {
        self.starts(most).into_iter().for_each(|start| see(&self.call(start, None)));
    }

    /// Reads the chain from every start, at every offset, into every buffer: of at most so many starts below n, and around
    /// so many edges of sectors.
    pub fn every_read(&self, starts: usize, edges: usize, see: &mut impl FnMut(&Call)) {
        for start in self.starts(starts) {
            let Some(sectors) = self.listed(start) else {
                let reads = [(0, 0), (0, 600), (512, 1), (u64::MAX, 1)];
                reads.into_iter().for_each(|read| see(&self.call(start, Some(read))));
                continue;
            };
            for offset in self.offsets(sectors, edges) {
                for buffer in self.buffers(sectors, offset) {
                    see(&self.call(start, Some((offset, buffer))));
                }
            }
        }
    }

    /// Some reads, most of them within the chain.
    pub fn some_reads(&self, random: &mut Random, times: usize, see: &mut impl FnMut(&Call)) {
        let mut starts: Vec<u32> = self.starts(300);
        starts.retain(|&start| self.listed(start).is_some() || random.once_in(8));
        for _ in 0..times {
            let start = random.pick(&starts);
            let all = self.listed(start).unwrap_or(1) * self.length();
            let offset = random.below(all + 2) as u64;
            let buffer = random.below(all + 2);
            see(&self.call(start, Some((offset, buffer))));
        }
    }
}

/// Every sector but those of the tables in one chain, upward or downward or mixed.
pub fn one_chain(random: &mut Random, version: u16, n: usize) -> Layout {
    let mut layout = Layout::plain(version, n);
    let first = layout.fats.len() + layout.difats.len();
    let mut ids: Vec<u32> = (first as u32..n as u32).collect();
    match random.below(3) {
        0 => ids.reverse(),
        1 => (1..ids.len()).for_each(|i| ids.swap(i, random.below(i + 1))),
        _ => {}
    }
    ids.windows(2).for_each(|two| layout.entries[two[0] as usize] = two[1]);
    if let Some(&last) = ids.last() {
        layout.entries[last as usize] = END;
    }
    layout
}

/// Makes some ends of chains run into sectors of the tables; and, for a permissive opening, past the end, or takes the
/// marks of such sectors away.
pub fn make_odd(random: &mut Random, layout: &mut Layout, permissive: bool) {
    let n = layout.n() as u32;
    let mut tables: Vec<u32> = layout.fats.iter().chain(&layout.difats).copied().collect();
    for i in 0..layout.n() {
        if layout.entries[i] == END && random.once_in(3) {
            layout.entries[i] = match tables.pop() {
                Some(id) if random.once_in(2) => id,
                _ if permissive => random.pick(&[n, n + 1, REGULAR_LAST]),
                _ => random.pick(&[FAT, DIFAT]),
            };
        }
    }
    if permissive {
        let unmarked: Vec<u32> = layout.fats.iter().chain(&layout.difats).copied().collect();
        unmarked.iter().filter(|_| random.once_in(3)).for_each(|&id| layout.entries[id as usize] = END);
    }
}

/// Shows an image in each mode in which it opens, lent with so much room after it and with longer tables.
fn show(random: &mut Random, layout: &Layout, after: usize, see: &mut impl FnMut(&Opened)) {
    let mut image = layout.noisy(random);
    let used = image.len();
    // The data sectors of long images are zero.
    for (i, sector) in image.chunks_mut(layout.length()).enumerate().skip(1) {
        if sector.iter().all(|&byte| byte == 0) {
            sector.fill((i % 251) as u8);
            sector[..4].copy_from_slice(&(i as u32).to_le_bytes());
        }
    }
    image.resize(used + after, 0xdd);
    let room = room(layout.version, image.len());
    untouched(&mut image, |image| {
        for mode in [0, 1] {
            let lengths = std::array::from_fn(|_| room + random.below(4));
            let case = Case { image, used, mode, lengths };
            if let Some(mut opened) = Opened::of(&case) {
                opened.ids = scratch(random.below(6), room + random.below(4));
                see(&opened);
            }
        }
    });
}

/// Images of so many sectors at most that open: chains, one long chain, loops, stray marks, chains into the tables' own
/// sectors; some that only open in the permissive mode.
pub fn images(random: &mut Random, third: &[usize], fourth: &[usize], see: &mut impl FnMut(&Opened)) {
    let all = third.iter().map(|&n| (3, n)).chain(fourth.iter().map(|&n| (4, n)));
    for (version, n) in all {
        let after = [0, 1, length_of(version), 2 * length_of(version) + 7];
        let mut odd = Layout::random(random, version, n);
        make_odd(random, &mut odd, false);
        let mut permissive = Layout::random(random, version, n);
        make_odd(random, &mut permissive, true);
        let layouts = [Layout::random(random, version, n), one_chain(random, version, n), odd, permissive];
        for layout in layouts {
            let after = random.pick(&after);
            show(random, &layout, after, see);
        }
    }
}
