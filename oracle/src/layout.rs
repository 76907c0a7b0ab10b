//! Images to open: both versions, any number of sectors, the tables' sectors at chosen or random places.

use crate::inputs::{self, put32, END, FREE, LISTED, LIST_AT};
use crate::random::Random;

pub const DIFAT: u32 = 0xffff_fffc;
pub const FAT: u32 = 0xffff_fffd;

/// Where the header has the number of FAT sectors, the first DIFAT sector and their number.
pub const FATS_AT: usize = 44;
pub const FIRST_DIFAT_AT: usize = 68;
pub const DIFATS_AT: usize = 72;

/// Images of at most so many sectors have a byte of its own in every data sector; in longer ones these are zero.
const FILLED: usize = 600;

/// What an image is made from.
#[derive(Clone)]
pub struct Layout {
    pub version: u16,
    /// The FAT sectors and the DIFAT sectors, each in their order.
    pub fats: Vec<u32>,
    pub difats: Vec<u32>,
    /// An entry for each sector.
    pub entries: Vec<u32>,
}

/// Bytes of a sector.
pub fn length_of(version: u16) -> usize {
    if version == 3 {
        512
    } else {
        4096
    }
}

/// FAT sectors and DIFAT sectors of an image with n sectors.
pub fn counts(version: u16, n: usize) -> (usize, usize) {
    let entries = length_of(version) / 4;
    let k = n.div_ceil(entries);
    (k, k.saturating_sub(LISTED).div_ceil(entries - 1))
}

impl Layout {
    /// An image whose table sectors are the first of these, and all others FREE; the ids are all from 0 to n.
    fn over(version: u16, ids: &[u32]) -> Layout {
        let (k, d) = counts(version, ids.len());
        let (fats, difats) = (ids[..k].to_vec(), ids[k..k + d].to_vec());
        let mut layout = Layout { version, fats, difats, entries: vec![FREE; ids.len()] };
        for i in 0..k + d {
            layout.entries[ids[i] as usize] = if i < k { FAT } else { DIFAT };
        }
        layout
    }

    /// FAT sectors from 0, DIFAT sectors after them, all others FREE.
    pub fn plain(version: u16, n: usize) -> Layout {
        Layout::over(version, &(0..n as u32).collect::<Vec<_>>())
    }

    /// An image of version 3 whose only FAT sector is the first, with these entries.
    pub fn small(entries: &[u32]) -> Layout {
        Layout { entries: entries.to_vec(), ..Layout::plain(3, entries.len()) }
    }

    /// Image Q of the specification, without the room after it.
    pub fn q() -> Layout {
        Layout::small(&[FAT, 2, 3, END, FREE, FREE])
    }

    /// Table sectors anywhere; chains, loops, stray marks and free sectors. It opens in both modes.
    pub fn random(random: &mut Random, version: u16, n: usize) -> Layout {
        let mut ids: Vec<u32> = (0..n as u32).collect();
        if random.once_in(4) {
            ids.reverse();
        } else {
            for i in (1..n).rev() {
                ids.swap(i, random.below(i + 1));
            }
        }
        let mut layout = Layout::over(version, &ids);
        let odds = random.pick(&[1, 2, 5, 1_000_000]);
        let longest = random.pick(&[1, 3, 20, 500]);
        let mut rest = &ids[layout.fats.len() + layout.difats.len()..];
        while !rest.is_empty() {
            let (run, after) = rest.split_at(1 + random.below(longest.min(rest.len())));
            if !random.once_in(odds) {
                layout.link(random, run);
            }
            rest = after;
        }
        layout
    }

    /// Makes a run of sectors a chain, or once in a while a loop or stray marks.
    fn link(&mut self, random: &mut Random, run: &[u32]) {
        let ends = [END, END, END, END, run[0], FAT, DIFAT];
        for two in run.windows(2) {
            self.entries[two[0] as usize] = two[1];
        }
        self.entries[run[run.len() - 1] as usize] = random.pick(&ends);
    }

    /// How many sectors there are.
    pub fn n(&self) -> usize {
        self.entries.len()
    }

    /// Bytes of a sector.
    pub fn length(&self) -> usize {
        length_of(self.version)
    }

    /// Where entry `i` of the FAT stands; those past n too, up to the end of the last FAT sector.
    pub fn entry_at(&self, i: usize) -> usize {
        let each = self.length() / 4;
        (self.fats[i / each] as usize + 1) * self.length() + 4 * (i % each)
    }

    /// Where place `p` of the list of FAT sectors stands: in the header, or in a DIFAT sector.
    pub fn listed_at(&self, p: usize) -> usize {
        let each = self.length() / 4 - 1;
        match p.checked_sub(LISTED) {
            None => LIST_AT + 4 * p,
            Some(p) => (self.difats[p / each] as usize + 1) * self.length() + 4 * (p % each),
        }
    }

    /// Where the pointer to DIFAT sector `j` stands: in the header, or at the end of the one before.
    pub fn pointer_at(&self, j: usize) -> usize {
        match j.checked_sub(1) {
            None => FIRST_DIFAT_AT,
            Some(before) => (self.difats[before] as usize + 2) * self.length() - 4,
        }
    }

    /// The places of the list, the free ones too; the entries of all FAT sectors, those past n too.
    pub fn places(&self) -> (usize, usize) {
        let each = self.length() / 4;
        (LISTED + self.difats.len() * (each - 1), self.fats.len() * each)
    }

    /// The image.
    pub fn bytes(&self) -> Vec<u8> {
        let (length, n) = (self.length(), self.n());
        let mut bytes = vec![0; (n + 1) * length];
        bytes[..512].copy_from_slice(&inputs::good(self.version, 0));
        let sectors = bytes.chunks_mut(length).skip(1).zip(&self.entries);
        for (i, (sector, &entry)) in sectors.enumerate() {
            if entry != FAT && entry != DIFAT && n <= FILLED {
                sector.fill(0xa0 + (i % 64) as u8);
            }
        }
        for &id in self.fats.iter().chain(&self.difats) {
            bytes[(id as usize + 1) * length..][..length].fill(0xff);
        }
        put32(&mut bytes, FATS_AT, self.fats.len() as u32);
        put32(&mut bytes, DIFATS_AT, self.difats.len() as u32);
        for (p, &id) in self.fats.iter().enumerate() {
            put32(&mut bytes, self.listed_at(p), id);
        }
        for j in 0..=self.difats.len() {
            put32(&mut bytes, self.pointer_at(j), self.difats.get(j).copied().unwrap_or(END));
        }
        for (i, &entry) in self.entries.iter().enumerate() {
            put32(&mut bytes, self.entry_at(i), entry);
        }
        bytes
    }

    /// The image with random numbers wherever the opening does not look, and END or FREE where both will do.
    pub fn noisy(&self, random: &mut Random) -> Vec<u8> {
        let mut bytes = self.bytes();
        random.fill(&mut bytes[8..26]);
        random.fill(&mut bytes[34..40]);
        for at in [48, 52, 60, 64] {
            put32(&mut bytes, at, inputs::number(random));
        }
        if self.version == 4 {
            put32(&mut bytes, 40, inputs::number(random));
            random.fill(&mut bytes[512..4096]);
        }
        put32(&mut bytes, self.pointer_at(self.difats.len()), random.pick(&[END, FREE]));
        bytes
    }
}
