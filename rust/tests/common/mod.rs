//! Images and random numbers for the tests.
#![allow(dead_code)]

use rasuvelk::{Header, Refusal, Version, END_OF_CHAIN, FAT_SECTOR, FREE_SECTOR};

/// A spreadsheet that another program wrote.
pub const SAMPLE: &[u8] = include_bytes!("../../../examples/sample.xls");

/// An image of version 3 whose only FAT sector is sector 0, with these entries; sector i is full of a byte of its own.
pub fn image_of(entries: &[u32]) -> Vec<u8> {
    let mut header = Header { num_fat_sectors: 1, first_dir_sector: 1, ..Header::new(Version::V3) };
    header.initial_difat_entries[0] = 0;
    let mut bytes = vec![0xff; 1024];
    header.write_to(&mut bytes).unwrap();
    for (place, entry) in entries.iter().enumerate() {
        bytes[512 + 4 * place..][..4].copy_from_slice(&entry.to_le_bytes());
    }
    for i in 1..entries.len() {
        bytes.resize(512 * (i + 2), 0xa0 + i as u8);
    }
    bytes
}

/// Image Q of the specification: FAT, 2, 3, END, FREE, FREE.
pub fn image_q() -> Vec<u8> {
    image_of(&[FAT_SECTOR, 2, 3, END_OF_CHAIN, FREE_SECTOR, FREE_SECTOR])
}

/// The number of an answer; 0 is acceptance.
pub fn number<T>(answer: &Result<T, Refusal>) -> u32 {
    answer.as_ref().map_or_else(|refusal| refusal.number(), |_| 0)
}

/// Random numbers, the same at every run.
pub struct Random(pub u64);

impl Random {
    pub fn next(&mut self) -> u64 {
        self.0 = self.0.wrapping_add(0x9e37_79b9_7f4a_7c15);
        let mut mixed = self.0;
        mixed = (mixed ^ (mixed >> 30)).wrapping_mul(0xbf58_476d_1ce4_e5b9);
        mixed = (mixed ^ (mixed >> 27)).wrapping_mul(0x94d0_49bb_1331_11eb);
        mixed ^ (mixed >> 31)
    }

    /// A number below another one, which is not 0.
    pub fn below(&mut self, bound: usize) -> usize {
        (self.next() % bound as u64) as usize
    }

    /// One of a list.
    pub fn of<T: Copy>(&mut self, list: &[T]) -> T {
        list[self.below(list.len())]
    }
}
