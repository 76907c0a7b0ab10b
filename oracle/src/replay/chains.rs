//! The calls of the replay list: the image of an O record is opened, and then its chain from a start.
//!
//! A call is on the list only if the image opens, the Rust and the specification agree on that, and both give the same
//! ids from the start or refuse it by the same number. 11 and 19, which are not asked of the Rust, are never on the list.

use super::opens::{self, Image, ENTRIES, MOST, RUBBISH};
use super::{begin, put_all, Record, BODY, CHAINS};
use crate::abi::Lent;
use crate::asked;
use crate::image;
use crate::inputs::{put32, END, FREE, REGULAR_LAST};
use crate::layout::{Layout, DIFAT, FAT};
use crate::model;
use crate::random::Random;

/// Where the parts of a C record begin that an O record does not have.
pub const START: usize = 616;
pub const IDS_AFTER: usize = 620;

/// The record of a call, where the two agree.
fn chain(image: &Image, mode: u32, start: u32) -> Option<Record> {
    let bytes = image.bytes();
    let (0, state, tables) = opens::agreed(&bytes, mode)? else {
        return None;
    };
    let (mut ids, mut answer) = ([u32::from_le_bytes([RUBBISH; 4]); MOST], [7; 3]);
    let lent = Lent { state: &state, image: &bytes, tables: &tables };
    let number = model::open_chain(&lent, &mut ids, start, &mut answer);
    let mut rust = image::lend(&bytes, asked::mode_of(mode)).ok()?;
    let (rusts, listed) = match asked::open_chain(&mut rust, start) {
        Ok(listed) => (0, listed),
        Err(number) => (number, Vec::new()),
    };
    let count = listed.len();
    let same =
        (number, answer[0]) == (rusts, count as u64) && ids[..count] == listed && ids[count..] == [0; MOST][count..];
    let mut record = begin(b'C', mode, image.n, number);
    record[5] = image.place as u8;
    record[6] = count as u8;
    record[BODY..ENTRIES].copy_from_slice(&image.header);
    put_all(&mut record, ENTRIES, &image.entries);
    put32(&mut record, START, start);
    put_all(&mut record, IDS_AFTER, &ids);
    same.then_some(record)
}

/// The starts of image Q: each sector, the first number that is none, and others that are none.
const STARTS: [u32; 12] = [0, 1, 2, 3, 4, 5, 6, 7, REGULAR_LAST, DIFAT, END, FREE];

/// Images and starts: one sector, 24 in any order, the middle of a chain, loops, chains into what is no chain's.
fn made() -> Vec<(Image, u32)> {
    let chain: Vec<u32> = (1..=MOST as u32).map(|i| if i == 1 { FAT } else { i }).collect();
    let up = Image::small(&chain).entry(MOST - 1, END);
    let down: Vec<u32> = (0..MOST as u32).map(|i| [FAT, END, i.wrapping_sub(1)][i.min(2) as usize]).collect();
    let down = Image::small(&down);
    let mixed = Image::small(&[FAT, 4, 1, END, 6, 3, 5, 2]);
    let odd = Image::small(&[FAT, 1, 3, 2, FAT, DIFAT, FREE, 4, 5, 0]);
    let last = Image::ended(MOST, MOST - 1);
    vec![
        (Image::small(&[]), END),
        (Image::small(&[]), 0),
        (Image::small(&[FAT]), 0),
        (up, 1),
        (up, 13),
        (down, MOST as u32 - 1),
        (down, 12),
        (mixed, 7),
        (mixed, 2),
        (mixed, 4),
        (odd, 1),
        (odd, 2),
        (odd, 3),
        (odd, 4),
        (odd, 6),
        (odd, 7),
        (odd, 8),
        (odd, 9),
        (last, 0),
        (last, MOST as u32 - 1),
    ]
}

/// A random call: an image as among the openings, and mostly one of its sectors.
fn random_call(random: &mut Random) -> (Image, u32) {
    let image = opens::random_image(random);
    let start = random.below(image.n + 2) as u32;
    (image, start)
}

/// The records, the same at every run: every call in both modes, and random ones in one.
pub fn records() -> Vec<Record> {
    let random = &mut Random::fixed("replay chains");
    let q = Image::small(&Layout::q().entries);
    let made: Vec<(Image, u32)> = STARTS.iter().map(|&start| (q, start)).chain(made()).collect();
    let both = made.iter().flat_map(|(image, start)| {
        [0, 1]
            .map(|mode| chain(image, mode, *start).unwrap_or_else(|| panic!("they differ from {start} in mode {mode}")))
    });
    let mut all: Vec<Record> = both.collect();
    while all.len() < CHAINS {
        let (image, start) = random_call(random);
        all.extend(chain(&image, random.below(2) as u32, start));
    }
    all
}
