//! The openings of the replay list: small images, each described by a header, FAT entries and their sector.
//!
//! An image is on the list in a mode only if the Rust and the specification agree on it there. Both open it, and the
//! tables are the same; or both refuse it by the same number; or `Allocator::new` finds that the DIFAT lists a sector
//! that is not there, which is a part of refusal 12. What only the stand-ins refuse is no answer of the Rust. So 13 and
//! 18, which the Rust does not look for, are never on the list, nor are 10 and what else is 12. No image that a record
//! describes is refused by 1 or by 11.

use super::{begin, put_all, Record, BODY, OPENS};
use crate::abi::{self, Tables};
use crate::asked::{self, Opening};
use crate::inputs::{self, put32, Bytes, END, FREE, HEADER, LISTED, LIST_AT, REGULAR_LAST, SPECIAL};
use crate::layout::{Layout, DIFAT, FAT};
use crate::model;
use crate::random::Random;

/// The most sectors of an image, and the elements of each lent table.
pub const MOST: usize = 24;
/// Where the parts of an O record begin.
pub const ENTRIES: usize = 520;
pub const FAT_AFTER: usize = 616;
pub const FREES_AFTER: usize = 712;
pub const MARKS_AFTER: usize = 808;
pub const FATS_AFTER: usize = 832;
pub const DIFATS_AFTER: usize = 928;
/// Every byte of a lent table before the call.
pub const RUBBISH: u8 = 0xaa;

/// What the image of a record is made from.
#[derive(Clone, Copy)]
pub(super) struct Image {
    pub(super) header: Bytes,
    pub(super) n: usize,
    /// The sector that holds the entries, and FREE behind them. All others are zero.
    pub(super) place: usize,
    pub(super) entries: [u32; MOST],
}

impl Image {
    /// The image of a layout of at most 24 sectors of 512 bytes.
    fn of(layout: &Layout, header: &[u8]) -> Image {
        let mut entries = [FREE; MOST];
        entries[..layout.n()].copy_from_slice(&layout.entries);
        let place = layout.fats.first().map_or(0, |&id| id as usize);
        Image { header: header[..HEADER].try_into().unwrap(), n: layout.n(), place, entries }
    }

    /// The image whose FAT sector is the first, with these entries.
    pub(super) fn small(entries: &[u32]) -> Image {
        let layout = Layout::small(entries);
        Image::of(&layout, &layout.bytes())
    }

    /// The image whose FAT sector is this one, and whose other sectors are END.
    pub(super) fn ended(n: usize, place: usize) -> Image {
        let mut entries = vec![END; n];
        entries[place] = FAT;
        let layout = Layout { fats: vec![place as u32], entries, ..Layout::plain(3, n) };
        Image::of(&layout, &layout.bytes())
    }

    /// With another entry.
    pub(super) fn entry(mut self, i: usize, entry: u32) -> Image {
        self.entries[i] = entry;
        self
    }

    /// With another number in the header.
    fn field(mut self, at: usize, number: u32) -> Image {
        put32(&mut self.header, at, number);
        self
    }

    /// With another number in the header's list.
    fn listed(self, place: usize, number: u32) -> Image {
        self.field(LIST_AT + 4 * place, number)
    }

    /// The bytes that the record describes.
    pub(super) fn bytes(&self) -> Vec<u8> {
        let mut bytes = vec![0; HEADER * (MOST + 1)];
        bytes[..HEADER].copy_from_slice(&self.header);
        let sector = &mut bytes[HEADER * (self.place + 1)..][..HEADER];
        sector.fill(0xff);
        for (i, &entry) in self.entries.iter().enumerate() {
            put32(sector, 4 * i, entry);
        }
        bytes.truncate(HEADER * (self.n + 1));
        bytes
    }
}

/// The lent tables before the call.
pub fn lent() -> Tables {
    let word = u32::from_le_bytes([RUBBISH; 4]);
    let words = || vec![word; MOST];
    Tables { fat: words(), fats: words(), difats: words(), frees: words(), marks: vec![RUBBISH; MOST] }
}

/// A table with zeros to the end of a lent one.
fn padded<T: Copy + Default>(mut table: Vec<T>) -> Vec<T> {
    table.resize(MOST, T::default());
    table
}

/// The number of an opening and what it leaves, where the two agree.
pub(super) fn agreed(bytes: &[u8], mode: u32) -> Option<(u32, abi::State, Tables)> {
    let (mut tables, mut state) = (lent(), [7; 121]);
    let number = model::open(bytes, bytes.len(), mode, &mut tables, &mut state);
    let same = match asked::open(bytes, mode) {
        Opening::Opened(held) => {
            let (read, words) = asked::read_header(bytes, mode);
            let sectors = held.fat.len() as u64;
            let rusts = abi::state_of(mode.into(), bytes.len() as u64, sectors, held.frees.len() as u64, &words);
            let left = Tables {
                fat: padded(held.fat),
                fats: padded(held.fats),
                difats: padded(held.difats),
                frees: padded(held.frees),
                marks: padded(held.marks),
            };
            (number, read, state) == (0, 0, rusts) && tables == left
        }
        Opening::Refused(rusts) => number == rusts,
        Opening::Unnumbered(why) => number == 12 && why.contains(" entries, but DIFAT lists "),
    };
    same.then_some((number, state, tables))
}

/// The record of an opening, where the two agree.
fn open(image: &Image, mode: u32) -> Option<Record> {
    let (number, state, tables) = agreed(&image.bytes(), mode)?;
    let mut record = begin(b'O', mode, image.n, number);
    record[5] = image.place as u8;
    record[6] = state[abi::FREES] as u8;
    record[7] = state[abi::SECTORS] as u8;
    record[BODY..ENTRIES].copy_from_slice(&image.header);
    put_all(&mut record, ENTRIES, &image.entries);
    put_all(&mut record, FAT_AFTER, &tables.fat);
    put_all(&mut record, FREES_AFTER, &tables.frees);
    record[MARKS_AFTER..FATS_AFTER].copy_from_slice(&tables.marks);
    put_all(&mut record, FATS_AFTER, &tables.fats);
    put_all(&mut record, DIFATS_AFTER, &tables.difats);
    Some(record)
}

/// Image Q.
fn q() -> Image {
    Image::small(&Layout::q().entries)
}

/// Images that open: no sector, one, 24, Q, loops, stray marks, the FAT sector at each end.
fn whole() -> Vec<Image> {
    let chain: Vec<u32> = (1..=MOST as u32).map(|i| if i == 1 { FAT } else { i }).collect();
    let four = inputs::good(4, 0);
    vec![
        Image::small(&[]),
        Image::small(&[FAT]),
        q(),
        q().field(inputs::LONGS[7], FREE),
        Image::small(&chain).entry(MOST - 1, END),
        Image::small(&Layout::plain(3, MOST).entries),
        Image::small(&[FAT, 1, 3, 2, FAT, DIFAT, FREE]),
        Image::small(&[FAT, FREE, 0, END]),
        Image::ended(MOST, MOST - 1),
        Image::ended(5, 2),
        // Version 4: eight times 512 bytes are its header alone.
        Image { header: four, n: 7, ..Image::small(&[]) },
    ]
}

/// Images whose header is refused: 2 to 6, 7 where it is strict, 8 and 9.
fn headers() -> Vec<Image> {
    vec![
        q().field(0, 0xe011_cfd1),
        q().field(28, 0x0009_fffd),
        q().field(24, 0x0005_003e),
        q().field(28, 0x000c_fffe),
        q().field(32, 7),
        q().field(40, 1),
        q().field(56, 4095),
        q().listed(0, SPECIAL[0]),
        q().listed(1, END),
        Image { header: inputs::good(3, LISTED), ..q() }.listed(LISTED - 1, DIFAT),
    ]
}

/// Images whose FAT or lists are refused, and case 10 of the specification.
fn tables() -> Vec<Image> {
    vec![
        // 12: a sector is listed that is not there.
        Image::small(&[]).listed(0, 0),
        Image::small(&[FAT, END]).listed(1, 2),
        q().listed(1, REGULAR_LAST),
        // 14, and what stands behind it.
        q().entry(0, END),
        q().entry(0, FREE),
        q().entry(0, 5).entry(3, 6),
        Image::ended(MOST, MOST - 1).entry(MOST - 1, DIFAT),
        // 15: case 10, the first number that is none of a sector, and the last.
        q().entry(3, REGULAR_LAST),
        q().entry(3, 6),
        Image::ended(MOST, 3).entry(0, MOST as u32),
        // 16.
        q().entry(3, 2),
        Image::small(&[FAT, 1, 1]),
        Image::ended(MOST, 0).entry(1, 5).entry(MOST - 1, 5),
        // 17: case 10.
        q().entry(3, SPECIAL[0]),
        Image::small(&[FAT, SPECIAL[0]]),
        // The first bad sector decides.
        Image::small(&[FAT, 9, 3, END, 3, SPECIAL[0]]),
        Image::small(&[FAT, 3, 3, END, 9, SPECIAL[0]]),
        Image::small(&[FAT, SPECIAL[0], 9, 4, END, 4]),
    ]
}

/// A random image: a good one in which some entries are others.
pub(super) fn random_image(random: &mut Random) -> Image {
    let n = random.below(MOST + 1);
    let layout = Layout::random(random, 3, n);
    let mut image = Image::of(&layout, &layout.noisy(random));
    for _ in 0..random.below(3).min(n) {
        let other = [random.below(n + 1) as u32, REGULAR_LAST, SPECIAL[0], DIFAT, FAT, END, FREE];
        image.entries[random.below(n)] = random.pick(&other);
    }
    image
}

/// The records, the same at every run: every image in both modes, and random ones in one.
pub fn records() -> Vec<Record> {
    let random = &mut Random::fixed("replay openings");
    let made = [whole(), headers(), tables()].concat();
    let both = made.iter().flat_map(|image| [0, 1].map(|mode| open(image, mode).expect("the two agree on it")));
    let mut all: Vec<Record> = both.collect();
    while all.len() < OPENS {
        let image = random_image(random);
        all.extend(open(&image, random.below(2) as u32));
    }
    all
}
