//! The opening held against the Rust of cfb, and against the model on the way.
//!
//! Where ours opens, or refuses by 14 to 17, the Rust does the same. The other refusals of the opening are differences
//! that are meant. Each is decided from the input, by the model or here, and what the Rust does instead is counted.

use crate::abi::{self, Tables};
use crate::asked::{self, Opening};
use crate::held::{self, Answer, Case};
use crate::image;
use crate::inputs::{FREE, HEADER, REGULAR_LAST};
use crate::layout::length_of;
use crate::meant::{forgetful, on_a_cut};
use crate::openings::room;

/// How often each answer was met, and how often the Rust opened beside it.
#[derive(Default, Debug)]
pub struct Tally {
    pub answers: [u64; 19],
    pub opened: [u64; 19],
    /// More is said to be used than is lent: there is nothing to ask the Rust.
    pub beyond: u64,
    /// What follows the first FREE of the header's list is forgotten by the Rust.
    pub forgotten: u64,
}

/// The version of an image, whose header is good.
fn version_of(image: &[u8]) -> u16 {
    image[26].into()
}

/// Whether some entry points at a FREE sector.
fn is_poisoned(fat: &[u32]) -> bool {
    fat.iter().any(|&entry| entry <= REGULAR_LAST && fat[entry as usize] == FREE)
}

/// A table with zeros to this length.
fn padded<T: Copy + Default>(mut table: Vec<T>, length: usize) -> Vec<T> {
    table.resize(length, T::default());
    table
}

/// The image with FREE for every FAT entry past the last sector. None where these are also places of a DIFAT sector.
fn without_a_tail(bytes: &[u8], mode: u32) -> Option<Vec<u8>> {
    let (_, tables) = image::loaded(bytes, asked::mode_of(mode)).unwrap();
    let length = length_of(version_of(bytes));
    let last = *tables.fat_sectors.last().unwrap();
    if tables.difat_sectors.contains(&last) {
        return None;
    }
    // Refusal 13: the last FAT sector has entries past n, so it is not full.
    let taken = (bytes.len() / length - 1) % (length / 4);
    let mut other = bytes.to_vec();
    let from = (last as usize + 1) * length;
    other[from + 4 * taken..from + length].fill(0xff);
    assert!(other != bytes);
    Some(other)
}

impl Tally {
    /// How many openings were compared.
    pub fn compared(&self) -> u64 {
        self.answers.iter().sum()
    }

    /// Each of these answers was met so often.
    pub fn has(&self, numbers: impl IntoIterator<Item = usize>, times: u64) {
        for number in numbers {
            assert!(self.answers[number] >= times, "{number} in {self:?}");
        }
    }

    /// Holds one opening.
    pub fn see(&mut self, case: &Case) {
        let ours = held::same(case);
        self.answers[ours.number as usize] += 1;
        match ours.number {
            1 => self.see_short(case),
            2..=9 => self.see_header(case, ours.number),
            11 => self.see_tables(case),
            _ => {
                let bytes = &case.image[..case.used];
                let rusts = asked::open(bytes, case.mode);
                self.opened[ours.number as usize] += u64::from(matches!(rusts, Opening::Opened(_)));
                see_sectors(case, &ours, bytes, rusts);
            }
        }
    }

    /// Too little is used, or more than is lent.
    fn see_short(&mut self, case: &Case) {
        if case.used > case.image.len() {
            self.beyond += 1;
            return;
        }
        assert!(case.used < HEADER, "{}", case.told());
        let bytes = &case.image[..case.used];
        assert_eq!(asked::read_header(bytes, case.mode).0, on_a_cut(bytes, case.mode), "{}", case.told());
    }

    /// The header is refused, by both but for what the Rust forgets.
    fn see_header(&mut self, case: &Case, number: u32) {
        let bytes = &case.image[..case.used];
        let rust = asked::read_header(bytes, case.mode);
        if rust.0 == 0 {
            // The Rust reads the list as if nothing but FREE followed.
            let other = forgetful(&bytes[..HEADER]).expect("nothing is forgotten");
            assert_eq!((number, rust), (9, asked::read_header(&other, case.mode)), "{}", case.told());
            self.forgotten += 1;
        } else {
            assert_eq!(rust.0, number, "{}", case.told());
            assert_eq!(asked::open(bytes, case.mode), Opening::Refused(number), "{}", case.told());
        }
    }

    /// A table is too short. The Rust has none: with tables that are long enough the two are compared.
    fn see_tables(&mut self, case: &Case) {
        let room = room(version_of(case.image), case.image.len());
        assert!(case.lengths.iter().any(|&length| length < room), "{}", case.told());
        self.see(&Case { lengths: [room; 5], ..*case });
    }
}

/// Holds an answer that the sectors decided, or their number.
fn see_sectors(case: &Case, ours: &Answer, bytes: &[u8], rusts: Opening) {
    match ours.number {
        0 => see_opened(case, ours, rusts),
        10 => {
            let length = length_of(version_of(bytes));
            assert!(bytes.len() % length != 0 || bytes.len() / length > 16_385, "{}", case.told());
        }
        // The model said so.
        12 => {}
        13 => {
            // The Rust's answer does not depend on it.
            if let Some(other) = without_a_tail(bytes, case.mode) {
                assert!(rusts == asked::open(&other, case.mode), "{}", case.told());
            }
        }
        18 => match rusts {
            Opening::Opened(tables) => assert!(is_poisoned(&tables.fat), "{}", case.told()),
            other => panic!("18, the Rust {other:?}: {}", case.told()),
        },
        number => assert_eq!(rusts, Opening::Refused(number), "{}", case.told()),
    }
}

/// Holds an accepted opening: the Rust has the same header, lists, FAT and free list, and nothing points at a FREE sector.
fn see_opened(case: &Case, ours: &Answer, rusts: Opening) {
    let Opening::Opened(tables) = rusts else {
        panic!("opened, the Rust {rusts:?}: {}", case.told());
    };
    assert!(!is_poisoned(&tables.fat), "{}", case.told());
    let (number, words) = asked::read_header(case.image, case.mode);
    let n = case.used / length_of(version_of(case.image)) - 1;
    let strict = u64::from(case.mode != 0);
    let state = abi::state_of(strict, case.used as u64, n as u64, tables.frees.len() as u64, &words);
    assert!((number, state) == (0, ours.state), "{}", case.told());
    let [fat, fats, difats, frees, marks] = case.lengths;
    let expected = Tables {
        fat: padded(tables.fat, fat),
        fats: padded(tables.fats, fats),
        difats: padded(tables.difats, difats),
        frees: padded(tables.frees, frees),
        marks: padded(tables.marks, marks),
    };
    assert!(ours.tables == expected, "{}", case.told());
}
