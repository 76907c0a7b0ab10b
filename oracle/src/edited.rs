//! Lists of changes held against the Rust of cfb, which goes through each list on an allocator and bytes of its own.
//!
//! Where ours changes, the Rust does: ids, FAT, both lists, the free list in its order and every byte are the same. Where
//! ours refuses by 20 to 23 the Rust refuses by the same cause. The Rust is not asked where it has no such refusal: it is
//! lent nothing (11, 19), has no room that could end (24), and changes from the middle of a chain (25).

use crate::asked;
use crate::changed::{self, Call, Change, Holding, Outcome};
use crate::image::{self, Store};
use crate::inputs::{FREE, REGULAR_LAST};
use crate::internal::{Allocator, Validation};

/// How often each answer was met, and what the changes did.
#[derive(Default, Debug)]
pub struct Tally {
    pub answers: [u64; 27],
    /// Writes, resizes and frees that were accepted.
    pub kinds: [u64; 3],
    /// How many changed a byte, took a free sector, grew the image, freed a sector.
    pub effects: [u64; 4],
    /// FAT sectors and DIFAT sectors that were added.
    pub added: [u64; 2],
    /// Bytes that were written.
    pub bytes: u64,
}

/// The two sides of a list of changes.
pub struct Both {
    pub ours: Holding,
    pub rust: Allocator<Store>,
}

impl Both {
    /// The Rust opens the same bytes.
    pub fn of(ours: Holding) -> Both {
        let rust = image::open(ours.used().to_vec(), Validation::Strict).unwrap();
        Both { ours, rust }
    }

    /// Gives the Rust's free list the order of ours.
    pub fn order(&mut self) {
        image::order_free(&mut self.rust, self.ours.frees()).unwrap();
    }

    /// What the Rust makes of a change: the ids after it, or the refusal.
    fn rusts(&mut self, start: u32, change: &Change) -> Result<Vec<u32>, u32> {
        match change {
            Change::Write(offset, buf) => asked::write_chain(&mut self.rust, start, *offset, buf),
            Change::Resize(length) => asked::resize_chain(&mut self.rust, start, *length),
            Change::Free => asked::free_chain(&mut self.rust, start),
        }
    }

    /// What the Rust keeps and we do not hold. Its two lists are those of its bytes.
    fn difference(&mut self) -> Option<&'static str> {
        let Holding { tables, .. } = &self.ours;
        let fat = image::fat_of(&self.rust);
        let mut marks = vec![0; fat.len()];
        fat.iter().filter(|&&entry| entry <= REGULAR_LAST).for_each(|&entry| marks[entry as usize] = 1);
        let count = fat.iter().filter(|&&entry| entry == FREE).count();
        let frees = image::last_free(&mut self.rust, count).unwrap();
        let bytes = image::bytes_of(&self.rust);
        let (_, loaded) = image::loaded(bytes, Validation::Strict).unwrap();
        let all = [
            ("number of sectors", self.ours.n() == fat.len()),
            ("FAT", begins(&tables.fat, &fat)),
            ("marks", begins(&tables.marks, &marks)),
            ("free list", self.ours.frees() == frees && begins(&tables.frees, &frees)),
            ("FAT sectors", begins(&tables.fats, &loaded.fat_sectors)),
            ("DIFAT sectors", begins(&tables.difats, &loaded.difat_sectors)),
            ("bytes", self.ours.used() == bytes),
        ];
        all.into_iter().find(|same| !same.1).map(|same| same.0)
    }
}

/// Whether a table is these, and then zeros.
fn begins<T: Copy + Default + PartialEq>(table: &[T], with: &[T]) -> bool {
    table.starts_with(with) && table[with.len()..].iter().all(|&element| element == T::default())
}

impl Tally {
    /// How many calls were made.
    pub fn compared(&self) -> u64 {
        self.answers.iter().sum()
    }

    /// How many were refused.
    pub fn refused(&self) -> u64 {
        self.compared() - self.answers[0]
    }

    /// Each of these answers was met so often.
    pub fn has(&self, numbers: impl IntoIterator<Item = usize>, times: u64) {
        for number in numbers {
            assert!(self.answers[number] >= times, "{number} in {self:?}");
        }
    }

    /// Holds one change.
    pub fn see(&mut self, both: &mut Both, call: &Call) -> Outcome {
        let before = both.ours.clone();
        let ours = changed::ask(&mut both.ours, call);
        self.answers[ours.number as usize] += 1;
        match ours.number {
            0 => {
                let ids = both.rusts(call.start, call.change);
                assert_eq!(ids.as_deref(), Ok(&ours.ids[..ours.answer[0] as usize]), "{}", before.told(call));
                assert_eq!(both.difference(), None, "{}", before.told(call));
                self.count(&before, &both.ours, call.change, &ours);
            }
            20..=23 => {
                assert_eq!(both.rusts(call.start, call.change), Err(ours.number), "{}", before.told(call));
                assert!(both.ours.used() == image::bytes_of(&both.rust), "{}", before.told(call));
            }
            _ => {}
        }
        ours
    }

    /// Counts what a change did.
    fn count(&mut self, before: &Holding, after: &Holding, change: &Change, outcome: &Outcome) {
        let kind = match change {
            Change::Write(..) => 0,
            Change::Resize(_) => 1,
            Change::Free => 2,
        };
        self.kinds[kind] += 1;
        self.bytes += outcome.answer[2];
        let (old, new) = (before.frees().len(), after.frees().len());
        let effects = [before.image != after.image, new < old, after.n() > before.n(), new > old];
        self.effects.iter_mut().zip(effects).for_each(|(count, met)| *count += u64::from(met));
        let added = [before, after].map(|holding| holding.listed_sectors());
        (0..2).for_each(|i| self.added[i] += (added[1][i] - added[0][i]) as u64);
    }
}
