//! A look at an opened image: its bytes and what its tables say.

use crate::consts::{kind_of, Kind};
use crate::ffi::Look;
use crate::State;
use std::fmt;

/// A look at an opened image, owned or lent: its bytes and what its tables say of them.
///
/// ```
/// use rasuvelk::{Image, Validation, END_OF_CHAIN, FAT_SECTOR};
///
/// # fn main() -> Result<(), Box<dyn std::error::Error>> {
/// let image = Image::open(std::fs::read("../examples/sample.xls")?, Validation::Strict)?;
/// let view = image.view();
/// assert_eq!(view.fat(), [1, 2, 3, 4, 5, 6, 7, END_OF_CHAIN, FAT_SECTOR, END_OF_CHAIN]);
/// assert_eq!(view.fat_sectors(), [8]);
/// assert!(view.difat_sectors().is_empty() && view.free_sectors().is_empty());
/// # Ok(())
/// # }
/// ```
#[derive(Clone, Copy)]
pub struct View<'a> {
    look: Look<'a>,
    used: usize,
    sectors: usize,
    frees: usize,
    fats: usize,
    difats: usize,
    sector_len: usize,
}

/// The first so many of a list.
fn first<T>(list: &[T], count: usize) -> &[T] {
    list.get(..count).unwrap_or(list)
}

impl<'a> View<'a> {
    /// A look at what is lent, with the counts that its state has.
    pub(crate) fn of(look: Look<'a>, state: &State) -> View<'a> {
        let (fats, difats) = state.table_sectors();
        View {
            look,
            used: state.used(),
            sectors: state.num_sectors(),
            frees: state.num_free_sectors(),
            fats,
            difats,
            sector_len: state.version().sector_len(),
        }
    }

    /// The used bytes: what to write to a file.
    ///
    /// ```
    /// # fn main() -> Result<(), Box<dyn std::error::Error>> {
    /// # use rasuvelk::{Image, Validation};
    /// let file = std::fs::read("../examples/sample.xls")?;
    /// let image = Image::open(file.clone(), Validation::Strict)?;
    /// assert_eq!(image.view().bytes(), file);
    /// # Ok(())
    /// # }
    /// ```
    pub fn bytes(&self) -> &'a [u8] {
        first(self.look.image, self.used)
    }

    /// The FAT: an entry for each sector.
    ///
    /// ```
    /// # fn main() -> Result<(), rasuvelk::Refusal> {
    /// # use rasuvelk::{Image, Version};
    /// assert!(Image::create(Version::V3)?.view().fat().is_empty());
    /// # Ok(())
    /// # }
    /// ```
    pub fn fat(&self) -> &'a [u32] {
        first(self.look.tables.fat, self.sectors)
    }

    /// The ids of the sectors that the FAT stands in.
    ///
    /// ```
    /// # fn main() -> Result<(), rasuvelk::Refusal> {
    /// # use rasuvelk::{Image, Version};
    /// assert!(Image::create(Version::V3)?.view().fat_sectors().is_empty());
    /// # Ok(())
    /// # }
    /// ```
    pub fn fat_sectors(&self) -> &'a [u32] {
        first(self.look.tables.fats, self.fats)
    }

    /// The ids of the sectors that the DIFAT stands in.
    ///
    /// ```
    /// # fn main() -> Result<(), rasuvelk::Refusal> {
    /// # use rasuvelk::{Image, Version};
    /// assert!(Image::create(Version::V3)?.view().difat_sectors().is_empty());
    /// # Ok(())
    /// # }
    /// ```
    pub fn difat_sectors(&self) -> &'a [u32] {
        first(self.look.tables.difats, self.difats)
    }

    /// The free sectors. The next change takes from the end of the list.
    ///
    /// ```
    /// # fn main() -> Result<(), rasuvelk::Refusal> {
    /// # use rasuvelk::{Growth, Image, Version, END_OF_CHAIN};
    /// let mut image = Image::create(Version::V3)?;
    /// image.set_growth(Growth::AsNeeded);
    /// let chain = image.write(END_OF_CHAIN, 0, &[1; 1024])?;
    /// image.free(chain.start_sector_id())?;
    /// assert_eq!(image.view().free_sectors(), chain.sector_ids());
    /// # Ok(())
    /// # }
    /// ```
    pub fn free_sectors(&self) -> &'a [u32] {
        first(self.look.tables.frees, self.frees)
    }

    /// Whether some entry of the FAT names this sector, so that it is not the first of a chain.
    ///
    /// ```
    /// # fn main() -> Result<(), Box<dyn std::error::Error>> {
    /// # use rasuvelk::{Image, Validation};
    /// # let image = Image::open(std::fs::read("../examples/sample.xls")?, Validation::Strict)?;
    /// assert!(!image.view().is_pointed_to(0));
    /// assert!(image.view().is_pointed_to(1));
    /// # Ok(())
    /// # }
    /// ```
    pub fn is_pointed_to(&self, id: u32) -> bool {
        first(self.look.tables.marks, self.sectors).get(id as usize) == Some(&1)
    }

    /// The first sector of each chain: those that are in use, hold neither FAT nor DIFAT, and that no entry names.
    /// A chain that comes back to its start has no first sector, and is not among them.
    ///
    /// ```
    /// # fn main() -> Result<(), Box<dyn std::error::Error>> {
    /// # use rasuvelk::{Image, Validation};
    /// # let image = Image::open(std::fs::read("../examples/sample.xls")?, Validation::Strict)?;
    /// assert!(image.view().chain_starts().eq([0, 9]));
    /// # Ok(())
    /// # }
    /// ```
    pub fn chain_starts(self) -> impl Iterator<Item = u32> + 'a {
        let in_use = |entry: u32| matches!(kind_of(entry), Kind::Regular | Kind::End);
        let marks = first(self.look.tables.marks, self.sectors);
        let entries = self.fat().iter().zip(marks);
        entries.zip(0..=u32::MAX).filter(move |((&entry, &mark), _)| mark == 0 && in_use(entry)).map(|(_, id)| id)
    }

    /// The bytes of a sector, if there is one of this id.
    ///
    /// ```
    /// # fn main() -> Result<(), Box<dyn std::error::Error>> {
    /// # use rasuvelk::{Image, Validation};
    /// # let image = Image::open(std::fs::read("../examples/sample.xls")?, Validation::Strict)?;
    /// let directory = image.view().sector(9).ok_or("no directory")?;
    /// assert_eq!(directory[..4], *b"R\0o\0");
    /// assert_eq!(image.view().sector(10), None);
    /// # Ok(())
    /// # }
    /// ```
    pub fn sector(&self, id: u32) -> Option<&'a [u8]> {
        let start = (id as usize).checked_add(1)?.checked_mul(self.sector_len)?;
        self.bytes().get(start..start.checked_add(self.sector_len)?)
    }
}

impl fmt::Debug for View<'_> {
    fn fmt(&self, out: &mut fmt::Formatter<'_>) -> fmt::Result {
        out.debug_struct("View")
            .field("used", &self.used)
            .field("sectors", &self.sectors)
            .field("frees", &self.frees)
            .finish_non_exhaustive()
    }
}
