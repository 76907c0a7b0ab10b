//! A chain of sectors.

use crate::consts::END_OF_CHAIN;

/// A chain of an [`Image`](crate::Image): the ids of its sectors, as they were after the call that gave it.
///
/// ```
/// use rasuvelk::{Image, Validation};
///
/// # fn main() -> Result<(), Box<dyn std::error::Error>> {
/// let image = Image::open(std::fs::read("../examples/sample.xls")?, Validation::Strict)?;
/// let chain = image.chain(0)?;
/// assert_eq!(chain.sector_ids(), [0, 1, 2, 3, 4, 5, 6, 7]);
/// assert_eq!(chain.len(), 4096);
/// # Ok(())
/// # }
/// ```
#[derive(Clone, Debug, PartialEq, Eq)]
pub struct Chain {
    sector_ids: Vec<u32>,
    sector_len: usize,
}

impl Chain {
    /// The chain of the first so many ids of a list.
    pub(crate) fn of(mut list: Vec<u32>, count: usize, sector_len: usize) -> Chain {
        list.truncate(count);
        Chain { sector_ids: list, sector_len }
    }

    /// Its first sector, [`END_OF_CHAIN`] where it has none.
    ///
    /// ```
    /// # fn main() -> Result<(), rasuvelk::Refusal> {
    /// # use rasuvelk::{Image, Version, END_OF_CHAIN};
    /// # let image = Image::create(Version::V3)?;
    /// assert_eq!(image.chain(END_OF_CHAIN)?.start_sector_id(), END_OF_CHAIN);
    /// # Ok(())
    /// # }
    /// ```
    pub fn start_sector_id(&self) -> u32 {
        self.sector_ids.first().copied().unwrap_or(END_OF_CHAIN)
    }

    /// The ids of its sectors, in order.
    ///
    /// ```
    /// # fn main() -> Result<(), rasuvelk::Refusal> {
    /// # use rasuvelk::{Image, Version, END_OF_CHAIN};
    /// # let image = Image::create(Version::V3)?;
    /// assert!(image.chain(END_OF_CHAIN)?.sector_ids().is_empty());
    /// # Ok(())
    /// # }
    /// ```
    pub fn sector_ids(&self) -> &[u32] {
        &self.sector_ids
    }

    /// How many sectors it has.
    ///
    /// ```
    /// # fn main() -> Result<(), rasuvelk::Refusal> {
    /// # use rasuvelk::{Image, Version, END_OF_CHAIN};
    /// # let image = Image::create(Version::V3)?;
    /// assert_eq!(image.chain(END_OF_CHAIN)?.num_sectors(), 0);
    /// # Ok(())
    /// # }
    /// ```
    pub fn num_sectors(&self) -> usize {
        self.sector_ids.len()
    }

    /// Its length in bytes: whole sectors. How many of them a stream uses stands in the directory, which this package
    /// does not read.
    ///
    /// ```
    /// # fn main() -> Result<(), rasuvelk::Refusal> {
    /// # use rasuvelk::{Image, Version, END_OF_CHAIN};
    /// # let image = Image::create(Version::V3)?;
    /// assert_eq!(image.chain(END_OF_CHAIN)?.len(), 0);
    /// # Ok(())
    /// # }
    /// ```
    pub fn len(&self) -> u64 {
        self.sector_len as u64 * self.sector_ids.len() as u64
    }

    /// Whether it has no sectors.
    ///
    /// ```
    /// # fn main() -> Result<(), rasuvelk::Refusal> {
    /// # use rasuvelk::{Image, Version, END_OF_CHAIN};
    /// # let image = Image::create(Version::V3)?;
    /// assert!(image.chain(END_OF_CHAIN)?.is_empty());
    /// # Ok(())
    /// # }
    /// ```
    pub fn is_empty(&self) -> bool {
        self.sector_ids.is_empty()
    }
}
