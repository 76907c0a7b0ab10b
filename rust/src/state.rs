//! The state of an opened image.

use crate::ffi::StateWords;
use crate::{Header, Refusal, Validation, Version};
use std::fmt;

/// What an opening knows of an image besides its tables: mode, used bytes, counts, header.
///
/// A [`Lent`](crate::Lent) image keeps it, and gives it out so that it can be kept elsewhere between two calls.
///
/// ```
/// use rasuvelk::{Image, Version};
///
/// # fn main() -> Result<(), rasuvelk::Refusal> {
/// let image = Image::create(Version::V3)?;
/// assert_eq!(image.state().used(), 512);
/// assert_eq!(image.state().num_sectors(), 0);
/// # Ok(())
/// # }
/// ```
#[derive(Clone, PartialEq, Eq)]
pub struct State {
    /// The words, which hold a state: mode 0 or 1, version 3 or 4, numbers of the header below 2^32.
    pub(crate) words: StateWords,
}

impl State {
    /// The state beside a refusal, for an opening to write over.
    pub(crate) fn none() -> State {
        let mut words = [0; 121];
        let [mode, _, _, _, version, ..] = &mut words;
        (*mode, *version) = (1, 3);
        State { words }
    }

    /// The state that these words hold, as [`to_words`](State::to_words) gave them.
    ///
    /// # Errors
    ///
    /// [19](Refusal::Disagrees) where they hold no state. Whether they are the state of an image is for the next call on
    /// that image to judge.
    ///
    /// ```
    /// use rasuvelk::{Image, Refusal, State, Version};
    ///
    /// # fn main() -> Result<(), rasuvelk::Refusal> {
    /// let words = Image::create(Version::V3)?.state().to_words();
    /// assert_eq!(State::from_words(words)?.version(), Version::V3);
    /// assert_eq!(State::from_words([9; 121]), Err(Refusal::Disagrees));
    /// # Ok(())
    /// # }
    /// ```
    pub fn from_words(words: [u64; 121]) -> Result<State, Refusal> {
        let [mode, _, _, _, version, numbers @ ..] = &words;
        let held = *mode <= 1 && (3..=4).contains(version) && numbers.iter().all(|&word| word <= u32::MAX.into());
        if held {
            Ok(State { words })
        } else {
            Err(Refusal::Disagrees)
        }
    }

    /// Its words, as docs/NUMBERS.md lays them out.
    ///
    /// ```
    /// use rasuvelk::{Image, Version};
    ///
    /// # fn main() -> Result<(), rasuvelk::Refusal> {
    /// let words = Image::create(Version::V4)?.state().to_words();
    /// assert_eq!(words[..5], [1, 4096, 0, 0, 4]);
    /// # Ok(())
    /// # }
    /// ```
    pub fn to_words(&self) -> [u64; 121] {
        self.words
    }

    /// The mode that the image was opened in.
    ///
    /// ```
    /// # fn main() -> Result<(), rasuvelk::Refusal> {
    /// let image = rasuvelk::Image::create(rasuvelk::Version::V3)?;
    /// assert!(image.state().validation().is_strict());
    /// # Ok(())
    /// # }
    /// ```
    pub fn validation(&self) -> Validation {
        let [mode, ..] = self.words;
        if mode == 0 {
            Validation::Permissive
        } else {
            Validation::Strict
        }
    }

    /// The used bytes of the image.
    ///
    /// ```
    /// # fn main() -> Result<(), rasuvelk::Refusal> {
    /// let image = rasuvelk::Image::create(rasuvelk::Version::V4)?;
    /// assert_eq!(image.state().used(), 4096);
    /// # Ok(())
    /// # }
    /// ```
    pub fn used(&self) -> usize {
        let [_, used, ..] = self.words;
        used as usize
    }

    /// The sectors of the image besides the header's.
    ///
    /// ```
    /// # fn main() -> Result<(), rasuvelk::Refusal> {
    /// let image = rasuvelk::Image::create(rasuvelk::Version::V4)?;
    /// assert_eq!(image.state().num_sectors(), 0);
    /// # Ok(())
    /// # }
    /// ```
    pub fn num_sectors(&self) -> usize {
        let [_, _, sectors, ..] = self.words;
        sectors as usize
    }

    /// How many of the sectors are free.
    ///
    /// ```
    /// # fn main() -> Result<(), rasuvelk::Refusal> {
    /// let image = rasuvelk::Image::create(rasuvelk::Version::V4)?;
    /// assert_eq!(image.state().num_free_sectors(), 0);
    /// # Ok(())
    /// # }
    /// ```
    pub fn num_free_sectors(&self) -> usize {
        let [_, _, _, frees, ..] = self.words;
        frees as usize
    }

    /// The version of the image.
    ///
    /// ```
    /// # fn main() -> Result<(), rasuvelk::Refusal> {
    /// let image = rasuvelk::Image::create(rasuvelk::Version::V4)?;
    /// assert_eq!(image.state().version(), rasuvelk::Version::V4);
    /// # Ok(())
    /// # }
    /// ```
    pub fn version(&self) -> Version {
        let [_, _, _, _, version, ..] = self.words;
        if version == 4 {
            Version::V4
        } else {
            Version::V3
        }
    }

    /// The header, as the image has it now.
    ///
    /// ```
    /// # fn main() -> Result<(), rasuvelk::Refusal> {
    /// let image = rasuvelk::Image::create(rasuvelk::Version::V4)?;
    /// assert_eq!(image.state().header().num_fat_sectors, 0);
    /// # Ok(())
    /// # }
    /// ```
    pub fn header(&self) -> Header {
        let [_, _, _, _, words @ ..] = self.words;
        Header::from_words(&words.map(|word| word as u32))
    }

    /// The sectors of the FAT and of the DIFAT, by the header.
    pub(crate) fn table_sectors(&self) -> (usize, usize) {
        let header = self.header();
        (header.num_fat_sectors as usize, header.num_difat_sectors as usize)
    }
}

impl fmt::Debug for State {
    fn fmt(&self, out: &mut fmt::Formatter<'_>) -> fmt::Result {
        out.debug_struct("State")
            .field("validation", &self.validation())
            .field("version", &self.version())
            .field("used", &self.used())
            .field("num_sectors", &self.num_sectors())
            .field("num_free_sectors", &self.num_free_sectors())
            .finish_non_exhaustive()
    }
}
