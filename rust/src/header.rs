//! The header of a compound file, and the two words that say how it is read.

use crate::consts::{END_OF_CHAIN, FREE_SECTOR, NUM_DIFAT_ENTRIES_IN_HEADER};
use crate::ffi::{self, HeaderWords};
use crate::Refusal;

/// The version of a compound file. It fixes the length of a sector.
///
/// ```
/// use rasuvelk::Version;
/// assert_eq!(Version::V3.sector_len(), 512);
/// assert_eq!(Version::V4.sector_len(), 4096);
/// ```
#[derive(Clone, Copy, Debug, PartialEq, Eq, Hash)]
pub enum Version {
    /// Version 3: sectors of 512 bytes.
    V3,
    /// Version 4: sectors of 4,096 bytes.
    V4,
}

impl Version {
    /// The version of a number, if there is one.
    ///
    /// ```
    /// use rasuvelk::Version;
    /// assert_eq!(Version::from_number(4), Some(Version::V4));
    /// assert_eq!(Version::from_number(5), None);
    /// ```
    pub fn from_number(number: u16) -> Option<Version> {
        match number {
            3 => Some(Version::V3),
            4 => Some(Version::V4),
            _ => None,
        }
    }

    /// Its number, 3 or 4.
    ///
    /// ```
    /// assert_eq!(rasuvelk::Version::V3.number(), 3);
    /// ```
    pub fn number(self) -> u16 {
        match self {
            Version::V3 => 3,
            Version::V4 => 4,
        }
    }

    /// Bytes of a sector, 512 or 4,096.
    ///
    /// ```
    /// assert_eq!(rasuvelk::Version::V4.sector_len(), 4096);
    /// ```
    pub fn sector_len(self) -> usize {
        match self {
            Version::V3 => 512,
            Version::V4 => 4096,
        }
    }
}

/// How strictly an image is opened.
///
/// ```
/// use rasuvelk::Validation;
/// assert!(Validation::Strict.is_strict());
/// ```
#[derive(Clone, Copy, Debug, PartialEq, Eq, Hash)]
pub enum Validation {
    /// Forgives [7](Refusal::DirSectors), [14](Refusal::Unmarked) and [15](Refusal::PastEnd). What is opened so can be
    /// read, and not changed.
    Permissive,
    /// Forgives nothing.
    Strict,
}

impl Validation {
    /// Whether it is strict.
    ///
    /// ```
    /// assert!(!rasuvelk::Validation::Permissive.is_strict());
    /// ```
    pub fn is_strict(self) -> bool {
        self == Validation::Strict
    }

    /// The number that the archive knows it by.
    pub(crate) fn mode(self) -> u32 {
        u32::from(self.is_strict())
    }
}

/// The header of a compound file.
///
/// ```
/// use rasuvelk::{Header, Validation, Version};
///
/// # fn main() -> Result<(), rasuvelk::Refusal> {
/// let mut bytes = [0; 512];
/// let header = Header { first_dir_sector: 1, ..Header::new(Version::V3) };
/// header.write_to(&mut bytes)?;
/// assert_eq!(Header::read_from(&bytes, Validation::Strict)?, header);
/// # Ok(())
/// # }
/// ```
#[derive(Clone, Debug, PartialEq, Eq)]
pub struct Header {
    /// The major version.
    pub version: Version,
    /// How many sectors the directory has; 0 in version 3.
    pub num_dir_sectors: u32,
    /// How many sectors the FAT has.
    pub num_fat_sectors: u32,
    /// The first sector of the directory.
    pub first_dir_sector: u32,
    /// The first sector of the MiniFAT.
    pub first_minifat_sector: u32,
    /// How many sectors the MiniFAT has.
    pub num_minifat_sectors: u32,
    /// The first sector of the DIFAT; [`END_OF_CHAIN`] where there is none.
    pub first_difat_sector: u32,
    /// How many sectors the DIFAT has.
    pub num_difat_sectors: u32,
    /// The first FAT sectors, then [`FREE_SECTOR`].
    pub initial_difat_entries: [u32; NUM_DIFAT_ENTRIES_IN_HEADER],
}

impl Header {
    /// The header of an image with no sectors.
    ///
    /// ```
    /// use rasuvelk::{Header, Version, END_OF_CHAIN};
    /// assert_eq!(Header::new(Version::V4).first_dir_sector, END_OF_CHAIN);
    /// ```
    pub fn new(version: Version) -> Header {
        Header {
            version,
            num_dir_sectors: 0,
            num_fat_sectors: 0,
            first_dir_sector: END_OF_CHAIN,
            first_minifat_sector: END_OF_CHAIN,
            num_minifat_sectors: 0,
            first_difat_sector: END_OF_CHAIN,
            num_difat_sectors: 0,
            initial_difat_entries: [FREE_SECTOR; NUM_DIFAT_ENTRIES_IN_HEADER],
        }
    }

    /// Reads the header in the first 512 of these bytes.
    ///
    /// # Errors
    ///
    /// Refusals 1 to 9; [7](Refusal::DirSectors) only where it is strict.
    ///
    /// ```
    /// use rasuvelk::{Header, Refusal, Validation};
    ///
    /// let cut = [0xd0, 0xcf, 0x11, 0xe0];
    /// assert_eq!(Header::read_from(&cut, Validation::Strict), Err(Refusal::TooShort));
    /// ```
    pub fn read_from(bytes: &[u8], validation: Validation) -> Result<Header, Refusal> {
        let mut words = [0; 117];
        ffi::read_header(bytes, validation.mode(), &mut words)?;
        Ok(Header::from_words(&words))
    }

    /// Writes it over the first 512 bytes of a buffer; the bytes after them stay.
    ///
    /// # Errors
    ///
    /// [1](Refusal::TooShort), [7](Refusal::DirSectors) and [9](Refusal::HeaderList), for which no reader could give
    /// it back. The buffer stays as it was then.
    ///
    /// ```
    /// use rasuvelk::{Header, Refusal, Version};
    ///
    /// let wrong = Header { num_dir_sectors: 1, ..Header::new(Version::V3) };
    /// let mut bytes = [7; 512];
    /// assert_eq!(wrong.write_to(&mut bytes), Err(Refusal::DirSectors));
    /// assert_eq!(bytes, [7; 512]);
    /// ```
    pub fn write_to(&self, buf: &mut [u8]) -> Result<(), Refusal> {
        ffi::write_header(&self.to_words(), buf)
    }

    /// The header that these words hold; a version word that is not 4 is taken for 3.
    pub(crate) fn from_words(words: &HeaderWords) -> Header {
        let [version, dirs, fats, dir, minifat, minifats, difat, difats, list @ ..] = *words;
        Header {
            version: if version == 4 { Version::V4 } else { Version::V3 },
            num_dir_sectors: dirs,
            num_fat_sectors: fats,
            first_dir_sector: dir,
            first_minifat_sector: minifat,
            num_minifat_sectors: minifats,
            first_difat_sector: difat,
            num_difat_sectors: difats,
            initial_difat_entries: list,
        }
    }

    fn to_words(&self) -> HeaderWords {
        let mut words = [0; 117];
        let front = [
            self.version.number().into(),
            self.num_dir_sectors,
            self.num_fat_sectors,
            self.first_dir_sector,
            self.first_minifat_sector,
            self.num_minifat_sectors,
            self.first_difat_sector,
            self.num_difat_sectors,
        ];
        for (word, number) in words.iter_mut().zip(front.into_iter().chain(self.initial_difat_entries)) {
            *word = number;
        }
        words
    }
}
