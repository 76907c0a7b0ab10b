//! The values of FAT entries, and a FAT in short.

use crate::ffi;
use std::fmt;

/// Bytes of a header.
///
/// ```
/// assert_eq!(rasuvelk::HEADER_LEN, 512);
/// ```
pub const HEADER_LEN: usize = 512;

/// FAT sectors that the header itself can list.
///
/// ```
/// assert_eq!(rasuvelk::NUM_DIFAT_ENTRIES_IN_HEADER, 109);
/// ```
pub const NUM_DIFAT_ENTRIES_IN_HEADER: usize = 109;

/// The most sectors that an image may have besides the header's.
///
/// ```
/// assert_eq!(rasuvelk::MAX_SECTORS, 16_384);
/// ```
pub const MAX_SECTORS: usize = 16_384;

/// The largest entry that is a sector's id.
///
/// ```
/// use rasuvelk::{kind_of, Kind, MAX_REGULAR_SECTOR};
/// assert_eq!(kind_of(MAX_REGULAR_SECTOR), Kind::Regular);
/// ```
pub const MAX_REGULAR_SECTOR: u32 = 0xffff_fffa;

/// The entry that means nothing.
///
/// ```
/// use rasuvelk::{kind_of, Kind, INVALID_SECTOR};
/// assert_eq!(kind_of(INVALID_SECTOR), Kind::Invalid);
/// ```
pub const INVALID_SECTOR: u32 = 0xffff_fffb;

/// The entry of a sector of the DIFAT.
///
/// ```
/// use rasuvelk::{kind_of, Kind, DIFAT_SECTOR};
/// assert_eq!(kind_of(DIFAT_SECTOR), Kind::Difat);
/// ```
pub const DIFAT_SECTOR: u32 = 0xffff_fffc;

/// The entry of a sector of the FAT.
///
/// ```
/// use rasuvelk::{kind_of, Kind, FAT_SECTOR};
/// assert_eq!(kind_of(FAT_SECTOR), Kind::Fat);
/// ```
pub const FAT_SECTOR: u32 = 0xffff_fffd;

/// The entry of a chain's last sector, and the start of a chain that has none.
///
/// ```
/// use rasuvelk::{kind_of, Kind, END_OF_CHAIN};
/// assert_eq!(kind_of(END_OF_CHAIN), Kind::End);
/// ```
pub const END_OF_CHAIN: u32 = 0xffff_fffe;

/// The entry of a sector that is free.
///
/// ```
/// use rasuvelk::{kind_of, Kind, FREE_SECTOR};
/// assert_eq!(kind_of(FREE_SECTOR), Kind::Free);
/// ```
pub const FREE_SECTOR: u32 = 0xffff_ffff;

/// What an entry of the FAT is.
///
/// ```
/// use rasuvelk::{kind_of, Kind};
/// assert_eq!(kind_of(7), Kind::Regular);
/// ```
#[derive(Clone, Copy, Debug, PartialEq, Eq, Hash)]
pub enum Kind {
    /// The id of the next sector, 0 to 0xfffffffa.
    Regular,
    /// 0xfffffffb, which means nothing.
    Invalid,
    /// A sector of the DIFAT.
    Difat,
    /// A sector of the FAT.
    Fat,
    /// The last sector of a chain.
    End,
    /// A sector that is free.
    Free,
}

/// The kind of an entry.
///
/// ```
/// use rasuvelk::{kind_of, Kind};
/// assert_eq!(kind_of(0), Kind::Regular);
/// assert_eq!(kind_of(0xffff_ffff), Kind::Free);
/// ```
pub fn kind_of(entry: u32) -> Kind {
    match ffi::kind_of(entry) {
        0 => Kind::Regular,
        2 => Kind::Difat,
        3 => Kind::Fat,
        4 => Kind::End,
        5 => Kind::Free,
        _ => Kind::Invalid,
    }
}

/// A run of entries, as [`prettify`] lists them. Its text is by [`Display`](fmt::Display).
///
/// ```
/// use rasuvelk::Sector;
/// assert_eq!(Sector::Range(2, 3).to_string(), "2..=3");
/// assert_eq!(Sector::Free(2).to_string(), "2 FREE");
/// assert_eq!(Sector::End.to_string(), "EOC");
/// ```
#[derive(Clone, Copy, Debug, PartialEq, Eq, Hash)]
pub enum Sector {
    /// So many free sectors.
    Free(u64),
    /// The end of a chain.
    End,
    /// So many sectors of the FAT.
    Fat(u64),
    /// So many sectors of the DIFAT.
    Difat(u64),
    /// Entries that go up by one, from the first to the last.
    Range(u32, u32),
}

impl fmt::Display for Sector {
    fn fmt(&self, out: &mut fmt::Formatter<'_>) -> fmt::Result {
        let (kind, a, b) = match *self {
            Sector::Free(count) => (1, count, 0),
            Sector::End => (2, 1, 0),
            Sector::Fat(count) => (3, count, 0),
            Sector::Difat(count) => (4, count, 0),
            Sector::Range(first, last) => (5, first.into(), last.into()),
        };
        let (length, bytes) = ffi::sector_text(kind, a, b);
        let text = bytes.get(..length).unwrap_or_default();
        out.write_str(std::str::from_utf8(text).unwrap_or_default())
    }
}

/// A FAT in short: its entries in runs.
///
/// ```
/// use rasuvelk::{prettify, Sector, END_OF_CHAIN, FAT_SECTOR, FREE_SECTOR};
///
/// let fat = [FAT_SECTOR, 2, 3, END_OF_CHAIN, FREE_SECTOR, FREE_SECTOR];
/// let items = prettify(&fat);
/// assert_eq!(items, [Sector::Fat(1), Sector::Range(2, 3), Sector::End, Sector::Free(2)]);
/// ```
pub fn prettify(sectors: &[u32]) -> Vec<Sector> {
    let mut items = Vec::new();
    let mut at = 0;
    while at < sectors.len() {
        let (kind, [a, b, next]) = ffi::prettify(sectors, at);
        items.push(match kind {
            1 => Sector::Free(a),
            2 => Sector::End,
            3 => Sector::Fat(a),
            4 => Sector::Difat(a),
            5 => Sector::Range(a as u32, b as u32),
            _ => return items,
        });
        // The place after an item lies past it.
        at = (next as usize).max(at + 1);
    }
    items
}
