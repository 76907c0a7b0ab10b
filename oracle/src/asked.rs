//! What the Rust of cfb answers, in the words and numbers of the specification.

use crate::abi::{self, Tables, Words};
use crate::image;
use crate::internal::consts::{self, Sector};
use crate::internal::{Allocator, Chain, Header, SectorInit, Validation, Version};
use std::io::{Error, ErrorKind, Read, Seek, SeekFrom, Write};

/// How the Rust's messages begin, and the refusal that each is.
const CAUSES: [(&str, u32); 8] = [
    ("Invalid CFB file (wrong magic number)", 2),
    ("Invalid CFB byte order mark", 3),
    ("CFB version ", 4),
    ("Incorrect sector shift", 5),
    ("Incorrect mini sector shift", 6),
    ("Invalid number of directory sectors", 7),
    ("Incorrect mini stream cutoff", 8),
    ("Initial DIFAT array refers to invalid sector", 9),
];

/// What the messages of `Allocator::new` have in them, and the refusal that each is.
const FAT_CAUSES: [(&str, u32); 4] = [
    (" is not marked as such in the FAT", 14),
    (" points to ", 15),
    (" pointed to twice", 16),
    (" is not a valid FAT entry", 17),
];

/// The refusal that an error is, if its cause has a number.
fn numbered(error: &Error) -> Option<u32> {
    if error.kind() == ErrorKind::UnexpectedEof {
        return Some(1);
    }
    let message = error.to_string();
    assert_eq!(error.kind(), ErrorKind::InvalidData, "{message}");
    let cause = match message.strip_prefix("Malformed FAT (") {
        Some(rest) => FAT_CAUSES.iter().find(|cause| rest.contains(cause.0)),
        None => CAUSES.iter().find(|cause| message.starts_with(cause.0)),
    };
    cause.map(|cause| cause.1)
}

/// The refusal that an error of the header's reader is.
fn number_of(error: &Error) -> u32 {
    numbered(error).unwrap_or_else(|| panic!("no refusal begins so: {error}"))
}

/// The mode of a number: 0 is permissive.
pub fn mode_of(mode: u32) -> Validation {
    if mode == 0 {
        Validation::Permissive
    } else {
        Validation::Strict
    }
}

/// What `Header::read_from` makes of these bytes: 0 and the words, or the refusal.
pub fn read_header(bytes: &[u8], mode: u32) -> (u32, Words) {
    let mut left = bytes;
    match Header::read_from(&mut left, mode_of(mode)) {
        Ok(header) => (0, words_of(&header)),
        Err(error) => (number_of(&error), abi::REFUSED),
    }
}

/// What the Rust makes of an opening.
#[derive(Clone, Debug, PartialEq, Eq)]
pub enum Opening {
    /// Opened: its tables, each without zeros after it. The marks are read off its FAT.
    Opened(Tables),
    /// Refused by a cause that has a number.
    Refused(u32),
    /// Refused by another: a listed sector that is not there, or what the stand-ins can't load.
    Unnumbered(String),
}

/// What the Rust makes of an image whose bytes are all used.
pub fn open(bytes: &[u8], mode: u32) -> Opening {
    let (mut allocator, loaded) = match image::judge(bytes, mode_of(mode)) {
        Ok(opened) => opened,
        Err(error) => return numbered(&error).map_or(Opening::Unnumbered(error.to_string()), Opening::Refused),
    };
    let fat = image::fat_of(&allocator);
    let mut marks = vec![0; fat.len()];
    for &entry in fat.iter().filter(|&&entry| entry <= consts::MAX_REGULAR_SECTOR) {
        marks[entry as usize] = 1;
    }
    let count = fat.iter().filter(|&&entry| entry == consts::FREE_SECTOR).count();
    let frees = image::last_free(&mut allocator, count).unwrap();
    Opening::Opened(Tables { fat, fats: loaded.fat_sectors, difats: loaded.difat_sectors, frees, marks })
}

/// How the messages of a walk and of a seek begin, and the refusal that each is.
const CHAIN_CAUSES: [(&str, ErrorKind, u32); 4] = [
    ("Found reference to sector ", ErrorKind::InvalidData, 20),
    ("next_id (", ErrorKind::InvalidData, 21),
    ("Chain contained duplicate sector id ", ErrorKind::InvalidData, 22),
    ("Cannot seek to ", ErrorKind::InvalidInput, 23),
];

/// The refusal that an error of a chain is.
fn chain_number(error: Error) -> u32 {
    let message = error.to_string();
    let cause = CHAIN_CAUSES.iter().find(|cause| message.starts_with(cause.0) && error.kind() == cause.1);
    cause.unwrap_or_else(|| panic!("no refusal begins so: {message}")).2
}

/// What a chain's ids are, or the refusal: by a walk, and once more by what the allocator remembers of that.
pub fn open_chain<F>(allocator: &mut Allocator<F>, start: u32) -> Result<Vec<u32>, u32> {
    let walked = Chain::new(allocator, start, SectorInit::Zero).map(|chain| chain.sector_ids().to_vec());
    let opened = allocator.open_chain(start, SectorInit::Zero).map(|chain| {
        assert_eq!(chain.start_sector_id(), start);
        chain.sector_ids().to_vec()
    });
    let [walked, opened] = [walked, opened].map(|ids| ids.map_err(chain_number));
    assert_eq!(walked, opened);
    walked
}

/// What a chain's ids are and how many bytes were read from an offset, or the refusal. One read is a run of sectors that
/// follow one another, so it reads until the buffer is full or the chain ends.
pub fn read_chain<F: Read + Seek>(
    allocator: &mut Allocator<F>,
    start: u32,
    offset: u64,
    buf: &mut [u8],
) -> Result<(Vec<u32>, usize), u32> {
    let mut chain = Chain::new(allocator, start, SectorInit::Zero).map_err(chain_number)?;
    chain.seek(SeekFrom::Start(offset)).map_err(chain_number)?;
    let mut done = 0;
    loop {
        match chain.read(&mut buf[done..]).unwrap() {
            0 => return Ok((chain.sector_ids().to_vec(), done)),
            read => done += read,
        }
    }
}

/// A chain's ids after a buffer was written from an offset, or the refusal. One write is a run of sectors that follow one
/// another, so it is `write_all`.
pub fn write_chain<F: Write + Seek>(
    allocator: &mut Allocator<F>,
    start: u32,
    offset: u64,
    buf: &[u8],
) -> Result<Vec<u32>, u32> {
    let mut chain = Chain::new(allocator, start, SectorInit::Zero).map_err(chain_number)?;
    chain.seek(SeekFrom::Start(offset)).map_err(chain_number)?;
    chain.write_all(buf).unwrap();
    Ok(chain.sector_ids().to_vec())
}

/// A chain's ids after `set_len`, or the refusal.
pub fn resize_chain<F: Write + Seek>(allocator: &mut Allocator<F>, start: u32, length: u64) -> Result<Vec<u32>, u32> {
    let mut chain = Chain::new(allocator, start, SectorInit::Zero).map_err(chain_number)?;
    chain.set_len(length).unwrap();
    Ok(chain.sector_ids().to_vec())
}

/// No ids after `free`, or the refusal.
pub fn free_chain<F: Write + Seek>(allocator: &mut Allocator<F>, start: u32) -> Result<Vec<u32>, u32> {
    let chain = Chain::new(allocator, start, SectorInit::Zero).map_err(chain_number)?;
    chain.free().unwrap();
    Ok(vec![])
}

/// The words of a header.
pub fn words_of(header: &Header) -> Words {
    let mut words = abi::REFUSED;
    words[abi::VERSION] = header.version.number().into();
    words[abi::DIRECTORY_SECTORS] = header.num_dir_sectors;
    words[abi::FAT_SECTORS] = header.num_fat_sectors;
    words[abi::FIRST_DIRECTORY] = header.first_dir_sector;
    words[abi::FIRST_MINIFAT] = header.first_minifat_sector;
    words[abi::MINIFAT_SECTORS] = header.num_minifat_sectors;
    words[abi::FIRST_DIFAT] = header.first_difat_sector;
    words[abi::DIFAT_SECTORS] = header.num_difat_sectors;
    words[abi::LIST..].copy_from_slice(&header.initial_difat_entries);
    words
}

/// The header of these words, if the version is one.
pub fn header_of(words: &Words) -> Option<Header> {
    let number = u16::try_from(words[abi::VERSION]).ok()?;
    Some(Header {
        version: Version::from_number(number)?,
        num_dir_sectors: words[abi::DIRECTORY_SECTORS],
        num_fat_sectors: words[abi::FAT_SECTORS],
        first_dir_sector: words[abi::FIRST_DIRECTORY],
        first_minifat_sector: words[abi::FIRST_MINIFAT],
        num_minifat_sectors: words[abi::MINIFAT_SECTORS],
        first_difat_sector: words[abi::FIRST_DIFAT],
        num_difat_sectors: words[abi::DIFAT_SECTORS],
        initial_difat_entries: words[abi::LIST..].try_into().unwrap(),
    })
}

/// What `Header::write_to` does with this buffer: whether it wrote a whole header.
pub fn write_header(words: &Words, buf: &mut [u8]) -> bool {
    let mut left = buf;
    match header_of(words).unwrap().write_to(&mut left) {
        Ok(()) => true,
        Err(error) => {
            assert_eq!(error.kind(), ErrorKind::WriteZero);
            false
        }
    }
}

/// The kind of an entry by the constants of consts.rs.
pub fn kind_of(entry: u32) -> u32 {
    match entry {
        consts::FREE_SECTOR => 5,
        consts::END_OF_CHAIN => 4,
        consts::FAT_SECTOR => 3,
        consts::DIFAT_SECTOR => 2,
        consts::INVALID_SECTOR => 1,
        _ => {
            assert!(entry <= consts::MAX_REGULAR_SECTOR);
            0
        }
    }
}

/// An item of `prettify`: kind, two numbers, text.
#[derive(Clone, Debug, PartialEq, Eq)]
pub struct Item {
    pub kind: u32,
    pub a: u64,
    pub b: u64,
    pub text: String,
}

/// All items of `prettify`.
pub fn prettify(sectors: &[u32]) -> Vec<Item> {
    consts::prettify(sectors).iter().map(item_of).collect()
}

fn item_of(sector: &Sector) -> Item {
    let (kind, a, b) = match *sector {
        Sector::Free(count) => (abi::FREE, count as u64, 0),
        Sector::End => (abi::END, 1, 0),
        Sector::Fat(count) => (abi::FAT, count as u64, 0),
        Sector::Difat(count) => (abi::DIFAT, count as u64, 0),
        Sector::Range(first, last) => (abi::RANGE, first.into(), last.into()),
    };
    Item { kind, a, b, text: format!("{sector:?}") }
}

/// The text of an item, where there is such an item.
pub fn sector_text(kind: u32, a: u64, b: u64) -> Option<String> {
    let sector = match kind {
        abi::FREE => Sector::Free(a.try_into().ok()?),
        abi::END => Sector::End,
        abi::FAT => Sector::Fat(a.try_into().ok()?),
        abi::DIFAT => Sector::Difat(a.try_into().ok()?),
        abi::RANGE => Sector::Range(a.try_into().ok()?, b.try_into().ok()?),
        _ => return None,
    };
    Some(format!("{sector:?}"))
}
