//! Images over a byte vector, opened through alloc.rs and chain.rs, and a look at what these keep private.

use crate::internal::{consts, Allocator, Header, SectorInit, Sectors, Validation, Version};
use std::io::{Cursor, Empty, Result, Seek, Write};

/// The allocator over a byte vector.
pub type Store = Cursor<Vec<u8>>;

/// Number `at` of four bytes, little-endian.
pub fn get32(bytes: &[u8], at: usize) -> u32 {
    u32::from_le_bytes(bytes[at..at + 4].try_into().unwrap())
}

/// Stores a number of four bytes, little-endian.
pub fn put32(bytes: &mut [u8], at: usize, number: u32) {
    bytes[at..at + 4].copy_from_slice(&number.to_le_bytes());
}

/// An image of version 3 whose only FAT sector is sector 0: its entries are these, at most 128.
pub fn small_image(entries: &[u32]) -> Vec<u8> {
    let mut list = [consts::FREE_SECTOR; 109];
    list[0] = 0;
    let header = Header {
        version: Version::V3,
        num_dir_sectors: 0,
        num_fat_sectors: 1,
        first_dir_sector: 1,
        first_minifat_sector: consts::END_OF_CHAIN,
        num_minifat_sectors: 0,
        first_difat_sector: consts::END_OF_CHAIN,
        num_difat_sectors: 0,
        initial_difat_entries: list,
    };
    let mut image = Vec::new();
    header.write_to(&mut image).unwrap();
    image.resize(1024, 0xff);
    for (i, &entry) in entries.iter().enumerate() {
        put32(&mut image, 512 + 4 * i, entry);
    }
    // Sector i is full of a byte of its own, so that a byte in the wrong place shows.
    for i in 1..entries.len() {
        image.resize(512 * (i + 2), 0xa0 + i as u8);
    }
    image
}

/// Image Q of the specification: FAT, 2, 3, END, FREE, FREE.
pub fn image_q() -> Vec<u8> {
    let free = consts::FREE_SECTOR;
    small_image(&[consts::FAT_SECTOR, 2, 3, consts::END_OF_CHAIN, free, free])
}

/// The lists of DIFAT sectors and FAT sectors, and the first n FAT entries.
pub struct Tables {
    pub difat_sectors: Vec<u32>,
    pub fat_sectors: Vec<u32>,
    pub fat: Vec<u32>,
}

/// The entries of a sector, or an error where the image has no such sector.
fn entries_of(image: &[u8], id: u32, size: usize) -> Result<Vec<u32>> {
    let start = (id as usize + 1) * size;
    let Some(sector) = image.get(start..start + size) else {
        invalid_data!("No sector {} in {} bytes", id, image.len());
    };
    Ok((0..size / 4).map(|i| get32(sector, 4 * i)).collect())
}

/// Loads the tables of an image with n sectors; a DIFAT chain of more than n sectors is an error.
fn load(image: &[u8], header: &Header, n: usize) -> Result<Tables> {
    let size = header.version.sector_len();
    let is_id = |entry: &u32| *entry != consts::FREE_SECTOR;
    let mut fat_sectors: Vec<u32> = header.initial_difat_entries.iter().copied().take_while(is_id).collect();
    let mut difat_sectors = Vec::new();
    let mut next = header.first_difat_sector;
    while next <= consts::MAX_REGULAR_SECTOR {
        if difat_sectors.len() == n {
            invalid_data!("The DIFAT chain has no end");
        }
        difat_sectors.push(next);
        let entries = entries_of(image, next, size)?;
        let (&last, ids) = entries.split_last().unwrap();
        fat_sectors.extend(ids.iter().copied().take_while(is_id));
        next = last;
    }
    let mut fat = Vec::with_capacity(n);
    for &id in &fat_sectors {
        if fat.len() >= n {
            break;
        }
        fat.extend(entries_of(image, id, size)?);
    }
    fat.truncate(n);
    Ok(Tables { difat_sectors, fat_sectors, fat })
}

/// The version and the tables of an image whose bytes are all used.
pub fn loaded(image: &[u8], mode: Validation) -> Result<(Version, Tables)> {
    let header = Header::read_from(&mut &image[..], mode)?;
    let (size, used) = (header.version.sector_len(), image.len());
    if used < size {
        invalid_data!("No whole header in {} bytes", used);
    }
    Ok((header.version, load(image, &header, used / size - 1)?))
}

/// Opens an image whose bytes are all used: header, tables, `Allocator::new`.
pub fn open(image: Vec<u8>, mode: Validation) -> Result<Allocator<Store>> {
    let (version, tables) = loaded(&image, mode)?;
    let sectors = Sectors::new(version, image.len() as u64, Cursor::new(image));
    Allocator::new(sectors, tables.difat_sectors, tables.fat_sectors, tables.fat, mode)
}

/// Opens a lent image, to read from it: header, tables, `Allocator::new`.
pub fn lend(image: &[u8], mode: Validation) -> Result<Allocator<Cursor<&[u8]>>> {
    let (version, tables) = loaded(image, mode)?;
    over(image, version, tables, mode)
}

/// `Allocator::new` with these tables over a lent image, which it does not look at.
pub fn over(image: &[u8], version: Version, tables: Tables, mode: Validation) -> Result<Allocator<Cursor<&[u8]>>> {
    let sectors = Sectors::new(version, image.len() as u64, Cursor::new(image));
    Allocator::new(sectors, tables.difat_sectors, tables.fat_sectors, tables.fat, mode)
}

/// Opens an image without a copy of it: the store behind is empty, and forgets what is written to it. The tables are
/// those that were loaded, before `Allocator::new` mends its own.
pub fn judge(image: &[u8], mode: Validation) -> Result<(Allocator<Empty>, Tables)> {
    let (version, tables) = loaded(image, mode)?;
    let sectors = Sectors::new(version, image.len() as u64, std::io::empty());
    let [difats, fats, fat] = [&tables.difat_sectors, &tables.fat_sectors, &tables.fat].map(Vec::clone);
    Ok((Allocator::new(sectors, difats, fats, fat, mode)?, tables))
}

/// The bytes of the image.
pub fn bytes_of(allocator: &Allocator<Store>) -> &[u8] {
    allocator.inner().get_ref()
}

/// The number that stands in an error's message between two pieces of text.
fn number_in(message: &str, before: &str, after: &str) -> u32 {
    let (_, rest) = message.split_once(before).unwrap();
    rest.split_once(after).unwrap().0.parse().unwrap()
}

/// The number of FAT entries in memory: `next` names it when asked for an entry that no FAT has.
pub fn fat_len<F>(allocator: &Allocator<F>) -> usize {
    let error = allocator.next(u32::MAX).unwrap_err();
    number_in(&error.to_string(), "has only ", " ") as usize
}

/// The FAT in memory: `next` gives a link, and names any other entry as it refuses it.
pub fn fat_of<F>(allocator: &Allocator<F>) -> Vec<u32> {
    let entry = |id| match allocator.next(id) {
        Ok(entry) => entry,
        Err(error) => number_in(&error.to_string(), "(", ")"),
    };
    (0..fat_len(allocator) as u32).map(entry).collect()
}

/// The free list, its end last. Takes all of it and gives it back: list, FAT and bytes are then as before.
pub fn free_list<F: Write + Seek>(allocator: &mut Allocator<F>) -> Result<Vec<u32>> {
    let count = fat_of(allocator).iter().filter(|&&entry| entry == consts::FREE_SECTOR).count();
    last_free(allocator, count)
}

/// The last so many of the free list, which has as many.
pub fn last_free<F: Write + Seek>(allocator: &mut Allocator<F>, count: usize) -> Result<Vec<u32>> {
    let mut list = Vec::with_capacity(count);
    for _ in 0..count {
        list.push(allocator.begin_chain(SectorInit::Keep)?);
    }
    list.reverse();
    for &id in &list {
        allocator.free_chain(id)?;
    }
    Ok(list)
}

/// Gives the free list another order: takes all of it, and gives it back so. FAT and bytes are then as before.
pub fn order_free<F: Write + Seek>(allocator: &mut Allocator<F>, order: &[u32]) -> Result<()> {
    let mut taken = Vec::with_capacity(order.len());
    for _ in order {
        taken.push(allocator.begin_chain(SectorInit::Keep)?);
    }
    let mut sorted = order.to_vec();
    sorted.sort_unstable();
    taken.sort_unstable();
    assert_eq!(taken, sorted);
    order.iter().try_for_each(|&id| allocator.free_chain(id))
}
