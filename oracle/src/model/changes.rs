//! The calls that change a chain: what is refused, how many sectors there would be, and then the change of plain copies.

use super::chains::{agreed, done, walk};
use super::opening::{open, room, store};
use super::{put32, DIFAT, END, FAT, FREE, LISTED, LIST_AT};
use crate::abi::{self, Answer, Handed, Tables};

/// Where the header has the number of FAT sectors, the first DIFAT sector and their number.
const FATS_AT: usize = 44;
const FIRST_DIFAT_AT: usize = 68;
const DIFATS_AT: usize = 72;

/// A change on its way: the bytes in use, and the tables without the zeros after them.
struct Change {
    bytes: Vec<u8>,
    /// Bytes of a sector.
    length: usize,
    fat: Vec<u32>,
    fats: Vec<u32>,
    difats: Vec<u32>,
    frees: Vec<u32>,
    /// The ids of the chain.
    ids: Vec<u32>,
}

impl Change {
    /// Nothing is changed yet; or the refusal of any change from this start.
    fn of(handed: &Handed, listed: usize, start: u32) -> Result<Change, u32> {
        let lent = handed.lent();
        let length = agreed(&lent, listed)?;
        if lent.state[abi::MODE] == 0 {
            return Err(26);
        }
        let [n, frees] = [abi::SECTORS, abi::FREES].map(|place| lent.state[place] as usize);
        let [fats, difats] =
            [abi::FAT_SECTORS, abi::DIFAT_SECTORS].map(|place| lent.state[abi::HEADER + place] as usize);
        let ids = walk(&lent.tables.fat[..n], start)?;
        // What is below n is regular.
        if start != END && lent.tables.fat[..n].contains(&start) {
            return Err(25);
        }
        Ok(Change {
            bytes: lent.image[..(n + 1) * length].to_vec(),
            length,
            fat: lent.tables.fat[..n].to_vec(),
            fats: lent.tables.fats[..fats].to_vec(),
            difats: lent.tables.difats[..difats].to_vec(),
            frees: lent.tables.frees[..frees].to_vec(),
            ids,
        })
    }

    /// Entries of a FAT sector.
    fn entries(&self) -> usize {
        self.length / 4
    }

    /// How many sectors a chain must have for so many bytes.
    fn sectors_for(&self, bytes: u128) -> u128 {
        bytes.div_ceil(self.length as u128)
    }

    /// Whether the chain can have so many sectors in this room, with the FAT and DIFAT sectors that they need. It counts
    /// until there are enough, or more than the room.
    fn fits(&self, sectors: u128, room: usize) -> bool {
        let mut missing = sectors.saturating_sub(self.ids.len() as u128).saturating_sub(self.frees.len() as u128);
        let (mut n, mut fats, mut difats) = (self.fat.len(), self.fats.len(), self.difats.len());
        while missing > 0 && n <= room {
            if n % self.entries() == 0 {
                fats += 1;
                n += 1;
                if fats > LISTED + difats * (self.entries() - 1) {
                    difats += 1;
                    n += 1;
                }
            }
            n += 1;
            missing -= 1;
        }
        n <= room
    }

    /// Where a sector begins.
    fn at(&self, id: u32) -> usize {
        (id as usize + 1) * self.length
    }

    /// Stores an entry in a FAT or DIFAT sector.
    fn put(&mut self, sector: u32, place: usize, entry: u32) {
        let at = self.at(sector) + 4 * place;
        put32(&mut self.bytes, at, entry);
    }

    /// Makes this the entry of a sector.
    fn set(&mut self, id: u32, entry: u32) {
        let (sector, place) = (id as usize / self.entries(), id as usize % self.entries());
        self.put(self.fats[sector], place, entry);
        self.fat[id as usize] = entry;
    }

    /// One more sector, full of a byte.
    fn add(&mut self, byte: u8) -> u32 {
        let id = self.fat.len() as u32;
        self.bytes.resize(self.bytes.len() + self.length, byte);
        self.fat.push(FREE);
        id
    }

    fn add_fat_sector(&mut self) {
        let id = self.add(0xff);
        let place = self.fats.len();
        self.fats.push(id);
        self.set(id, FAT);
        put32(&mut self.bytes, FATS_AT, self.fats.len() as u32);
        let Some(beyond) = place.checked_sub(LISTED) else {
            put32(&mut self.bytes, LIST_AT + 4 * place, id);
            return;
        };
        let (sector, place) = (beyond / (self.entries() - 1), beyond % (self.entries() - 1));
        if sector == self.difats.len() {
            self.add_difat_sector();
        }
        self.put(self.difats[sector], place, id);
    }

    fn add_difat_sector(&mut self) {
        let id = self.add(0xff);
        let pointer = self.entries() - 1;
        self.put(id, pointer, END);
        self.set(id, DIFAT);
        match self.difats.last() {
            Some(&last) => self.put(last, pointer, id),
            None => put32(&mut self.bytes, FIRST_DIFAT_AT, id),
        }
        self.difats.push(id);
        put32(&mut self.bytes, DIFATS_AT, self.difats.len() as u32);
    }

    /// A sector of zeros that is the end of a chain: from the end of the free list, or one more.
    fn take(&mut self) -> u32 {
        let id = match self.frees.pop() {
            Some(id) => id,
            None => {
                if self.fat.len() % self.entries() == 0 {
                    self.add_fat_sector();
                }
                self.add(0)
            }
        };
        let (at, length) = (self.at(id), self.length);
        self.bytes[at..at + length].fill(0);
        self.set(id, END);
        id
    }

    /// Takes sectors until the chain has so many.
    fn grow(&mut self, sectors: usize) {
        while self.ids.len() < sectors {
            let id = self.take();
            if let Some(&last) = self.ids.last() {
                self.set(last, id);
            }
            self.ids.push(id);
        }
    }

    /// Frees what the chain has past so many sectors.
    fn cut(&mut self, sectors: usize) {
        for id in self.ids.split_off(sectors) {
            self.set(id, FREE);
            self.frees.push(id);
        }
        if let Some(&last) = self.ids.last() {
            self.set(last, END);
        }
    }

    /// Where byte `offset` of the chain stands.
    fn byte(&self, offset: usize) -> usize {
        self.at(self.ids[offset / self.length]) + offset % self.length
    }

    /// Grows the chain for a buffer at an offset, and stores it; or the refusal.
    fn write(&mut self, room: usize, offset: u64, buf: &[u8]) -> Result<(), u32> {
        if u128::from(offset) > (self.ids.len() * self.length) as u128 {
            return Err(23);
        }
        if buf.is_empty() {
            return Ok(());
        }
        let sectors = self.sectors_for(u128::from(offset) + buf.len() as u128);
        if !self.fits(sectors, room) {
            return Err(24);
        }
        self.grow(sectors as usize);
        for (i, &byte) in buf.iter().enumerate() {
            let at = self.byte(offset as usize + i);
            self.bytes[at] = byte;
        }
        Ok(())
    }

    /// Gives the chain the sectors for so many bytes; or the refusal.
    fn resize(&mut self, room: usize, bytes: u64) -> Result<(), u32> {
        let sectors = self.sectors_for(bytes.into());
        if !self.fits(sectors, room) {
            return Err(24);
        }
        let sectors = sectors as usize;
        if sectors > self.ids.len() {
            self.grow(sectors);
            return Ok(());
        }
        self.cut(sectors);
        for offset in bytes as usize..sectors * self.length {
            let at = self.byte(offset);
            self.bytes[at] = 0;
        }
        Ok(())
    }

    /// Hands back image, state and tables: what an opening of the bytes gives, but for the order of the free list.
    fn store(self, handed: &mut Handed) -> Vec<u32> {
        handed.image[..self.bytes.len()].copy_from_slice(&self.bytes);
        let mut tables = Tables::zero(handed.tables.lengths());
        assert_eq!(open(handed.image, self.bytes.len(), 1, &mut tables, handed.state), 0);
        assert_eq!(handed.state[abi::FREES], self.frees.len() as u64);
        let in_hand = [(&tables.fat, &self.fat), (&tables.fats, &self.fats), (&tables.difats, &self.difats)];
        assert!(in_hand.into_iter().all(|(opened, held)| opened.starts_with(held)));
        store(&mut tables.frees, &self.frees);
        *handed.tables = tables;
        self.ids
    }
}

/// Changes a chain, and leaves all as it must be; 0, or the number of the refusal.
fn changed(
    handed: &mut Handed,
    ids: &mut [u32],
    start: u32,
    written: usize,
    change: impl FnOnce(&mut Change, usize) -> Result<(), u32>,
    answer: &mut Answer,
) -> u32 {
    let made = Change::of(handed, ids.len(), start).and_then(|mut made| {
        let room = room(handed.image.len(), made.length);
        change(&mut made, room).map(|()| made)
    });
    let found = made.map(|made| (made.store(handed), written));
    let start = found.as_ref().map_or(END, |found| found.0.first().copied().unwrap_or(END));
    done(found, ids, start, answer)
}

/// Writes a buffer to a chain from an offset, and lists its ids; 0, or the number of the refusal.
pub fn write_chain(
    handed: &mut Handed,
    ids: &mut [u32],
    start: u32,
    offset: u64,
    buf: &[u8],
    answer: &mut Answer,
) -> u32 {
    changed(handed, ids, start, buf.len(), |change, room| change.write(room, offset, buf), answer)
}

/// Makes a chain as long as it must be for so many bytes, and lists its ids; 0, or the number of the refusal.
pub fn resize_chain(handed: &mut Handed, ids: &mut [u32], start: u32, length: u64, answer: &mut Answer) -> u32 {
    changed(handed, ids, start, 0, |change, room| change.resize(room, length), answer)
}

/// Frees a chain; 0, or the number of the refusal.
pub fn free_chain(handed: &mut Handed, ids: &mut [u32], start: u32, answer: &mut Answer) -> u32 {
    resize_chain(handed, ids, start, 0, answer)
}
