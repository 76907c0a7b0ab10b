//! Stand-ins for the sectors of a file: the same checks and errors as in cfb, over any reader and writer.
//!
//! A run of bytes is one call of the store below, and so is the filling of a new sector: over a byte
//! vector each is one copy. Benchmarks of the Rust are taken over these.

use super::{consts, Version};
use std::io::{Read, Result, Seek, SeekFrom, Write};

/// The longest sector.
const LONGEST: usize = 4096;
const ZEROS: [u8; LONGEST] = [0; LONGEST];
const FREES: [u8; LONGEST] = [0xff; LONGEST];
const NEW_DIFAT: [u8; LONGEST] = new_difat();

/// FREE entries with END as the last.
const fn new_difat() -> [u8; LONGEST] {
    let mut bytes = FREES;
    let end = consts::END_OF_CHAIN.to_le_bytes();
    let mut i = 0;
    while i < 4 {
        bytes[LONGEST - 4 + i] = end[i];
        i += 1;
    }
    bytes
}

/// What a sector holds when it is taken.
#[derive(Clone, Copy, Debug, PartialEq, Eq)]
pub enum SectorInit {
    /// All zero.
    Zero,
    /// All FREE.
    Fat,
    /// FREE, and END as the pointer to the next.
    Difat,
    /// What it held before. Not in cfb: the way to look at the free list.
    Keep,
}

impl SectorInit {
    /// The bytes of a new sector of this length.
    fn bytes(self, len: usize) -> &'static [u8] {
        match self {
            SectorInit::Zero => &ZEROS[..len],
            SectorInit::Fat => &FREES[..len],
            SectorInit::Difat => &NEW_DIFAT[LONGEST - len..],
            SectorInit::Keep => &[],
        }
    }
}

/// A store seen as a header and sectors behind it.
pub struct Sectors<F> {
    store: F,
    version: Version,
    count: u32,
}

impl<F> Sectors<F> {
    /// The sectors of a store that has `used` bytes, at least one sector length; a part of a sector counts.
    pub fn new(version: Version, used: u64, store: F) -> Sectors<F> {
        let count = used.div_ceil(version.sector_len() as u64) as u32 - 1;
        Sectors { store, version, count }
    }

    pub fn version(&self) -> Version {
        self.version
    }

    pub fn sector_len(&self) -> usize {
        self.version.sector_len()
    }

    pub fn num_sectors(&self) -> u32 {
        self.count
    }

    pub fn inner(&self) -> &F {
        &self.store
    }

    pub fn into_inner(self) -> F {
        self.store
    }
}

impl<F: Seek> Sectors<F> {
    /// Goes to a byte of a sector; the header stands before sector 0.
    fn go_to(&mut self, id: u32, offset: u64) -> Result<()> {
        let start = (u64::from(id) + 1) * self.sector_len() as u64;
        self.store.seek(SeekFrom::Start(start + offset)).map(|_| ())
    }

    /// The header from this byte on.
    pub fn seek_within_header(&mut self, offset: u64) -> Result<Sector<'_, F>> {
        self.store.seek(SeekFrom::Start(offset))?;
        Ok(Sector { store: &mut self.store, len: consts::HEADER_LEN, at: offset as usize })
    }

    /// A sector from its first byte on.
    pub fn seek_to_sector(&mut self, id: u32) -> Result<Sector<'_, F>> {
        self.seek_within_sector(id, 0)
    }

    /// A sector from this byte on; it must exist.
    pub fn seek_within_sector(&mut self, id: u32, offset: u64) -> Result<Sector<'_, F>> {
        if id >= self.count {
            invalid_data!("Seek to sector {} of {}", id, self.count);
        }
        self.go_to(id, offset)?;
        let len = self.sector_len();
        Ok(Sector { store: &mut self.store, len, at: offset as usize })
    }

    /// Goes to a byte of a sector from which a run of `len` bytes stays within the sectors.
    fn go_to_run(&mut self, id: u32, offset: u64, len: usize) -> Result<()> {
        let size = self.sector_len() as u64;
        let end = u64::from(id) * size + offset + len as u64;
        let last = end.saturating_sub(1) / size;
        if last >= u64::from(self.count) {
            invalid_data!("Access to sector {} of {}", last, self.count);
        }
        self.go_to(id, offset)
    }
}

impl<F: Read + Seek> Sectors<F> {
    /// Reads a run of bytes, over the end of a sector into the next, by one read of the store.
    pub fn read_contiguous(&mut self, id: u32, offset: u64, buf: &mut [u8]) -> Result<usize> {
        self.go_to_run(id, offset, buf.len())?;
        self.store.read(buf)
    }
}

impl<F: Write + Seek> Sectors<F> {
    /// Writes a run of bytes, over the end of a sector into the next, by one write to the store.
    pub fn write_contiguous(&mut self, id: u32, offset: u64, buf: &[u8]) -> Result<usize> {
        self.go_to_run(id, offset, buf.len())?;
        self.store.write(buf)
    }

    /// Counts the sector just past the last, which the caller is about to write whole.
    pub fn reserve_sector(&mut self, id: u32) {
        debug_assert_eq!(id, self.count);
        self.count += 1;
    }

    /// Fills a sector anew, one that exists or the one just past the last.
    pub fn init_sector(&mut self, id: u32, init: SectorInit) -> Result<()> {
        if id > self.count {
            invalid_data!("New sector {} of {}", id, self.count);
        }
        if id == self.count {
            self.count += 1;
        }
        let bytes = init.bytes(self.sector_len());
        self.seek_to_sector(id)?.write_all(bytes)
    }

    pub fn flush(&mut self) -> Result<()> {
        self.store.flush()
    }
}

/// One sector, or the header, from a byte of it on: nothing is read or written past its end.
pub struct Sector<'a, F> {
    store: &'a mut F,
    len: usize,
    at: usize,
}

impl<'a, F> Sector<'a, F> {
    /// A part of the sector, which holds the byte that it stands at.
    pub fn subsector(self, start: usize, len: usize) -> Sector<'a, F> {
        debug_assert!(start <= self.at && self.at <= start + len && start + len <= self.len);
        Sector { store: self.store, len, at: self.at - start }
    }
}

impl<F: Read> Read for Sector<'_, F> {
    fn read(&mut self, buf: &mut [u8]) -> Result<usize> {
        let most = buf.len().min(self.len - self.at);
        let done = self.store.read(&mut buf[..most])?;
        self.at += done;
        Ok(done)
    }
}

impl<F: Write> Write for Sector<'_, F> {
    fn write(&mut self, buf: &[u8]) -> Result<usize> {
        let most = buf.len().min(self.len - self.at);
        let done = self.store.write(&buf[..most])?;
        self.at += done;
        Ok(done)
    }

    fn flush(&mut self) -> Result<()> {
        self.store.flush()
    }
}
