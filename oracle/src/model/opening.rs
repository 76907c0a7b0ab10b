//! The opening of an image, clause by clause, with no table of its own but plain vectors.

use super::{get32, read_header, DIFAT, END, FAT, FREE, LISTED, REGULAR_LAST, RESERVED};
use crate::abi::{self, State, Tables, Words};

/// The most sectors that an image may have.
const MOST: usize = 16_384;

/// The bytes in use, cut into a header and sectors.
struct Sectors<'a> {
    used: &'a [u8],
    /// Bytes of a sector.
    length: usize,
    /// Entries of a FAT sector.
    entries: usize,
    /// How many sectors there are.
    n: usize,
}

impl Sectors<'_> {
    /// Entry `place` of a sector.
    fn entry(&self, sector: u32, place: usize) -> u32 {
        get32(self.used, (sector as usize + 1) * self.length + 4 * place)
    }

    fn is_sector(&self, id: u32) -> bool {
        (id as usize) < self.n
    }
}

/// The room of a lent image: the sectors after the header's, but no more than the most.
pub fn room(lent: usize, length: usize) -> usize {
    let whole = lent / length;
    if whole == 0 {
        return 0;
    }
    (whole - 1).min(MOST)
}

/// Whether no two are the same.
fn are_different(ids: &[u32]) -> bool {
    let mut sorted = ids.to_vec();
    sorted.sort_unstable();
    sorted.windows(2).all(|two| two[0] != two[1])
}

/// The DIFAT sectors, if the chain is `d` different sectors and then END or FREE.
fn difat_chain(sectors: &Sectors, first: u32, d: usize) -> Option<Vec<u32>> {
    let mut chain = Vec::new();
    let mut next = first;
    for _ in 0..d {
        if !sectors.is_sector(next) {
            return None;
        }
        chain.push(next);
        next = sectors.entry(next, sectors.entries - 1);
    }
    let ended = next == END || next == FREE;
    (ended && are_different(&chain)).then_some(chain)
}

/// The two lists, FAT sectors and DIFAT sectors, or nothing: refusal 12.
fn lists(sectors: &Sectors, header: &Words) -> Option<(Vec<u32>, Vec<u32>)> {
    let k = sectors.n.div_ceil(sectors.entries);
    let beyond = k.saturating_sub(LISTED);
    let d = beyond.div_ceil(sectors.entries - 1);
    if header[abi::FAT_SECTORS] as usize != k || header[abi::DIFAT_SECTORS] as usize != d {
        return None;
    }
    let mut fats: Vec<u32> = header[abi::LIST..].iter().copied().filter(|&entry| entry != FREE).collect();
    if fats.len() != k.min(LISTED) {
        return None;
    }
    let difats = difat_chain(sectors, header[abi::FIRST_DIFAT], d)?;
    let mut listed = Vec::new();
    for &sector in &difats {
        for place in 0..sectors.entries - 1 {
            listed.push(sectors.entry(sector, place));
        }
    }
    for (place, &entry) in listed.iter().enumerate() {
        if place < beyond && entry > REGULAR_LAST || place >= beyond && entry != FREE {
            return None;
        }
    }
    fats.extend(&listed[..beyond]);
    let good = fats.iter().all(|&id| sectors.is_sector(id)) && are_different(&fats);
    good.then_some((fats, difats))
}

/// Whether each listed sector is marked in the FAT as what it is: refusal 14 if not.
fn are_marked(fat: &[u32], fats: &[u32], difats: &[u32]) -> bool {
    difats.iter().all(|&id| fat[id as usize] == DIFAT) && fats.iter().all(|&id| fat[id as usize] == FAT)
}

/// Follows every entry: the marks, or the refusal of the first bad sector. A permissive pointer past the end
/// becomes END.
fn follow(fat: &mut [u32], strict: bool) -> Result<Vec<u8>, u32> {
    let mut marks = vec![0; fat.len()];
    for from in 0..fat.len() {
        let to = fat[from] as usize;
        if fat[from] == RESERVED {
            return Err(17);
        }
        if fat[from] > REGULAR_LAST {
            continue;
        }
        if to >= fat.len() {
            if strict {
                return Err(15);
            }
            fat[from] = END;
        } else if marks[to] == 1 {
            return Err(16);
        } else {
            marks[to] = 1;
        }
    }
    Ok(marks)
}

/// What an accepted opening holds; each table without the zeros after it.
fn contents(sectors: &Sectors, header: &Words, strict: bool) -> Result<Tables, u32> {
    let Some((fats, difats)) = lists(sectors, header) else {
        return Err(12);
    };
    let mut fat = Vec::new();
    for &sector in &fats {
        for place in 0..sectors.entries {
            fat.push(sectors.entry(sector, place));
        }
    }
    let past = fat.split_off(sectors.n);
    if past.iter().any(|&entry| entry != FREE) {
        return Err(13);
    }
    if strict && !are_marked(&fat, &fats, &difats) {
        return Err(14);
    }
    for &id in &difats {
        fat[id as usize] = DIFAT;
    }
    for &id in &fats {
        fat[id as usize] = FAT;
    }
    let marks = follow(&mut fat, strict)?;
    let frees: Vec<u32> = (0..sectors.n as u32).filter(|&id| fat[id as usize] == FREE).collect();
    if frees.iter().any(|&id| marks[id as usize] == 1) {
        return Err(18);
    }
    Ok(Tables { fat, fats, difats, frees, marks })
}

/// Stores what a table holds, and zeros to its end.
pub fn store<T: Copy + Default>(table: &mut [T], held: &[T]) {
    table.fill(T::default());
    table[..held.len()].copy_from_slice(held);
}

/// Opens an image of which `used` bytes are used; 0, or the number of the refusal. Mode 0 is permissive.
pub fn open(image: &[u8], used: usize, mode: u32, tables: &mut Tables, state: &mut State) -> u32 {
    *state = abi::REFUSED_STATE;
    if used < 512 || used > image.len() {
        return 1;
    }
    let strict = mode != 0;
    let mut header = abi::REFUSED;
    let number = read_header(image, mode, &mut header);
    if number != 0 {
        return number;
    }
    let length = if header[abi::VERSION] == 3 { 512 } else { 4096 };
    if used % length != 0 || used / length - 1 > MOST {
        return 10;
    }
    if tables.lengths().iter().any(|&lent| lent < room(image.len(), length)) {
        return 11;
    }
    let n = used / length - 1;
    let sectors = Sectors { used: &image[..used], length, entries: length / 4, n };
    match contents(&sectors, &header, strict) {
        Ok(held) => {
            *state = abi::state_of(strict.into(), used as u64, n as u64, held.frees.len() as u64, &header);
            store(&mut tables.fat, &held.fat);
            store(&mut tables.fats, &held.fats);
            store(&mut tables.difats, &held.difats);
            store(&mut tables.frees, &held.frees);
            store(&mut tables.marks, &held.marks);
            0
        }
        Err(number) => {
            *tables = Tables::zero(tables.lengths());
            number
        }
    }
}
