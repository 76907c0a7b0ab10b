//! The functions of the archive `libexport.a`, or of the model with the feature `model`.
//!
//! A header is 117 words: the version's number, directory sectors, FAT sectors, first directory, first
//! MiniFAT, MiniFAT sectors, first DIFAT, DIFAT sectors, and the 109 entries of the list. The state of an opened
//! image is 121 words: the mode, 1 for strict, the used length, the sectors, the free ones, and the header's words.

/// A header as numbers.
pub type Words = [u32; 117];

/// Places of a header's numbers in its words.
pub const VERSION: usize = 0;
pub const DIRECTORY_SECTORS: usize = 1;
pub const FAT_SECTORS: usize = 2;
pub const FIRST_DIRECTORY: usize = 3;
pub const FIRST_MINIFAT: usize = 4;
pub const MINIFAT_SECTORS: usize = 5;
pub const FIRST_DIFAT: usize = 6;
pub const DIFAT_SECTORS: usize = 7;
pub const LIST: usize = 8;

/// What stands beside a refusal: version 3, and all other numbers 0.
pub const REFUSED: Words = refused();

const fn refused() -> Words {
    let mut words = [0; 117];
    words[VERSION] = 3;
    words
}

/// The state of an opened image as numbers.
pub type State = [u64; 121];

/// Places of a state's numbers in its words; the header's words follow.
pub const MODE: usize = 0;
pub const USED: usize = 1;
pub const SECTORS: usize = 2;
pub const FREES: usize = 3;
pub const HEADER: usize = 4;

/// What stands beside a refused opening: strict, and the header beside a refusal.
pub const REFUSED_STATE: State = state_of(1, 0, 0, 0, &REFUSED);

/// A state of these numbers.
pub const fn state_of(mode: u64, used: u64, sectors: u64, frees: u64, header: &Words) -> State {
    let mut state = [0; 121];
    state[MODE] = mode;
    state[USED] = used;
    state[SECTORS] = sectors;
    state[FREES] = frees;
    let mut place = 0;
    while place < header.len() {
        state[HEADER + place] = header[place] as u64;
        place += 1;
    }
    state
}

/// The tables that are lent to an opening: FAT, FAT sectors, DIFAT sectors, free sectors, marks.
#[derive(Clone, Debug, PartialEq, Eq)]
pub struct Tables {
    pub fat: Vec<u32>,
    pub fats: Vec<u32>,
    pub difats: Vec<u32>,
    pub frees: Vec<u32>,
    pub marks: Vec<u8>,
}

impl Tables {
    /// Tables of these lengths, all zero.
    pub fn zero(lengths: [usize; 5]) -> Tables {
        let [fat, fats, difats, frees, marks] = lengths;
        Tables {
            fat: vec![0; fat],
            fats: vec![0; fats],
            difats: vec![0; difats],
            frees: vec![0; frees],
            marks: vec![0; marks],
        }
    }

    /// The length of each.
    pub fn lengths(&self) -> [usize; 5] {
        [self.fat.len(), self.fats.len(), self.difats.len(), self.frees.len(), self.marks.len()]
    }
}

/// What every call on a chain is lent to look at: the state, the image, the tables.
#[derive(Clone, Copy)]
pub struct Lent<'a> {
    pub state: &'a State,
    pub image: &'a [u8],
    pub tables: &'a Tables,
}

/// What every call that changes a chain is lent: the same, to be changed.
pub struct Handed<'a> {
    pub state: &'a mut State,
    pub image: &'a mut [u8],
    pub tables: &'a mut Tables,
}

impl Handed<'_> {
    /// The same, to look at.
    pub fn lent(&self) -> Lent<'_> {
        Lent { state: self.state, image: self.image, tables: self.tables }
    }
}

/// What a call on a chain answers: how many ids there are, the start, how many bytes were read or written.
pub type Answer = [u64; 3];

/// Kinds of an item of `prettify`.
pub const NONE: u32 = 0;
pub const FREE: u32 = 1;
pub const END: u32 = 2;
pub const FAT: u32 = 3;
pub const DIFAT: u32 = 4;
pub const RANGE: u32 = 5;

#[cfg(feature = "model")]
pub use crate::model::{free_chain, open_chain, read_chain, resize_chain, write_chain};
#[cfg(feature = "model")]
pub use crate::model::{kind_of, open, prettify, read_header, sector_text, write_header};

#[cfg(not(feature = "model"))]
pub use archive::{free_chain, open_chain, read_chain, resize_chain, write_chain};
#[cfg(not(feature = "model"))]
pub use archive::{kind_of, open, prettify, read_header, sector_text, write_header};

#[cfg(not(feature = "model"))]
mod archive {
    use super::{Answer, Handed, Lent, State, Tables, Words};

    extern "C" {
        fn rasuvelk_read_header(bytes: *const u8, len: usize, mode: u32, words: *mut Words) -> u32;
        fn rasuvelk_write_header(words: *const Words, buf: *mut u8, len: usize) -> u32;
        fn rasuvelk_kind_of(entry: u32) -> u32;
        fn rasuvelk_prettify(sectors: *const u32, len: usize, at: usize, item: *mut [u64; 3]) -> u32;
        fn rasuvelk_sector_text(kind: u32, a: u64, b: u64, out: *mut [u8; 32]) -> usize;
        fn rasuvelk_open(
            image: *const u8,
            image_len: usize,
            used: usize,
            mode: u32,
            fat: *mut u32,
            fat_len: usize,
            fats: *mut u32,
            fats_len: usize,
            difats: *mut u32,
            difats_len: usize,
            frees: *mut u32,
            frees_len: usize,
            marks: *mut u8,
            marks_len: usize,
            state: *mut State,
        ) -> u32;
        fn rasuvelk_open_chain(
            state: *const State,
            image: *const u8,
            image_len: usize,
            fat: *const u32,
            fat_len: usize,
            fats: *const u32,
            fats_len: usize,
            difats: *const u32,
            difats_len: usize,
            frees: *const u32,
            frees_len: usize,
            marks: *const u8,
            marks_len: usize,
            ids: *mut u32,
            ids_len: usize,
            start: u32,
            answer: *mut Answer,
        ) -> u32;
        fn rasuvelk_read_chain(
            state: *const State,
            image: *const u8,
            image_len: usize,
            fat: *const u32,
            fat_len: usize,
            fats: *const u32,
            fats_len: usize,
            difats: *const u32,
            difats_len: usize,
            frees: *const u32,
            frees_len: usize,
            marks: *const u8,
            marks_len: usize,
            ids: *mut u32,
            ids_len: usize,
            start: u32,
            offset: u64,
            buf: *mut u8,
            buf_len: usize,
            answer: *mut Answer,
        ) -> u32;
        fn rasuvelk_write_chain(
            state: *mut State,
            image: *mut u8,
            image_len: usize,
            fat: *mut u32,
            fat_len: usize,
            fats: *mut u32,
            fats_len: usize,
            difats: *mut u32,
            difats_len: usize,
            frees: *mut u32,
            frees_len: usize,
            marks: *mut u8,
            marks_len: usize,
            ids: *mut u32,
            ids_len: usize,
            start: u32,
            offset: u64,
            buf: *const u8,
            buf_len: usize,
            answer: *mut Answer,
        ) -> u32;
        fn rasuvelk_resize_chain(
            state: *mut State,
            image: *mut u8,
            image_len: usize,
            fat: *mut u32,
            fat_len: usize,
            fats: *mut u32,
            fats_len: usize,
            difats: *mut u32,
            difats_len: usize,
            frees: *mut u32,
            frees_len: usize,
            marks: *mut u8,
            marks_len: usize,
            ids: *mut u32,
            ids_len: usize,
            start: u32,
            length: u64,
            answer: *mut Answer,
        ) -> u32;
        fn rasuvelk_free_chain(
            state: *mut State,
            image: *mut u8,
            image_len: usize,
            fat: *mut u32,
            fat_len: usize,
            fats: *mut u32,
            fats_len: usize,
            difats: *mut u32,
            difats_len: usize,
            frees: *mut u32,
            frees_len: usize,
            marks: *mut u8,
            marks_len: usize,
            ids: *mut u32,
            ids_len: usize,
            start: u32,
            answer: *mut Answer,
        ) -> u32;
    }

    /// Reads a header; 0, or the number of the refusal. Mode 0 is permissive.
    pub fn read_header(bytes: &[u8], mode: u32, words: &mut Words) -> u32 {
        // SAFETY: the pointer and the length are those of one live slice; `words` is whole and lent alone.
        unsafe { rasuvelk_read_header(bytes.as_ptr(), bytes.len(), mode, words) }
    }

    /// Writes a header; 0, or the number of the refusal.
    pub fn write_header(words: &Words, buf: &mut [u8]) -> u32 {
        // SAFETY: as above, and the buffer is lent alone.
        unsafe { rasuvelk_write_header(words, buf.as_mut_ptr(), buf.len()) }
    }

    /// The kind of an entry, from 0 for regular to 5 for FREE.
    pub fn kind_of(entry: u32) -> u32 {
        // SAFETY: no memory is lent.
        unsafe { rasuvelk_kind_of(entry) }
    }

    /// The first item of `sectors[at..]`: its kind; its two numbers and the place past it in `item`.
    pub fn prettify(sectors: &[u32], at: usize, item: &mut [u64; 3]) -> u32 {
        // SAFETY: the pointer and the length are those of one live slice; `item` is whole and lent alone.
        unsafe { rasuvelk_prettify(sectors.as_ptr(), sectors.len(), at, item) }
    }

    /// The text of an item, with zeros after it; its length.
    pub fn sector_text(kind: u32, a: u64, b: u64, out: &mut [u8; 32]) -> usize {
        // SAFETY: `out` is whole and lent alone.
        unsafe { rasuvelk_sector_text(kind, a, b, out) }
    }

    /// Opens an image of which `used` bytes are used; 0, or the number of the refusal. Mode 0 is permissive.
    pub fn open(image: &[u8], used: usize, mode: u32, tables: &mut Tables, state: &mut State) -> u32 {
        // SAFETY: each pointer and the length after it are those of one live slice; the tables are vectors of
        // their own and, like `state`, lent alone.
        unsafe {
            rasuvelk_open(
                image.as_ptr(),
                image.len(),
                used,
                mode,
                tables.fat.as_mut_ptr(),
                tables.fat.len(),
                tables.fats.as_mut_ptr(),
                tables.fats.len(),
                tables.difats.as_mut_ptr(),
                tables.difats.len(),
                tables.frees.as_mut_ptr(),
                tables.frees.len(),
                tables.marks.as_mut_ptr(),
                tables.marks.len(),
                state,
            )
        }
    }

    /// Lists the ids of a chain; 0, or the number of the refusal.
    pub fn open_chain(lent: &Lent, ids: &mut [u32], start: u32, answer: &mut Answer) -> u32 {
        let Lent { state, image, tables } = *lent;
        // SAFETY: each pointer and the length after it are those of one live slice; the id list and `answer` are
        // lent alone.
        unsafe {
            rasuvelk_open_chain(
                state,
                image.as_ptr(),
                image.len(),
                tables.fat.as_ptr(),
                tables.fat.len(),
                tables.fats.as_ptr(),
                tables.fats.len(),
                tables.difats.as_ptr(),
                tables.difats.len(),
                tables.frees.as_ptr(),
                tables.frees.len(),
                tables.marks.as_ptr(),
                tables.marks.len(),
                ids.as_mut_ptr(),
                ids.len(),
                start,
                answer,
            )
        }
    }

    /// Reads a chain from an offset, and lists its ids; 0, or the number of the refusal.
    pub fn read_chain(
        lent: &Lent,
        ids: &mut [u32],
        start: u32,
        offset: u64,
        buf: &mut [u8],
        answer: &mut Answer,
    ) -> u32 {
        let Lent { state, image, tables } = *lent;
        // SAFETY: as above, and the buffer is lent alone.
        unsafe {
            rasuvelk_read_chain(
                state,
                image.as_ptr(),
                image.len(),
                tables.fat.as_ptr(),
                tables.fat.len(),
                tables.fats.as_ptr(),
                tables.fats.len(),
                tables.difats.as_ptr(),
                tables.difats.len(),
                tables.frees.as_ptr(),
                tables.frees.len(),
                tables.marks.as_ptr(),
                tables.marks.len(),
                ids.as_mut_ptr(),
                ids.len(),
                start,
                offset,
                buf.as_mut_ptr(),
                buf.len(),
                answer,
            )
        }
    }

    /// Writes a buffer to a chain from an offset, and lists its ids; 0, or the number of the refusal.
    pub fn write_chain(
        handed: &mut Handed,
        ids: &mut [u32],
        start: u32,
        offset: u64,
        buf: &[u8],
        answer: &mut Answer,
    ) -> u32 {
        let Handed { state, image, tables } = handed;
        // SAFETY: each pointer and the length after it are those of one live slice; all but the buffer are lent alone, and
        // the tables are vectors of their own.
        unsafe {
            rasuvelk_write_chain(
                *state,
                image.as_mut_ptr(),
                image.len(),
                tables.fat.as_mut_ptr(),
                tables.fat.len(),
                tables.fats.as_mut_ptr(),
                tables.fats.len(),
                tables.difats.as_mut_ptr(),
                tables.difats.len(),
                tables.frees.as_mut_ptr(),
                tables.frees.len(),
                tables.marks.as_mut_ptr(),
                tables.marks.len(),
                ids.as_mut_ptr(),
                ids.len(),
                start,
                offset,
                buf.as_ptr(),
                buf.len(),
                answer,
            )
        }
    }

    /// Makes a chain as long as it must be for so many bytes, and lists its ids; 0, or the number of the refusal.
    pub fn resize_chain(handed: &mut Handed, ids: &mut [u32], start: u32, length: u64, answer: &mut Answer) -> u32 {
        let Handed { state, image, tables } = handed;
        // SAFETY: as above, and there is no buffer.
        unsafe {
            rasuvelk_resize_chain(
                *state,
                image.as_mut_ptr(),
                image.len(),
                tables.fat.as_mut_ptr(),
                tables.fat.len(),
                tables.fats.as_mut_ptr(),
                tables.fats.len(),
                tables.difats.as_mut_ptr(),
                tables.difats.len(),
                tables.frees.as_mut_ptr(),
                tables.frees.len(),
                tables.marks.as_mut_ptr(),
                tables.marks.len(),
                ids.as_mut_ptr(),
                ids.len(),
                start,
                length,
                answer,
            )
        }
    }

    /// Frees a chain; 0, or the number of the refusal.
    pub fn free_chain(handed: &mut Handed, ids: &mut [u32], start: u32, answer: &mut Answer) -> u32 {
        let Handed { state, image, tables } = handed;
        // SAFETY: as above.
        unsafe {
            rasuvelk_free_chain(
                *state,
                image.as_mut_ptr(),
                image.len(),
                tables.fat.as_mut_ptr(),
                tables.fat.len(),
                tables.fats.as_mut_ptr(),
                tables.fats.len(),
                tables.difats.as_mut_ptr(),
                tables.difats.len(),
                tables.frees.as_mut_ptr(),
                tables.frees.len(),
                tables.marks.as_mut_ptr(),
                tables.marks.len(),
                ids.as_mut_ptr(),
                ids.len(),
                start,
                answer,
            )
        }
    }
}
