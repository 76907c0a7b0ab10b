//! The archive's functions, and the only unsafe code of this package: each wrapper takes slices, and hands on their
//! pointers and lengths.
//!
//! The archive asks three things of a caller (docs/NUMBERS.md): pointers that are not null and are aligned, lengths that
//! are true, and nothing lent to be written that overlaps anything else. Slices and references have all three.

use crate::Refusal;

#[cfg(not(target_pointer_width = "64"))]
compile_error!("the archive is for processors of 64 bits");

/// A header as words.
pub(crate) type HeaderWords = [u32; 117];

/// A state as words.
pub(crate) type StateWords = [u64; 121];

/// The five tables, to look at.
#[derive(Clone, Copy)]
pub(crate) struct Tables<'a> {
    pub fat: &'a [u32],
    pub fats: &'a [u32],
    pub difats: &'a [u32],
    pub frees: &'a [u32],
    pub marks: &'a [u8],
}

/// The five tables, to be written.
pub(crate) struct TablesMut<'a> {
    pub fat: &'a mut [u32],
    pub fats: &'a mut [u32],
    pub difats: &'a mut [u32],
    pub frees: &'a mut [u32],
    pub marks: &'a mut [u8],
}

/// What a call that reads is lent.
#[derive(Clone, Copy)]
pub(crate) struct Look<'a> {
    pub state: &'a StateWords,
    pub image: &'a [u8],
    pub tables: Tables<'a>,
}

/// What a call that changes is lent.
pub(crate) struct Hand<'a> {
    pub state: &'a mut StateWords,
    pub image: &'a mut [u8],
    pub tables: TablesMut<'a>,
}

/// What an accepted call on a chain tells.
#[derive(Clone, Copy)]
pub(crate) struct Told {
    pub ids: usize,
    pub bytes: usize,
}

/// The answer of a call on a chain: ids, start, bytes. The start is the first of the ids, and is not kept.
type Answer = [u64; 3];

mod archive {
    use super::{Answer, HeaderWords, StateWords};

    extern "C" {
        pub fn rasuvelk_read_header(bytes: *const u8, len: usize, mode: u32, words: *mut HeaderWords) -> u32;
        pub fn rasuvelk_write_header(words: *const HeaderWords, buf: *mut u8, len: usize) -> u32;
        pub fn rasuvelk_kind_of(entry: u32) -> u32;
        pub fn rasuvelk_prettify(sectors: *const u32, len: usize, at: usize, item: *mut [u64; 3]) -> u32;
        pub fn rasuvelk_sector_text(kind: u32, a: u64, b: u64, out: *mut [u8; 32]) -> usize;
        pub fn rasuvelk_open(
            image: *const u8,
            image_len: usize,
            used: usize,
            mode: u32,
            fat: *mut u32,
            fat_len: usize,
            fats: *mut u32,
            fats_len: usize,
            difats: *mut u32,
            difats_len: usize,
            frees: *mut u32,
            frees_len: usize,
            marks: *mut u8,
            marks_len: usize,
            state: *mut StateWords,
        ) -> u32;
        pub fn rasuvelk_open_chain(
            state: *const StateWords,
            image: *const u8,
            image_len: usize,
            fat: *const u32,
            fat_len: usize,
            fats: *const u32,
            fats_len: usize,
            difats: *const u32,
            difats_len: usize,
            frees: *const u32,
            frees_len: usize,
            marks: *const u8,
            marks_len: usize,
            ids: *mut u32,
            ids_len: usize,
            start: u32,
            answer: *mut Answer,
        ) -> u32;
        pub fn rasuvelk_read_chain(
            state: *const StateWords,
            image: *const u8,
            image_len: usize,
            fat: *const u32,
            fat_len: usize,
            fats: *const u32,
            fats_len: usize,
            difats: *const u32,
            difats_len: usize,
            frees: *const u32,
            frees_len: usize,
            marks: *const u8,
            marks_len: usize,
            ids: *mut u32,
            ids_len: usize,
            start: u32,
            offset: u64,
            buf: *mut u8,
            buf_len: usize,
            answer: *mut Answer,
        ) -> u32;
        pub fn rasuvelk_write_chain(
            state: *mut StateWords,
            image: *mut u8,
            image_len: usize,
            fat: *mut u32,
            fat_len: usize,
            fats: *mut u32,
            fats_len: usize,
            difats: *mut u32,
            difats_len: usize,
            frees: *mut u32,
            frees_len: usize,
            marks: *mut u8,
            marks_len: usize,
            ids: *mut u32,
            ids_len: usize,
            start: u32,
            offset: u64,
            buf: *const u8,
            buf_len: usize,
            answer: *mut Answer,
        ) -> u32;
        pub fn rasuvelk_resize_chain(
            state: *mut StateWords,
            image: *mut u8,
            image_len: usize,
            fat: *mut u32,
            fat_len: usize,
            fats: *mut u32,
            fats_len: usize,
            difats: *mut u32,
            difats_len: usize,
            frees: *mut u32,
            frees_len: usize,
            marks: *mut u8,
            marks_len: usize,
            ids: *mut u32,
            ids_len: usize,
            start: u32,
            length: u64,
            answer: *mut Answer,
        ) -> u32;
        pub fn rasuvelk_free_chain(
            state: *mut StateWords,
            image: *mut u8,
            image_len: usize,
            fat: *mut u32,
            fat_len: usize,
            fats: *mut u32,
            fats_len: usize,
            difats: *mut u32,
            difats_len: usize,
            frees: *mut u32,
            frees_len: usize,
            marks: *mut u8,
            marks_len: usize,
            ids: *mut u32,
            ids_len: usize,
            start: u32,
            answer: *mut Answer,
        ) -> u32;
    }
}

/// A number as a result: 0 is acceptance.
fn accepted(number: u32) -> Result<(), Refusal> {
    match number {
        0 => Ok(()),
        number => Err(Refusal::from_number(number)),
    }
}

/// What a call tells by its number and its answer. The counts lie below the lengths that were lent, so nothing is cut.
fn told(number: u32, answer: Answer) -> Result<Told, Refusal> {
    accepted(number)?;
    let [ids, _, bytes] = answer;
    Ok(Told { ids: ids as usize, bytes: bytes as usize })
}

pub(crate) fn read_header(bytes: &[u8], mode: u32, words: &mut HeaderWords) -> Result<(), Refusal> {
    // SAFETY: pointer and length are of one live slice; `words` is a whole array that nobody else holds.
    accepted(unsafe { archive::rasuvelk_read_header(bytes.as_ptr(), bytes.len(), mode, words) })
}

pub(crate) fn write_header(words: &HeaderWords, buf: &mut [u8]) -> Result<(), Refusal> {
    // SAFETY: pointer and length are of one live slice that nobody else holds; `words` is a whole array.
    accepted(unsafe { archive::rasuvelk_write_header(words, buf.as_mut_ptr(), buf.len()) })
}

/// The kind of an entry, from 0 for regular to 5 for FREE.
pub(crate) fn kind_of(entry: u32) -> u32 {
    // SAFETY: no memory is lent.
    unsafe { archive::rasuvelk_kind_of(entry) }
}

/// The item at a place of a list: its kind, 0 where there is none, and its two numbers and the place after it.
pub(crate) fn prettify(sectors: &[u32], at: usize) -> (u32, [u64; 3]) {
    let mut item = [0; 3];
    // SAFETY: pointer and length are of one live slice; `item` is a whole array of this function's own.
    let kind = unsafe { archive::rasuvelk_prettify(sectors.as_ptr(), sectors.len(), at, &mut item) };
    (kind, item)
}

/// The text of an item, with zeros after it, and its length.
pub(crate) fn sector_text(kind: u32, a: u64, b: u64) -> (usize, [u8; 32]) {
    let mut out = [0; 32];
    // SAFETY: `out` is a whole array of this function's own.
    let length = unsafe { archive::rasuvelk_sector_text(kind, a, b, &mut out) };
    (length, out)
}

pub(crate) fn open(
    image: &[u8],
    used: usize,
    mode: u32,
    tables: TablesMut<'_>,
    state: &mut StateWords,
) -> Result<(), Refusal> {
    // SAFETY: each pointer and the length after it are of one live slice; the tables and `state` are `&mut`, so that
    // nobody else holds them and none overlaps another or the image.
    accepted(unsafe {
        archive::rasuvelk_open(
            image.as_ptr(),
            image.len(),
            used,
            mode,
            tables.fat.as_mut_ptr(),
            tables.fat.len(),
            tables.fats.as_mut_ptr(),
            tables.fats.len(),
            tables.difats.as_mut_ptr(),
            tables.difats.len(),
            tables.frees.as_mut_ptr(),
            tables.frees.len(),
            tables.marks.as_mut_ptr(),
            tables.marks.len(),
            state,
        )
    })
}

pub(crate) fn open_chain(look: Look<'_>, ids: &mut [u32], start: u32) -> Result<Told, Refusal> {
    let Look { state, image, tables } = look;
    let mut answer = [0; 3];
    // SAFETY: each pointer and the length after it are of one live slice, `state` is a whole array; only `ids` and
    // `answer` are written, `ids` is `&mut` and `answer` this function's own, so neither overlaps anything.
    let number = unsafe {
        archive::rasuvelk_open_chain(
            state,
            image.as_ptr(),
            image.len(),
            tables.fat.as_ptr(),
            tables.fat.len(),
            tables.fats.as_ptr(),
            tables.fats.len(),
            tables.difats.as_ptr(),
            tables.difats.len(),
            tables.frees.as_ptr(),
            tables.frees.len(),
            tables.marks.as_ptr(),
            tables.marks.len(),
            ids.as_mut_ptr(),
            ids.len(),
            start,
            &mut answer,
        )
    };
    told(number, answer)
}

pub(crate) fn read_chain(
    look: Look<'_>,
    ids: &mut [u32],
    start: u32,
    offset: u64,
    buf: &mut [u8],
) -> Result<Told, Refusal> {
    let Look { state, image, tables } = look;
    let mut answer = [0; 3];
    // SAFETY: as in `open_chain`; `buf` is written too, and is `&mut`.
    let number = unsafe {
        archive::rasuvelk_read_chain(
            state,
            image.as_ptr(),
            image.len(),
            tables.fat.as_ptr(),
            tables.fat.len(),
            tables.fats.as_ptr(),
            tables.fats.len(),
            tables.difats.as_ptr(),
            tables.difats.len(),
            tables.frees.as_ptr(),
            tables.frees.len(),
            tables.marks.as_ptr(),
            tables.marks.len(),
            ids.as_mut_ptr(),
            ids.len(),
            start,
            offset,
            buf.as_mut_ptr(),
            buf.len(),
            &mut answer,
        )
    };
    told(number, answer)
}

pub(crate) fn write_chain(
    hand: Hand<'_>,
    ids: &mut [u32],
    start: u32,
    offset: u64,
    buf: &[u8],
) -> Result<Told, Refusal> {
    let Hand { state, image, tables } = hand;
    let mut answer = [0; 3];
    // SAFETY: each pointer and the length after it are of one live slice, `state` is a whole array; all that is written
    // is `&mut` or this function's own, so that none overlaps another or `buf`.
    let number = unsafe {
        archive::rasuvelk_write_chain(
            state,
            image.as_mut_ptr(),
            image.len(),
            tables.fat.as_mut_ptr(),
            tables.fat.len(),
            tables.fats.as_mut_ptr(),
            tables.fats.len(),
            tables.difats.as_mut_ptr(),
            tables.difats.len(),
            tables.frees.as_mut_ptr(),
            tables.frees.len(),
            tables.marks.as_mut_ptr(),
            tables.marks.len(),
            ids.as_mut_ptr(),
            ids.len(),
            start,
            offset,
            buf.as_ptr(),
            buf.len(),
            &mut answer,
        )
    };
    told(number, answer)
}

pub(crate) fn resize_chain(hand: Hand<'_>, ids: &mut [u32], start: u32, length: u64) -> Result<Told, Refusal> {
    let Hand { state, image, tables } = hand;
    let mut answer = [0; 3];
    // SAFETY: as in `write_chain`; there is no buffer.
    let number = unsafe {
        archive::rasuvelk_resize_chain(
            state,
            image.as_mut_ptr(),
            image.len(),
            tables.fat.as_mut_ptr(),
            tables.fat.len(),
            tables.fats.as_mut_ptr(),
            tables.fats.len(),
            tables.difats.as_mut_ptr(),
            tables.difats.len(),
            tables.frees.as_mut_ptr(),
            tables.frees.len(),
            tables.marks.as_mut_ptr(),
            tables.marks.len(),
            ids.as_mut_ptr(),
            ids.len(),
            start,
            length,
            &mut answer,
        )
    };
    told(number, answer)
}

pub(crate) fn free_chain(hand: Hand<'_>, ids: &mut [u32], start: u32) -> Result<Told, Refusal> {
    let Hand { state, image, tables } = hand;
    let mut answer = [0; 3];
    // SAFETY: as in `write_chain`; there is no buffer.
    let number = unsafe {
        archive::rasuvelk_free_chain(
            state,
            image.as_mut_ptr(),
            image.len(),
            tables.fat.as_mut_ptr(),
            tables.fat.len(),
            tables.fats.as_mut_ptr(),
            tables.fats.len(),
            tables.difats.as_mut_ptr(),
            tables.difats.len(),
            tables.frees.as_mut_ptr(),
            tables.frees.len(),
            tables.marks.as_mut_ptr(),
            tables.marks.len(),
            ids.as_mut_ptr(),
            ids.len(),
            start,
            &mut answer,
        )
    };
    told(number, answer)
}
