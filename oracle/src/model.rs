//! The functions of the archive once more, written from the specification and from nothing else.
//!
//! With the feature `model` they stand in for the archive, so that the tests can be tried without it.
//! They are also a third opinion: the archive is held against them with no Rust of cfb at hand.

use crate::abi::{self, Words};

mod chains;
mod changes;
mod opening;

pub use chains::{open_chain, read_chain};
pub use changes::{free_chain, resize_chain, write_chain};
pub use opening::open;

const HEADER: usize = 512;
const LISTED: usize = 109;
const SIGNATURE: [u8; 8] = [0xd0, 0xcf, 0x11, 0xe0, 0xa1, 0xb1, 0x1a, 0xe1];
const MINOR: u32 = 0x3e;
const BYTE_ORDER: u32 = 0xfffe;
const MINI_SHIFT: u32 = 6;
const CUTOFF: u32 = 4096;
const REGULAR_LAST: u32 = 0xffff_fffa;
const RESERVED: u32 = 0xffff_fffb;
const DIFAT: u32 = 0xffff_fffc;
const FAT: u32 = 0xffff_fffd;
const END: u32 = 0xffff_fffe;
const FREE: u32 = 0xffff_ffff;

/// Offsets of the fields of two bytes.
const MINOR_AT: usize = 24;
const MAJOR_AT: usize = 26;
const ORDER_AT: usize = 28;
const SHIFT_AT: usize = 30;
const MINI_AT: usize = 32;
/// Offsets of the fields of four bytes: the cutoff, the list, and the seven others that a header keeps.
const CUTOFF_AT: usize = 56;
const LIST_AT: usize = 76;
const KEPT: [(usize, usize); 7] = [
    (abi::DIRECTORY_SECTORS, 40),
    (abi::FAT_SECTORS, 44),
    (abi::FIRST_DIRECTORY, 48),
    (abi::FIRST_MINIFAT, 60),
    (abi::MINIFAT_SECTORS, 64),
    (abi::FIRST_DIFAT, 68),
    (abi::DIFAT_SECTORS, 72),
];

fn get16(bytes: &[u8], at: usize) -> u32 {
    u32::from(bytes[at]) + 256 * u32::from(bytes[at + 1])
}

fn get32(bytes: &[u8], at: usize) -> u32 {
    get16(bytes, at) + 65536 * get16(bytes, at + 2)
}

fn put16(bytes: &mut [u8], at: usize, number: u32) {
    bytes[at] = (number % 256) as u8;
    bytes[at + 1] = (number / 256 % 256) as u8;
}

fn put32(bytes: &mut [u8], at: usize, number: u32) {
    put16(bytes, at, number % 65536);
    put16(bytes, at + 2, number / 65536);
}

/// The sector shift of a version.
fn shift_of(major: u32) -> u32 {
    if major == 3 {
        9
    } else {
        12
    }
}

/// Whether a list is regular ids and then nothing but FREE.
fn is_list(list: impl Iterator<Item = u32>) -> bool {
    let mut ended = false;
    for entry in list {
        if entry != FREE && (ended || entry > REGULAR_LAST) {
            return false;
        }
        ended |= entry == FREE;
    }
    true
}

/// The number of the reader's refusal, or 0.
fn refusal(bytes: &[u8], strict: bool) -> u32 {
    if bytes.len() < HEADER {
        return 1;
    }
    let major = get16(bytes, MAJOR_AT);
    let directory = get32(bytes, 40);
    let checks = [
        (2, bytes[..8] == SIGNATURE),
        (3, get16(bytes, ORDER_AT) == BYTE_ORDER),
        (4, major == 3 || major == 4),
        (5, get16(bytes, SHIFT_AT) == shift_of(major)),
        (6, get16(bytes, MINI_AT) == MINI_SHIFT),
        (7, !(strict && major == 3 && directory != 0)),
        (8, get32(bytes, CUTOFF_AT) == CUTOFF),
        (9, is_list((0..LISTED).map(|p| get32(bytes, LIST_AT + 4 * p)))),
    ];
    checks.iter().find(|check| !check.1).map_or(0, |check| check.0)
}

/// Reads a header; 0, or the number of the refusal. Mode 0 is permissive.
pub fn read_header(bytes: &[u8], mode: u32, words: &mut Words) -> u32 {
    *words = abi::REFUSED;
    let number = refusal(bytes, mode != 0);
    if number != 0 {
        return number;
    }
    words[abi::VERSION] = get16(bytes, MAJOR_AT);
    for (place, at) in KEPT {
        words[place] = get32(bytes, at);
    }
    if words[abi::VERSION] == 3 {
        words[abi::DIRECTORY_SECTORS] = 0;
    }
    if words[abi::FIRST_DIFAT] == FREE {
        words[abi::FIRST_DIFAT] = END;
    }
    for place in 0..LISTED {
        words[abi::LIST + place] = get32(bytes, LIST_AT + 4 * place);
    }
    0
}

/// Writes a header; 0, or the number of the refusal, which leaves the buffer alone.
pub fn write_header(words: &Words, buf: &mut [u8]) -> u32 {
    let version = words[abi::VERSION];
    if version != 3 && version != 4 {
        return 4;
    }
    if buf.len() < HEADER {
        return 1;
    }
    if version == 3 && words[abi::DIRECTORY_SECTORS] != 0 {
        return 7;
    }
    if !is_list(words[abi::LIST..].iter().copied()) || words[abi::FIRST_DIFAT] == FREE {
        return 9;
    }
    buf[..HEADER].fill(0);
    buf[..8].copy_from_slice(&SIGNATURE);
    put16(buf, MINOR_AT, MINOR);
    put16(buf, MAJOR_AT, version);
    put16(buf, ORDER_AT, BYTE_ORDER);
    put16(buf, SHIFT_AT, shift_of(version));
    put16(buf, MINI_AT, MINI_SHIFT);
    put32(buf, CUTOFF_AT, CUTOFF);
    for (place, at) in KEPT {
        put32(buf, at, words[place]);
    }
    for place in 0..LISTED {
        put32(buf, LIST_AT + 4 * place, words[abi::LIST + place]);
    }
    0
}

/// The kind of an entry, from 0 for regular to 5 for FREE.
pub fn kind_of(entry: u32) -> u32 {
    [RESERVED, DIFAT, FAT, END, FREE].iter().position(|&special| special == entry).map_or(0, |p| p as u32 + 1)
}

/// The kind of the item that an entry begins.
fn item_of(entry: u32) -> u32 {
    match entry {
        FREE => abi::FREE,
        END => abi::END,
        FAT => abi::FAT,
        DIFAT => abi::DIFAT,
        _ => abi::RANGE,
    }
}

/// The first item of `sectors[at..]`: its kind; its two numbers and the place past it in `item`.
pub fn prettify(sectors: &[u32], at: usize, item: &mut [u64; 3]) -> u32 {
    *item = [0; 3];
    let Some(&first) = sectors.get(at) else {
        return abi::NONE;
    };
    let kind = item_of(first);
    let mut past = at + 1;
    while kind != abi::END && past < sectors.len() && item_of(sectors[past]) == kind {
        if kind == abi::RANGE && u64::from(sectors[past]) != u64::from(sectors[past - 1]) + 1 {
            break;
        }
        past += 1;
    }
    *item = if kind == abi::RANGE {
        [first.into(), sectors[past - 1].into(), past as u64]
    } else {
        [(past - at) as u64, 0, past as u64]
    };
    kind
}

/// The text of an item, with zeros after it; its length. No text where there is no such item.
pub fn sector_text(kind: u32, a: u64, b: u64, out: &mut [u8; 32]) -> usize {
    let most = u64::from(u32::MAX);
    let text = match kind {
        abi::END => "EOC".to_string(),
        abi::FREE => counted(a, "FREE"),
        abi::FAT => counted(a, "FAT"),
        abi::DIFAT => counted(a, "DIFAT"),
        abi::RANGE if a > most || b > most => String::new(),
        abi::RANGE if a == b => a.to_string(),
        abi::RANGE => format!("{a}..={b}"),
        _ => String::new(),
    };
    *out = [0; 32];
    out[..text.len()].copy_from_slice(text.as_bytes());
    text.len()
}

/// A word, with its count before it where that is not 1.
fn counted(count: u64, word: &str) -> String {
    if count == 1 {
        word.to_string()
    } else {
        format!("{count} {word}")
    }
}
