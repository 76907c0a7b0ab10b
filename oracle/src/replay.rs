//! The fixed list of the Rust's answers, which a program replays with no Rust at hand.
//!
//! A record has 1,024 bytes: its kind (R, W, P, O or C), the mode, the length L of what is lent (two bytes), the
//! answer's number, three bytes that only O and C have, and then
//! - R: the L bytes of the slice, and at 552 the 117 words after the call;
//! - W: the 117 words, and at 476 the L bytes of the buffer after the call; byte i was 7i + 3 before it;
//! - P: the L entries, and at 248 the text of all items, each with a line feed after it; the answer is
//!   how many items there are;
//! - O: L is how many sectors there are, at most 24; byte 5 is the sector s of the FAT entries, and bytes 6 and 7 count
//!   the FREE sectors and all sectors of the state after the call. The 512 bytes of the header, at 520 the 24 entries;
//!   and after the call at 616 the FAT, at 712 the free list, at 808 the marks, at 832 the FAT sectors, at 928 the
//!   DIFAT sectors. The lent image is the header and L times 512 bytes, all of them used: sector s, where there is one,
//!   holds the entries and then FREE, and every other byte is zero. Each lent table has 24 elements, which are full of
//!   0xaa before the call, and the record has all of them after it;
//! - C: L, byte 5, the header and the entries are an image as O has it, which opens; the call is then to open a chain on
//!   the state and tables that this leaves. Byte 6 is how many ids the chain has, byte 7 zero; at 616 the start, and at
//!   620 the id list after the call: 24 elements, which are full of 0xaa before it.
//!
//! Whatever is not named is zero. An input is on the list only if the Rust and the specification agree on it.

use crate::abi::{self, Words};
use crate::inputs::{self, Bytes, END, FREE, HEADER, LISTED, SPECIAL};
use crate::random::Random;
use crate::{asked, model};

pub mod chains;
pub mod opens;

/// Bytes of a record, and where its parts begin.
pub const RECORD: usize = 1024;
pub const BODY: usize = 8;
pub const READ_WORDS: usize = 552;
pub const WRITTEN: usize = 476;
pub const TEXT: usize = 248;
/// How many records of each kind there are.
pub const READS: usize = 150;
pub const WRITES: usize = 60;
pub const LISTS: usize = 40;
pub const OPENS: usize = 100;
pub const CHAINS: usize = 80;
/// The longest slice and buffer, and the longest list.
const LONGEST: usize = 540;
const LIST: usize = 60;

/// One record.
pub type Record = [u8; RECORD];

/// What the buffer of a W record holds before the call.
pub fn before(len: usize) -> Vec<u8> {
    (0..len).map(|i| (7 * i + 3) as u8).collect()
}

fn begin(kind: u8, mode: u32, len: usize, number: u32) -> Record {
    let mut record = [0; RECORD];
    record[0] = kind;
    record[1] = mode as u8;
    record[2..4].copy_from_slice(&(len as u16).to_le_bytes());
    record[4] = number as u8;
    record
}

fn put_all(record: &mut Record, at: usize, words: &[u32]) {
    for (i, &word) in words.iter().enumerate() {
        inputs::put32(record, at + 4 * i, word);
    }
}

/// The record of a reading, where the two agree.
fn read(bytes: &[u8], mode: u32) -> Option<Record> {
    let (number, words) = asked::read_header(bytes, mode);
    let mut other = [0; 117];
    if (model::read_header(bytes, mode, &mut other), other) != (number, words) {
        return None;
    }
    let mut record = begin(b'R', mode, bytes.len(), number);
    record[BODY..BODY + bytes.len()].copy_from_slice(bytes);
    put_all(&mut record, READ_WORDS, &words);
    Some(record)
}

/// The record of a writing, where the two agree.
fn write(words: &Words, len: usize) -> Option<Record> {
    let mut buf = before(len);
    let mut other = before(len);
    let number = if asked::write_header(words, &mut buf) { 0 } else { 1 };
    if (model::write_header(words, &mut other), &other) != (number, &buf) {
        return None;
    }
    let mut record = begin(b'W', 0, len, number);
    put_all(&mut record, BODY, words);
    record[WRITTEN..WRITTEN + len].copy_from_slice(&buf);
    Some(record)
}

/// The record of a list, where its text has room.
fn list(sectors: &[u32]) -> Option<Record> {
    let items = asked::prettify(sectors);
    let text: String = items.iter().map(|item| format!("{}\n", item.text)).collect();
    if text.len() > RECORD - TEXT || sectors.len() > LIST {
        return None;
    }
    let mut record = begin(b'P', 0, sectors.len(), items.len() as u32);
    put_all(&mut record, BODY, sectors);
    record[TEXT..TEXT + text.len()].copy_from_slice(text.as_bytes());
    Some(record)
}

/// A header with one field of two bytes changed.
fn short(version: u16, at: usize, number: u16) -> Bytes {
    let mut bytes = inputs::good(version, 2);
    inputs::put16(&mut bytes, at, number);
    bytes
}

/// A header with one field of four bytes changed; a place of the list is one too.
fn long(version: u16, ids: usize, at: usize, number: u32) -> Bytes {
    let mut bytes = inputs::good(version, ids);
    inputs::put32(&mut bytes, at, number);
    bytes
}

/// Headers with one wrong field each.
fn damaged() -> Vec<Bytes> {
    let mut all = Vec::new();
    for at in [0, 3, 7] {
        let mut bytes = inputs::good(3, 2);
        bytes[at] ^= 1;
        all.push(bytes);
    }
    for (at, number) in
        [(28, 0xfeff), (28, 0), (26, 2), (26, 5), (26, 0x103), (30, 12), (30, 0x109), (32, 5), (32, 0x106)]
    {
        all.push(short(3, at, number));
    }
    for (at, number) in [(28, 0xffff), (26, 0), (26, 3), (30, 9), (30, 0), (32, 7)] {
        all.push(short(4, at, number));
    }
    for (version, at, number) in [(3, 40, 1), (3, 40, FREE), (4, 40, 9), (3, 56, 4095), (4, 56, 0), (4, 56, 0x1_1000)] {
        all.push(long(version, 2, at, number));
    }
    for (place, entry) in [0, 54, LISTED - 1, 7].into_iter().zip(SPECIAL) {
        all.push(long(3, LISTED, inputs::LIST_AT + 4 * place, entry));
        all.push(long(4, place, inputs::LIST_AT + 4 * place, entry));
    }
    all
}

/// Headers in which each cause and the next one stand together: the earlier is the answer.
fn twice_damaged() -> Vec<Bytes> {
    let at = [0, 28, 26, 30, 32, 40, 56, inputs::LIST_AT];
    let pairs = at.windows(2).map(|pair| {
        let mut bytes = inputs::good(3, 0);
        bytes[pair[0]] ^= 0x10;
        bytes[pair[1]] ^= 0x01;
        bytes
    });
    pairs.collect()
}

/// Good headers: both versions, lists of several lengths, first DIFAT of FREE, END and an id.
fn whole() -> Vec<Bytes> {
    let mut all = Vec::new();
    for version in [3, 4] {
        for ids in [0, 1, 108, LISTED] {
            all.push(inputs::good(version, ids));
        }
        for first in [FREE, END, 0, inputs::REGULAR_LAST] {
            all.push(long(version, 3, 68, first));
        }
    }
    all
}

fn reads(random: &mut Random) -> Vec<Record> {
    let cut = inputs::good(3, LISTED);
    let mut all: Vec<Record> = [0, 1, 7, 76, 511].iter().filter_map(|&len| read(&cut[..len], 1)).collect();
    let made = [whole(), damaged(), twice_damaged()].concat();
    let mut turn = 0;
    while all.len() < READS {
        let header = match made.get(turn / 2) {
            Some(&header) => header,
            None => inputs::random_header(random, 12),
        };
        let mut bytes = [0; LONGEST];
        random.fill(&mut bytes);
        bytes[..HEADER].copy_from_slice(&header);
        let len = HEADER + 5 * turn % (LONGEST - HEADER + 1);
        all.extend(read(&bytes[..len], turn as u32 % 2));
        turn += 1;
    }
    assert!(turn > 2 * made.len());
    all
}

fn writes(random: &mut Random) -> Vec<Record> {
    let mut made: Vec<Words> = whole().iter().map(|bytes| inputs::words_in(bytes)).collect();
    made.push(abi::REFUSED);
    let mut all: Vec<Record> = write(&made[0], 0).into_iter().collect();
    let mut turn = 0;
    while all.len() < WRITES {
        let words = match made.get(turn) {
            Some(&words) => words,
            None => inputs::random_words(random, 1_000_000),
        };
        all.extend(write(&words, HEADER + 3 * turn % (LONGEST - HEADER + 1)));
        turn += 1;
    }
    all
}

fn lists(random: &mut Random) -> Vec<Record> {
    let letters = inputs::LETTERS;
    let made = [
        Vec::new(),
        vec![SPECIAL[2], 2, 3, END, FREE, FREE],
        letters.to_vec(),
        letters.iter().rev().copied().collect(),
        letters.iter().flat_map(|&letter| [letter; 3]).collect(),
        vec![FREE; LIST],
        vec![SPECIAL[1]; LIST],
        vec![SPECIAL[2]; LIST],
        vec![END; LIST],
        vec![5; LIST],
        (0..LIST as u32).collect(),
        (0..LIST as u32).rev().collect(),
        vec![0xffff_fff9, 0xffff_fffa, 0xffff_fffb, 0xffff_fffc],
    ];
    let mut all: Vec<Record> = made.iter().map(|sectors| list(sectors).unwrap()).collect();
    while all.len() < LISTS {
        let len = 1 + random.below(LIST);
        all.extend(list(&inputs::runs(random, len, 12)));
    }
    all
}

/// All records, the same at every run.
pub fn records() -> Vec<Record> {
    let random = &mut Random::fixed("replay");
    [reads(random), writes(random), lists(random), opens::records(), chains::records()].concat()
}

/// The whole list, as the file of the program `replay` holds it.
pub fn file() -> Vec<u8> {
    records().concat()
}
