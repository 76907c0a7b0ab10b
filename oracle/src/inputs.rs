//! Headers, words and lists to compare on. The same at every run, but for the random ones under another seed.

use crate::abi::{self, Words};
use crate::random::Random;

pub const FREE: u32 = 0xffff_ffff;
pub const END: u32 = 0xffff_fffe;
pub const REGULAR_LAST: u32 = 0xffff_fffa;
/// Entries that are neither an id nor FREE.
pub const SPECIAL: [u32; 4] = [0xffff_fffb, 0xffff_fffc, 0xffff_fffd, END];

/// Bytes of a header and entries in its list.
pub const HEADER: usize = 512;
pub const LISTED: usize = 109;
/// Where the list begins.
pub const LIST_AT: usize = 76;
/// Fields of two bytes: minor, major, byte order, sector shift, mini shift.
pub const SHORTS: [usize; 5] = [24, 26, 28, 30, 32];
/// Fields of four bytes before the list.
pub const LONGS: [usize; 9] = [40, 44, 48, 52, 56, 60, 64, 68, 72];

/// The bytes of one header.
pub type Bytes = [u8; HEADER];

/// Stores a number of two bytes.
pub fn put16(bytes: &mut [u8], at: usize, number: u16) {
    bytes[at..at + 2].copy_from_slice(&number.to_le_bytes());
}

/// Stores a number of four bytes.
pub fn put32(bytes: &mut [u8], at: usize, number: u32) {
    bytes[at..at + 4].copy_from_slice(&number.to_le_bytes());
}

/// Stores an entry of the list.
pub fn put_listed(bytes: &mut [u8], place: usize, entry: u32) {
    put32(bytes, LIST_AT + 4 * place, entry);
}

/// A good header of this version with the first `ids` ids in its list, and FREE after them.
pub fn good(version: u16, ids: usize) -> Bytes {
    let mut bytes = [0; HEADER];
    bytes[..8].copy_from_slice(b"\xd0\xcf\x11\xe0\xa1\xb1\x1a\xe1");
    for (at, number) in SHORTS.into_iter().zip([0x3e, version, 0xfffe, 3 * version, 6]) {
        put16(&mut bytes, at, number);
    }
    let directory = if version == 3 { 0 } else { 1 };
    let numbers = [directory, ids as u32, 1, 0, 4096, END, 0, END, 0];
    for (at, number) in LONGS.into_iter().zip(numbers) {
        put32(&mut bytes, at, number);
    }
    for place in 0..LISTED {
        put_listed(&mut bytes, place, if place < ids { place as u32 } else { FREE });
    }
    bytes
}

/// Good headers of both versions with lists of every length.
pub fn good_headers(see: &mut impl FnMut(&[u8])) {
    for version in [3, 4] {
        for ids in 0..=LISTED {
            see(&good(version, ids));
        }
    }
}

/// Every value of every field of two bytes.
pub fn every_short(see: &mut impl FnMut(&[u8])) {
    for version in [3, 4] {
        for at in SHORTS {
            let mut bytes = good(version, 1);
            for number in 0..=u16::MAX {
                put16(&mut bytes, at, number);
                see(&bytes);
            }
        }
    }
}

/// Every single bit flipped, in headers with none, some and all places of the list taken.
pub fn every_bit(see: &mut impl FnMut(&[u8])) {
    for version in [3, 4] {
        for ids in [0, 1, 54, 108, LISTED] {
            let mut bytes = good(version, ids);
            for bit in 0..8 * HEADER {
                bytes[bit / 8] ^= 1 << (bit % 8);
                see(&bytes);
                bytes[bit / 8] ^= 1 << (bit % 8);
            }
        }
    }
}

/// Values at the edges of what a field of four bytes may hold.
pub const EDGES: [u32; 16] = [
    0,
    1,
    2,
    3,
    4,
    109,
    4095,
    4096,
    4097,
    0x7fff_ffff,
    0x8000_0000,
    REGULAR_LAST - 1,
    REGULAR_LAST,
    0xffff_fffb,
    END,
    FREE,
];

/// Each edge in each field of four bytes.
pub fn every_long(see: &mut impl FnMut(&[u8])) {
    for version in [3, 4] {
        for at in LONGS {
            for number in EDGES {
                let mut bytes = good(version, 3);
                put32(&mut bytes, at, number);
                see(&bytes);
            }
        }
    }
}

/// A special value at each place before the first FREE: as the last before it, and with ids after it.
pub fn special_lists(see: &mut impl FnMut(&[u8])) {
    for version in [3, 4] {
        for place in 0..LISTED {
            for (entry, ids) in SPECIAL.into_iter().flat_map(|e| [(e, place), (e, LISTED)]) {
                let mut bytes = good(version, ids);
                put_listed(&mut bytes, place, entry);
                see(&bytes);
            }
        }
    }
}

/// Something else than FREE at each place after each first FREE.
pub fn revived_lists(see: &mut impl FnMut(&[u8])) {
    let entries = [0, REGULAR_LAST].into_iter().chain(SPECIAL);
    for version in [3, 4] {
        for first in 0..LISTED {
            let mut bytes = good(version, first);
            for place in first + 1..LISTED {
                for entry in entries.clone() {
                    put_listed(&mut bytes, place, entry);
                    see(&bytes);
                }
                put_listed(&mut bytes, place, FREE);
            }
        }
    }
}

/// Headers to be cut: good ones, one for each cause, and lists of every shape.
fn to_be_cut() -> Vec<Bytes> {
    let mut all = Vec::new();
    for version in [3, 4] {
        for ids in [0, 1, 2, 54, 107, 108, LISTED] {
            all.push(good(version, ids));
        }
        for at in [0, 7, 26, 28, 30, 32, 40, 56] {
            let mut bytes = good(version, 108);
            bytes[at] ^= 0x55;
            all.push(bytes);
        }
        for (ids, place, entry) in
            [(LISTED, 0, END), (LISTED, 54, SPECIAL[0]), (108, 107, END), (0, 1, 7), (54, 108, 7)]
        {
            let mut bytes = good(version, ids);
            put_listed(&mut bytes, place, entry);
            all.push(bytes);
        }
    }
    all
}

/// Lengths of slices: all from 0 to 520, and some longer ones.
pub fn lengths() -> impl Iterator<Item = usize> {
    (0..=520).chain([540, 1023, 1024, 4095, 4096, 4097, 5000])
}

/// Slices of every length, with random bytes after the header.
pub fn every_length(random: &mut Random, see: &mut impl FnMut(&[u8])) {
    let mut longest = vec![0; 5000];
    for header in to_be_cut() {
        random.fill(&mut longest);
        longest[..HEADER].copy_from_slice(&header);
        for length in lengths() {
            see(&longest[..length]);
        }
    }
}

/// A number for a field of four bytes: small, at an edge, or any.
pub fn number(random: &mut Random) -> u32 {
    match random.below(4) {
        0 => random.below(200) as u32,
        1 => random.pick(&EDGES),
        _ => random.word(),
    }
}

/// An id: small, any, or at the edge.
fn id(random: &mut Random) -> u32 {
    match random.below(4) {
        0 => REGULAR_LAST - random.below(3) as u32,
        1 => random.word() % (REGULAR_LAST + 1),
        _ => random.below(20_000) as u32,
    }
}

/// A list that the reader can give: ids, then FREE.
fn list(random: &mut Random) -> [u32; LISTED] {
    let ids = random.below(LISTED + 1);
    let mut entries = [FREE; LISTED];
    entries[..ids].fill_with(|| id(random));
    entries
}

/// Damages a list: a special value or an id anywhere.
fn damage_list(random: &mut Random, entries: &mut [u32]) {
    let place = random.below(LISTED);
    entries[place] = if random.once_in(2) { random.pick(&SPECIAL) } else { id(random) };
}

/// A random header in which every unchecked byte is random, and each checked field wrong once in `odds`.
pub fn random_header(random: &mut Random, odds: usize) -> Bytes {
    let version = random.pick(&[3, 4]);
    let mut bytes = good(version, 0);
    random.fill(&mut bytes[8..26]);
    random.fill(&mut bytes[34..40]);
    for at in LONGS {
        let keep = at == 56 || (at == 40 && version == 3);
        let wrong = random.once_in(odds);
        if !keep || wrong {
            put32(&mut bytes, at, number(random));
        }
    }
    let mut entries = list(random);
    if random.once_in(odds) {
        damage_list(random, &mut entries);
    }
    for (place, entry) in entries.into_iter().enumerate() {
        put_listed(&mut bytes, place, entry);
    }
    for at in [0, 26, 28, 30, 32] {
        if random.once_in(odds) {
            bytes[at + random.below(2)] ^= 1 << random.below(8);
        }
    }
    bytes
}

/// How many headers `random_headers` shows.
pub const RANDOM_HEADERS: usize = 240_000;

/// Random headers: whole, cut, or with bytes after them; and bytes that are no header at all.
pub fn random_headers(random: &mut Random, see: &mut impl FnMut(&[u8])) {
    let mut longest = [0; 4 * HEADER];
    for turn in 0..RANDOM_HEADERS {
        random.fill(&mut longest[..HEADER + 64]);
        if turn % 16 != 0 {
            let odds = random.pick(&[4, 10, 60, 1_000_000]);
            longest[..HEADER].copy_from_slice(&random_header(random, odds));
        }
        let length = match random.below(8) {
            0 => random.below(longest.len() + 1),
            1 => HEADER + random.below(29),
            _ => HEADER,
        };
        see(&longest[..length]);
    }
}

/// Every header to read.
pub fn headers(random: &mut Random, see: &mut impl FnMut(&[u8])) {
    good_headers(see);
    every_short(see);
    every_bit(see);
    every_long(see);
    special_lists(see);
    revived_lists(see);
    every_length(random, see);
    random_headers(random, see);
}

/// Random words of a header; each rule of the writer broken once in `odds`.
pub fn random_words(random: &mut Random, odds: usize) -> Words {
    let mut words = [0; 117];
    words[..abi::LIST].fill_with(|| number(random));
    words[abi::VERSION] = random.pick(&[3, 4]);
    if words[abi::VERSION] == 3 && !random.once_in(odds) {
        words[abi::DIRECTORY_SECTORS] = 0;
    }
    if words[abi::FIRST_DIFAT] == FREE && !random.once_in(odds) {
        words[abi::FIRST_DIFAT] = END;
    }
    let mut entries = list(random);
    if random.once_in(odds) {
        damage_list(random, &mut entries);
    }
    words[abi::LIST..].copy_from_slice(&entries);
    words
}

/// The letters of short lists: values on both sides of every edge between kinds.
pub const LETTERS: [u32; 10] =
    [0, 1, 2, 0xffff_fff9, 0xffff_fffa, 0xffff_fffb, 0xffff_fffc, 0xffff_fffd, 0xffff_fffe, 0xffff_ffff];

/// Every list of at most five letters: 111,111 of them.
pub fn short_lists(see: &mut impl FnMut(&[u32])) {
    for len in 0..=5 {
        for mut word in 0..10usize.pow(len) {
            let mut entries = [0; 5];
            for entry in &mut entries[..len as usize] {
                *entry = LETTERS[word % 10];
                word /= 10;
            }
            see(&entries[..len as usize]);
        }
    }
}

/// How many lists `long_lists` shows.
pub const LONG_LISTS: usize = 4_000;

/// Random lists of up to 2,000 entries, made of runs.
pub fn long_lists(random: &mut Random, see: &mut impl FnMut(&[u32])) {
    for _ in 0..LONG_LISTS {
        let len = random.below(2_001);
        see(&runs(random, len, 300));
    }
}

/// A list of this length made of runs, each of at most `longest` entries.
pub fn runs(random: &mut Random, len: usize, longest: usize) -> Vec<u32> {
    let mut entries = Vec::with_capacity(len);
    while entries.len() < len {
        let most = (len - entries.len()).min(longest);
        let run = if random.once_in(2) { 1 } else { 1 + random.below(most) };
        match random.below(4) {
            0 => entries.extend(std::iter::repeat_n(random.pick(&LETTERS), run)),
            // These run over the edge: regular, reserved, DIFAT, FAT, END, FREE.
            1 => entries.extend((0..run as u32).map(|i| FREE - i).rev()),
            _ => {
                let first = id(random);
                entries.extend((0..run as u32).map(|i| first.saturating_add(i)));
            }
        }
    }
    entries.truncate(len);
    entries
}

/// The words that stand in a header's bytes, good or not.
pub fn words_in(bytes: &[u8]) -> Words {
    let get = |at: usize| u32::from_le_bytes(bytes[at..at + 4].try_into().unwrap());
    let mut words = [0; 117];
    words[abi::VERSION] = bytes[26].into();
    for (place, at) in [40, 44, 48, 60, 64, 68, 72].into_iter().enumerate() {
        words[1 + place] = get(at);
    }
    for place in 0..LISTED {
        words[abi::LIST + place] = get(LIST_AT + 4 * place);
    }
    words
}

/// Numbers that are no version, among them some that are one in their low half.
pub const NO_VERSION: [u32; 9] = [0, 1, 2, 5, 9, 0x1_0003, 0x1_0004, 0x300, FREE];

/// How many words `words` shows at each length, and how many random ones after that.
pub const WORDS_AT_LENGTH: usize = 40;
pub const RANDOM_WORDS: usize = 200_000;

/// Words to write and the length of the buffer: every length, every list shape, no version, random ones.
pub fn words(random: &mut Random, see: &mut impl FnMut(&Words, usize)) {
    for length in lengths() {
        for _ in 0..WORDS_AT_LENGTH {
            see(&random_words(random, 6), length);
        }
    }
    let shape = &mut |bytes: &[u8]| see(&words_in(bytes), HEADER);
    good_headers(shape);
    every_long(shape);
    special_lists(shape);
    revived_lists(shape);
    for version in NO_VERSION {
        for length in [0, 511, 512, 540] {
            let mut words = random_words(random, 2);
            words[abi::VERSION] = version;
            see(&words, length);
        }
    }
    for _ in 0..RANDOM_WORDS {
        let odds = random.pick(&[3, 10, 1_000_000]);
        see(&random_words(random, odds), HEADER + random.below(29));
    }
}

/// Items to be written as text: kind and two numbers. Every kind with every pair of edges.
pub fn edge_items(see: &mut impl FnMut(u32, u64, u64)) {
    let mut edges = vec![0, 1, 2, 9, 10, 11, 99, 100, 0xffff_fffa, 0xffff_fffb, 0xffff_ffff];
    edges.extend([1 << 32, (1 << 32) + 1, 1 << 63, u64::MAX - 1, u64::MAX]);
    edges.extend((0..20).flat_map(|k| [10u64.pow(k) - 1, 10u64.pow(k)]));
    for kind in [0, 1, 2, 3, 4, 5, 6, 7, 255, 256, 257, 0x1_0001, u32::MAX] {
        for &a in &edges {
            for &b in &edges {
                see(kind, a, b);
            }
        }
    }
}

/// How many items `random_items` shows.
pub const RANDOM_ITEMS: usize = 200_000;

/// Random items, their numbers of every size.
pub fn random_items(random: &mut Random, see: &mut impl FnMut(u32, u64, u64)) {
    for _ in 0..RANDOM_ITEMS {
        let kind = random.below(7) as u32;
        let a = random.bits() >> random.below(64);
        let b = if random.once_in(4) { a } else { random.bits() >> random.below(64) };
        see(kind, a, b);
    }
}

/// How many entries `entries` shows at random.
pub const RANDOM_ENTRIES: usize = 1_000_000;

/// Entries: the lowest and the highest 65,536, each bit alone, and random ones.
pub fn entries(random: &mut Random, see: &mut impl FnMut(u32)) {
    for low in 0..=0xffff {
        see(low);
        see(FREE - low);
    }
    for bit in 0..32 {
        see(1 << bit);
        see(!(1 << bit));
    }
    for _ in 0..RANDOM_ENTRIES {
        see(random.word());
    }
}
