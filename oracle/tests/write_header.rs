//! The header's writer against `Header::write_to`.
//!
//! One difference is meant, and the words alone decide where it is: the Rust writes a header that its own
//! strict reader refuses or reads as another one; ours is 7 or 9 there. Beside refusal 1, where the Rust
//! fails too, it has filled the short buffer; ours has not touched it.
#![cfg(oracle)]

use oracle::abi::{self, Words};
use oracle::asked;
use oracle::inputs::{self, END, FREE, HEADER};
use oracle::random::Random;

/// How often each answer was met: written, 1, 4, 7, 9.
#[derive(Default, Debug, PartialEq, Eq)]
struct Tally {
    written: u64,
    short: u64,
    no_version: u64,
    directory: u64,
    list: u64,
}

/// Whether the list is ids and then FREE.
fn is_list(list: &[u32]) -> bool {
    let ids = list.iter().take_while(|&&entry| entry <= inputs::REGULAR_LAST).count();
    list[ids..].iter().all(|&entry| entry == FREE)
}

/// What the Rust's strict reader makes of what the Rust wrote.
fn rust_again(buf: &[u8]) -> (u32, Words) {
    asked::read_header(buf, 1)
}

impl Tally {
    fn compare(&mut self, words: &Words, before: &[u8]) {
        let mut mine = before.to_vec();
        let number = abi::write_header(words, &mut mine);
        if number != 0 {
            assert_eq!(mine, before, "refusal {number} of {words:x?}");
        }
        if asked::header_of(words).is_none() {
            assert_eq!(number, 4);
            self.no_version += 1;
            return;
        }
        let mut rusts = before.to_vec();
        let whole = asked::write_header(words, &mut rusts);
        if before.len() < HEADER {
            assert_eq!((number, whole), (1, false));
            self.short += 1;
            return;
        }
        assert!(whole && rusts[HEADER..] == before[HEADER..]);
        self.hold(words, number, &mine, &rusts);
    }

    /// Holds our answer against what the Rust wrote into a buffer that was long enough.
    fn hold(&mut self, words: &Words, number: u32, mine: &[u8], rusts: &[u8]) {
        if words[abi::VERSION] == 3 && words[abi::DIRECTORY_SECTORS] != 0 {
            assert_eq!(number, 7, "{words:x?}");
            assert_eq!(rust_again(rusts).0, 7);
            self.directory += 1;
        } else if !is_list(&words[abi::LIST..]) || words[abi::FIRST_DIFAT] == FREE {
            assert_eq!(number, 9, "{words:x?}");
            assert_ne!(rust_again(rusts), (0, *words));
            self.list += 1;
        } else {
            assert_eq!((number, mine), (0, rusts), "{words:x?}");
            assert_eq!(rust_again(rusts), (0, *words));
            self.written += 1;
        }
    }

    fn all(&self) -> u64 {
        self.written + self.short + self.no_version + self.directory + self.list
    }
}

#[test]
fn words_of_every_kind() {
    let mut tally = Tally::default();
    let mut filler = Random::new("before");
    let mut random = Random::new("words");
    inputs::words(&mut random, &mut |words, length| {
        let mut before = vec![0; length];
        filler.fill(&mut before);
        tally.compare(words, &before);
    });
    assert_eq!(tally.all(), 528 * 40 + 220 + 288 + 1_744 + 70_632 + 36 + 200_000);
    assert_eq!(tally.short, 512 * 40);
    assert_eq!(tally.no_version, 36);
    assert!(tally.written > 50_000, "{tally:?}");
    assert!(tally.directory > 10_000, "{tally:?}");
    assert!(tally.list > 72_376, "{tally:?}");
}

#[test]
fn list_shapes() {
    let mut tally = Tally::default();
    let see = &mut |bytes: &[u8]| tally.compare(&inputs::words_in(bytes), &[7; HEADER]);
    inputs::good_headers(see);
    inputs::special_lists(see);
    inputs::revived_lists(see);
    let expected = Tally { written: 220, list: 1_744 + 70_632, ..Tally::default() };
    assert_eq!(tally, expected);
}

/// The Rust's answer to a header that differs from the plain one in one word: ours, and the Rust's reader's.
fn changed(place: usize, word: u32) -> (u32, (u32, Words)) {
    let mut words = inputs::words_in(&inputs::good(3, 0));
    words[place] = word;
    let mut mine = [0; HEADER];
    let mut rusts = [0; HEADER];
    assert!(asked::write_header(&words, &mut rusts));
    let number = abi::write_header(&words, &mut mine);
    assert_eq!(mine == rusts, number == 0);
    (number, rust_again(&rusts))
}

/// The smallest headers that the Rust writes and does not read back: one word each.
#[test]
fn smallest_not_read_back() {
    let plain = inputs::words_in(&inputs::good(3, 0));
    assert_eq!(changed(abi::DIRECTORY_SECTORS, 1), (7, (7, abi::REFUSED)));
    assert_eq!(changed(abi::LIST, END), (9, (9, abi::REFUSED)));
    // These two are read, and are then another header.
    assert_eq!(changed(abi::LIST + 1, 0), (9, (0, plain)));
    assert_eq!(changed(abi::FIRST_DIFAT, FREE), (9, (0, plain)));
    // The header beside a refusal is a good one.
    let mut buf = [1; HEADER];
    assert_eq!(abi::write_header(&abi::REFUSED, &mut buf), 0);
    assert_eq!(rust_again(&buf), (0, abi::REFUSED));
}

/// The buffer of 511 bytes: both refuse, the Rust after filling it.
#[test]
fn short_buffer() {
    let good = inputs::good(4, 5);
    let words = inputs::words_in(&good);
    for len in [1, HEADER - 1] {
        let mut mine = vec![1; len];
        let mut rusts = vec![1; len];
        assert_eq!(abi::write_header(&words, &mut mine), 1);
        assert!(!asked::write_header(&words, &mut rusts));
        assert_eq!(mine, vec![1; len]);
        assert_eq!(rusts, good[..len]);
    }
}
