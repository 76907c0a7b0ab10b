//! The header's reader against `Header::read_from`, in both modes.
//!
//! Two differences are meant, and the input alone decides where they are:
//! - the slice is shorter than 512 bytes: ours is always 1; the Rust answers by the bytes that it read;
//! - something else than FREE stands after the first FREE of the list: ours is 9, the Rust forgets it.
#![cfg(oracle)]

use oracle::abi::{self, Words, REFUSED};
use oracle::asked;
use oracle::inputs::{self, HEADER};
use oracle::meant::{forgetful, on_a_cut};
use oracle::random::Random;

/// What was compared, and how often the Rust differed as it may.
#[derive(Default)]
struct Tally {
    compared: u64,
    cut_short: u64,
    forgotten: u64,
    answers: [u64; 10],
}

fn ours(bytes: &[u8], mode: u32) -> (u32, Words) {
    let mut words = [0x5555_5555; 117];
    let number = abi::read_header(bytes, mode, &mut words);
    (number, words)
}

impl Tally {
    fn compare(&mut self, bytes: &[u8], mode: u32) {
        let ours_is = ours(bytes, mode);
        let rust_is = asked::read_header(bytes, mode);
        self.compared += 1;
        self.answers[ours_is.0 as usize] += 1;
        if bytes.len() < HEADER {
            assert_eq!(ours_is, (1, REFUSED), "{bytes:x?}");
            assert_eq!(rust_is.0, on_a_cut(bytes, mode), "{bytes:x?}");
            self.cut_short += u64::from(rust_is.0 != 1);
            return;
        }
        match forgetful(bytes) {
            Some(other) if rust_is.0 == 0 => {
                assert_eq!(ours_is, (9, REFUSED), "{bytes:x?}");
                assert_eq!(ours(&other, mode), rust_is, "{bytes:x?}");
                self.forgotten += 1;
            }
            _ => assert_eq!(ours_is, rust_is, "{bytes:x?} in mode {mode}"),
        }
    }

    /// Both modes; any mode but 0 is strict.
    fn see(&mut self, bytes: &[u8]) {
        self.compare(bytes, 0);
        self.compare(bytes, 1);
    }

    /// Compared, cut short, forgotten.
    fn counts(&self) -> [u64; 3] {
        [self.compared, self.cut_short, self.forgotten]
    }
}

#[test]
fn good_headers() {
    let mut tally = Tally::default();
    inputs::good_headers(&mut |bytes| tally.see(bytes));
    assert_eq!(tally.counts(), [440, 0, 0]);
    assert_eq!(tally.answers[0], 440);
}

#[test]
fn every_value_of_the_short_fields() {
    let mut tally = Tally::default();
    inputs::every_short(&mut |bytes| tally.see(bytes));
    assert_eq!(tally.counts(), [1_310_720, 0, 0]);
    // Each field of five takes all values in both versions and modes: minor all good, the others one of them,
    // and the other version's number is a wrong shift.
    assert_eq!(tally.answers, [262_160, 0, 0, 262_140, 262_136, 262_144, 262_140, 0, 0, 0]);
}

#[test]
fn every_bit_flipped() {
    let mut tally = Tally::default();
    inputs::every_bit(&mut |bytes| tally.see(bytes));
    assert_eq!(tally.counts(), [81_920, 0, 34_432]);
}

#[test]
fn edges_of_the_long_fields() {
    let mut tally = Tally::default();
    inputs::every_long(&mut |bytes| tally.see(bytes));
    assert_eq!(tally.counts(), [576, 0, 0]);
    assert_eq!(tally.answers[7], 15);
    assert_eq!(tally.answers[8], 60);
}

#[test]
fn lists_of_every_shape() {
    let mut tally = Tally::default();
    inputs::special_lists(&mut |bytes| tally.see(bytes));
    assert_eq!(tally.counts(), [3_488, 0, 0]);
    assert_eq!(tally.answers[9], 3_488);
    inputs::revived_lists(&mut |bytes| tally.see(bytes));
    assert_eq!(tally.counts(), [3_488 + 141_264, 0, 141_264]);
}

#[test]
fn slices_of_every_length() {
    let mut tally = Tally::default();
    let mut random = Random::new("lengths");
    inputs::every_length(&mut random, &mut |bytes| tally.see(bytes));
    assert_eq!(tally.counts(), [42_240, 25_212, 128]);
}

#[test]
fn random_headers() {
    let mut tally = Tally::default();
    let mut random = Random::new("headers");
    inputs::random_headers(&mut random, &mut |bytes| tally.see(bytes));
    assert_eq!(tally.compared, 2 * inputs::RANDOM_HEADERS as u64);
    assert!(tally.cut_short > 0 && tally.forgotten > 0);
    assert!(tally.answers.iter().all(|&count| count > 100), "{:?}", tally.answers);
}

#[test]
fn other_modes_are_strict() {
    let mut bytes = inputs::good(3, 1);
    bytes[40] = 1;
    for mode in [1, 2, 256, 0x1_0000, u32::MAX] {
        assert_eq!(ours(&bytes, mode), (7, REFUSED));
        assert_eq!(ours(&bytes, mode), asked::read_header(&bytes, 1));
    }
    assert_eq!(ours(&bytes, 0), asked::read_header(&inputs::good(3, 1), 1));
}

/// The smallest header that the Rust accepts: 80 bytes. No shorter slice is accepted, and no shorter one than
/// 8 bytes has a cause in it.
#[test]
fn smallest_cut() {
    let bytes = inputs::good(3, 0);
    assert_eq!(asked::read_header(&bytes[..80], 1).0, 0);
    assert_eq!(asked::read_header(&bytes[..79], 1).0, 1);
    assert_eq!(asked::read_header(&[0; 8], 1).0, 2);
    assert_eq!(asked::read_header(&[0; 7], 1).0, 1);
    for cut in [&bytes[..80], &bytes[..79], &[0; 8], &[0; 7]] {
        assert_eq!(ours(cut, 0), (1, REFUSED));
        assert_eq!(ours(cut, 1), (1, REFUSED));
    }
}

/// The smallest list with something forgotten: FREE, 0, then FREE.
#[test]
fn smallest_forgotten() {
    let mut bytes = inputs::good(3, 0);
    inputs::put_listed(&mut bytes, 1, 0);
    for mode in [0, 1] {
        assert_eq!(asked::read_header(&bytes, mode), asked::read_header(&inputs::good(3, 0), mode));
        assert_eq!(asked::read_header(&bytes, mode).0, 0);
        assert_eq!(ours(&bytes, mode), (9, REFUSED));
    }
}
