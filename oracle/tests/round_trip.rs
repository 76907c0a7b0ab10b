//! What the reader gave, written and read in the same mode, comes back equal.

use oracle::abi::{self, Words, REFUSED};
use oracle::inputs::{self, HEADER};
use oracle::random::Random;

/// Reads, and where that is accepted writes and reads again. Whether it was accepted.
fn comes_back(bytes: &[u8], mode: u32) -> bool {
    let mut first: Words = [9; 117];
    let number = abi::read_header(bytes, mode, &mut first);
    if number != 0 {
        assert_eq!(first, REFUSED);
        return false;
    }
    let mut buf = [0x77; HEADER + 9];
    assert_eq!(abi::write_header(&first, &mut buf), 0);
    assert_eq!(buf[HEADER..], [0x77; 9]);
    let mut second: Words = [8; 117];
    assert_eq!(abi::read_header(&buf, mode, &mut second), 0);
    assert_eq!(first, second);
    true
}

#[test]
fn read_write_read() {
    let mut random = Random::new("round trip");
    let mut seen = 0;
    let mut accepted = 0;
    inputs::headers(&mut random, &mut |bytes| {
        for mode in [0, 1] {
            seen += 1;
            accepted += u64::from(comes_back(bytes, mode));
        }
    });
    assert_eq!(seen, 2_060_648);
    assert!(accepted > 400_000, "{accepted}");
}

#[test]
fn good_ones_are_accepted() {
    let mut accepted = 0;
    inputs::good_headers(&mut |bytes| {
        accepted += u64::from(comes_back(bytes, 0)) + u64::from(comes_back(bytes, 1));
    });
    assert_eq!(accepted, 440);
}

/// The other way: words that the writer takes are read back in both modes.
#[test]
fn write_read() {
    let mut random = Random::new("write read");
    let (mut seen, mut written) = (0, 0);
    inputs::words(&mut random, &mut |words, length| {
        let mut buf = vec![3; length];
        seen += 1;
        if abi::write_header(words, &mut buf) != 0 {
            return;
        }
        for mode in [0, 1] {
            let mut back: Words = [9; 117];
            assert_eq!(abi::read_header(&buf, mode, &mut back), 0);
            assert_eq!(&back, words);
        }
        written += 1;
    });
    assert_eq!(seen, 294_040);
    assert!(written > 50_000, "{written}");
}
