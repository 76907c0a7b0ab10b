//! The archive against the model, with no Rust at hand, on the kinds of input that are also compared with the Rust.
//!
//! The fixed inputs are the same as there. The random ones are as many, but others: each test has a seed of its own.

use oracle::inputs;
use oracle::random::Random;
use oracle::{abi, model};

#[test]
fn read_header() {
    let mut compared = 0;
    let mut random = Random::new("model read");
    inputs::headers(&mut random, &mut |bytes| {
        for mode in [0, 1] {
            let (mut one, mut other) = ([7; 117], [8; 117]);
            let number = abi::read_header(bytes, mode, &mut one);
            assert_eq!(number, model::read_header(bytes, mode, &mut other), "{bytes:x?} {mode}");
            assert_eq!(one, other, "{bytes:x?} {mode}");
            compared += 1;
        }
    });
    assert_eq!(compared, 2_060_648);
}

#[test]
fn write_header() {
    let mut compared = 0;
    let mut filler = Random::new("model before");
    let mut random = Random::new("model write");
    inputs::words(&mut random, &mut |words, length| {
        let mut one = vec![0; length];
        filler.fill(&mut one);
        let mut other = one.clone();
        let number = abi::write_header(words, &mut one);
        assert_eq!(number, model::write_header(words, &mut other), "{words:x?} {length}");
        assert_eq!(one, other, "{words:x?} {length}");
        compared += 1;
    });
    assert_eq!(compared, 294_040);
}

#[test]
fn kind_of() {
    let mut compared = 0;
    let mut random = Random::new("model kinds");
    inputs::entries(&mut random, &mut |entry| {
        assert_eq!(abi::kind_of(entry), model::kind_of(entry), "{entry:x}");
        compared += 1;
    });
    assert_eq!(compared, 1_131_136);
}

/// Any mode but 0 is strict.
#[test]
fn other_modes() {
    let mut compared = 0;
    inputs::every_long(&mut |bytes| {
        for mode in [2, 256, 0x1_0000, 0x8000_0000, u32::MAX] {
            let (mut one, mut other) = ([7; 117], [8; 117]);
            assert_eq!(abi::read_header(bytes, mode, &mut one), model::read_header(bytes, 1, &mut other));
            assert_eq!(one, other, "{bytes:x?} {mode}");
            compared += 1;
        }
    });
    assert_eq!(compared, 5 * 288);
}

/// A slice and a buffer may begin anywhere: each place from 0 to 15 in a longer one, whose other bytes stay.
#[test]
fn at_any_place() {
    let mut compared = 0;
    inputs::good_headers(&mut |header| {
        for place in 0..16 {
            let range = place..place + inputs::HEADER;
            let mut around = [0x99; inputs::HEADER + 16];
            around[range.clone()].copy_from_slice(header);
            let (mut words, mut other) = ([7; 117], [8; 117]);
            assert_eq!(abi::read_header(&around[range.clone()], 1, &mut words), 0);
            assert_eq!(model::read_header(header, 1, &mut other), 0);
            assert_eq!(words, other);
            let mut buf = [0x99; inputs::HEADER + 16];
            assert_eq!(abi::write_header(&words, &mut buf[range]), 0);
            assert_eq!(buf, around);
            compared += 1;
        }
    });
    assert_eq!(compared, 16 * 220);
}

/// Holds the items from each place of a list, and from behind it. How many.
fn items(sectors: &[u32]) -> u64 {
    for at in (0..sectors.len() + 2).chain([usize::MAX]) {
        let (mut one, mut other) = ([7; 3], [8; 3]);
        let kind = abi::prettify(sectors, at, &mut one);
        assert_eq!(kind, model::prettify(sectors, at, &mut other), "{sectors:x?} {at}");
        assert_eq!(one, other, "{sectors:x?} {at}");
    }
    sectors.len() as u64 + 3
}

#[test]
fn prettify() {
    let (mut short, mut long) = (0, 0);
    let mut random = Random::new("model lists");
    inputs::short_lists(&mut |sectors| short += items(sectors));
    assert_eq!(short, 543_210 + 3 * 111_111);
    inputs::long_lists(&mut random, &mut |sectors| long += items(sectors));
    assert!(long > 1_000_000, "{long}");
}

#[test]
fn sector_text() {
    let mut compared = 0;
    let mut see = |kind, a, b| {
        let (mut one, mut other) = ([7; 32], [8; 32]);
        let len = abi::sector_text(kind, a, b, &mut one);
        assert_eq!(len, model::sector_text(kind, a, b, &mut other), "{kind} {a} {b}");
        assert_eq!(one, other, "{kind} {a} {b}");
        compared += 1;
    };
    inputs::edge_items(&mut see);
    inputs::random_items(&mut Random::new("model texts"), &mut see);
    assert_eq!(compared, 13 * 56 * 56 + 200_000);
}
