//! Where the calls that change a chain and the Rust's part as they are meant to: a smallest input each, with both sides.
//!
//! The Rust is chain.rs and alloc.rs over the stand-ins, without overflow checks, as in a release.
#![cfg(oracle)]

use oracle::asked;
use oracle::changed::{self, Call, Change, Holding, Outcome};
use oracle::image::{self, Store};
use oracle::inputs::{put32, END, FREE};
use oracle::internal::{Allocator, Chain, SectorInit, Sectors, Validation};
use oracle::layout::{Layout, FAT};
use std::io::{Cursor, Write};

/// Ours and the Rust's opening of the same bytes, lent with so many sectors more.
fn both(image: &[u8], mode: u32, more: usize) -> (Holding, Allocator<Store>) {
    let rust = image::open(image.to_vec(), asked::mode_of(mode)).unwrap();
    let mut lent = image.to_vec();
    lent.resize(image.len() + 512 * more, 0);
    let room = lent.len() / 512 - 1;
    (Holding::of(lent, image.len(), mode, [room; 5]).unwrap(), rust)
}

/// Our answer to a change.
fn ours(held: &mut Holding, start: u32, change: Change) -> Outcome {
    let ids = vec![7; held.room()];
    changed::same(held, &Call { ids: &ids, start, change: &change })
}

/// Whether the bytes open strictly.
fn opens(rust: &Allocator<Store>) -> bool {
    image::open(image::bytes_of(rust).to_vec(), Validation::Strict).is_ok()
}

/// 24: the Rust's number of sectors wraps from 2^64 - 511 on, and it frees the whole chain. A length just below asks it for
/// more sectors than there is memory for, which is not tried.
#[test]
#[cfg_attr(debug_assertions, ignore = "with overflow checks the Rust panics")]
fn smallest_wrapping_length() {
    let image = Layout::small(&[FAT, END]).bytes();
    for length in [u64::MAX - 510, u64::MAX] {
        let (mut held, mut rust) = both(&image, 1, 1);
        assert_eq!(ours(&mut held, 1, Change::Resize(length)).number, 24);
        assert_eq!(held.tables.fat[..2], [FAT, END]);
        assert_eq!(asked::resize_chain(&mut rust, 1, length), Ok(vec![]));
        assert_eq!(image::fat_of(&rust), [FAT, FREE]);
    }
    // Of no chain at all nothing is freed, and it is accepted.
    let (mut held, mut rust) = both(&Layout::plain(3, 0).bytes(), 1, 0);
    assert_eq!(ours(&mut held, END, Change::Resize(u64::MAX)).number, 24);
    assert_eq!(asked::resize_chain(&mut rust, END, u64::MAX), Ok(vec![]));
    // Version 4: from 2^64 - 4,095 on.
    let mut layout = Layout::plain(4, 2);
    layout.entries[1] = END;
    let mut held = Holding::strict(layout.bytes(), 0);
    assert_eq!(ours(&mut held, 1, Change::Resize(u64::MAX - 4094)).number, 24);
    let mut rust = image::open(layout.bytes(), Validation::Strict).unwrap();
    assert_eq!(asked::resize_chain(&mut rust, 1, u64::MAX - 4094), Ok(vec![]));
}

/// 24: the Rust has no room that could end: it makes its store longer.
#[test]
fn smallest_full_room() {
    let header = Layout::plain(3, 0).bytes();
    for more in [0, 1] {
        let (mut held, mut rust) = both(&header, 1, more);
        assert_eq!(ours(&mut held, END, Change::Write(0, vec![1])).number, 24);
        assert_eq!(asked::write_chain(&mut rust, END, 0, &[1]), Ok(vec![1]));
        assert_eq!(image::bytes_of(&rust).len(), 512 * 3);
    }
    // A sector after the one in use is not there.
    let (mut held, mut rust) = both(&Layout::small(&[FAT]).bytes(), 1, 0);
    assert_eq!(ours(&mut held, END, Change::Resize(1)).number, 24);
    assert_eq!(asked::resize_chain(&mut rust, END, 1), Ok(vec![1]));
}

/// 24: the Rust goes on past 16,384 sectors, and opens what it has made.
#[test]
fn smallest_of_too_many() {
    let mut layout = Layout::plain(3, 16_384);
    layout.entries.iter_mut().filter(|entry| **entry == FREE).for_each(|entry| *entry = END);
    let image = layout.bytes();
    let mut held = Holding::strict(image.clone(), 10);
    assert_eq!(ours(&mut held, END, Change::Resize(1)).number, 24);
    let mut rust = image::open(image, Validation::Strict).unwrap();
    assert_eq!(asked::resize_chain(&mut rust, END, 1), Ok(vec![16_385]));
    assert!(opens(&rust));
}

/// 26: the Rust goes on with an image that it opened permissively. Its tables are the mended ones, the bytes are not, and a
/// change of another chain leaves them so.
#[test]
fn smallest_permissive() {
    // Nothing is forgiven here, and nothing asked for.
    let (mut held, mut rust) = both(&Layout::plain(3, 0).bytes(), 0, 0);
    assert_eq!(ours(&mut held, END, Change::Free).number, 26);
    assert_eq!(asked::free_chain(&mut rust, END), Ok(vec![]));
    // Sector 1 points past the end.
    let (mut held, mut rust) = both(&Layout::small(&[FAT, 5]).bytes(), 0, 1);
    assert_eq!(ours(&mut held, 1, Change::Resize(512)).number, 26);
    assert_eq!(asked::resize_chain(&mut rust, 1, 512), Ok(vec![1]));
    assert!(!opens(&rust));
    // With four sectors more the bytes say that it points at the last of them: memory and bytes part.
    let mut rust = image::open(Layout::small(&[FAT, 5]).bytes(), Validation::Permissive).unwrap();
    assert_eq!(asked::resize_chain(&mut rust, END, 512 * 4), Ok(vec![2, 3, 4, 5]));
    assert_eq!(asked::open_chain(&mut rust, 1), Ok(vec![1]));
    // Two sectors point at sector 5 now.
    assert!(!opens(&rust));
    assert!(image::open(image::bytes_of(&rust).to_vec(), Validation::Permissive).is_err());
}

/// 25: the Rust frees from the middle of a chain, and the entry before dangles: its own chain is broken, and the next
/// allocation gives the sector a second owner.
#[test]
fn smallest_from_the_middle() {
    let image = Layout::small(&[FAT, 2, END]).bytes();
    let (mut held, mut rust) = both(&image, 1, 0);
    for change in
        [Change::Free, Change::Resize(0), Change::Resize(512), Change::Write(0, vec![]), Change::Write(0, vec![1])]
    {
        assert_eq!(ours(&mut held, 2, change).number, 25);
    }
    assert_eq!(asked::free_chain(&mut rust, 2), Ok(vec![]));
    assert_eq!(image::fat_of(&rust), [FAT, 2, FREE]);
    assert_eq!(asked::open_chain(&mut rust, 1), Err(21));
    assert_eq!(asked::write_chain(&mut rust, END, 0, &[1]), Ok(vec![2]));
    assert_eq!(asked::open_chain(&mut rust, 1), Ok(vec![1, 2]));
    // What it grows or writes from there does no harm, and is refused all the same.
    let (_, mut rust) = both(&image, 1, 0);
    assert_eq!(asked::resize_chain(&mut rust, 2, 1024), Ok(vec![2, 3]));
    assert_eq!(asked::open_chain(&mut rust, 1), Ok(vec![1, 2, 3]));
}

/// 11: the Rust has no lent tables, and lists the ids by itself.
#[test]
fn smallest_short_id_list() {
    let (mut held, mut rust) = both(&Layout::small(&[FAT]).bytes(), 1, 0);
    let outcome = changed::same(&mut held, &Call { ids: &[], start: END, change: &Change::Free });
    assert_eq!(outcome.number, 11);
    assert_eq!(asked::free_chain(&mut rust, END), Ok(vec![]));
}

/// 19: the image is no longer the one that was opened. The Rust does not look, and writes its own entries over what is there.
#[test]
fn smallest_other_image() {
    let header = Layout::plain(3, 0).bytes();
    let (mut held, _) = both(&header, 1, 0);
    held.image.fill(0);
    assert_eq!(ours(&mut held, END, Change::Free).number, 19);
    assert_eq!(asked::free_chain(&mut with_tables_of(&header, held.image), END), Ok(vec![]));
    // The sector was a chain, and is FREE: the Rust adds to it.
    let one = Layout::small(&[FAT, END]).bytes();
    let (mut held, _) = both(&one, 1, 0);
    put32(&mut held.image, 516, FREE);
    assert_eq!(ours(&mut held, 1, Change::Resize(1024)).number, 19);
    let mut rust = with_tables_of(&one, held.image);
    assert_eq!(asked::resize_chain(&mut rust, 1, 1024), Ok(vec![1, 2]));
    assert_eq!([516, 520].map(|at| image::get32(image::bytes_of(&rust), at)), [2, END]);
}

/// The Rust with the tables of one image over the bytes of another.
fn with_tables_of(one: &[u8], other: Vec<u8>) -> Allocator<Store> {
    let (version, tables) = image::loaded(one, Validation::Strict).unwrap();
    let sectors = Sectors::new(version, other.len() as u64, Cursor::new(other));
    Allocator::new(sectors, tables.difat_sectors, tables.fat_sectors, tables.fat, Validation::Strict).unwrap()
}

/// One write of the Rust grows the chain for the whole buffer, and stores a run of sectors that follow one another; ours is
/// all of it.
#[test]
fn smallest_run() {
    let image = Layout::small(&[FAT, END, 1]).bytes();
    let (mut held, mut rust) = both(&image, 1, 0);
    let mut chain = Chain::new(&mut rust, 2, SectorInit::Zero).unwrap();
    assert_eq!(chain.write(&[9; 1024]).unwrap(), 512);
    drop(chain);
    assert_eq!(image::bytes_of(&rust)[1024..], [[0xa1; 512], [9; 512]].concat());
    let outcome = ours(&mut held, 2, Change::Write(0, vec![9; 1024]));
    assert_eq!((outcome.answer, &held.image[1024..]), ([2, 2, 1024], &[9; 1024][..]));
}

/// The Rust's `free_chain` called for itself frees while it walks, and leaves half a chain freed where it meets a bad entry.
/// `Chain` walks first, and refuses as ours does.
#[test]
fn freed_by_half() {
    let image = Layout::small(&[FAT, 2, FAT]).bytes();
    let (mut held, mut rust) = both(&image, 1, 0);
    assert_eq!(ours(&mut held, 1, Change::Free).number, 21);
    assert_eq!(asked::free_chain(&mut rust, 1), Err(21));
    assert_eq!(image::bytes_of(&rust), image);
    assert!(rust.free_chain(1).is_err());
    assert_eq!(image::fat_of(&rust), [FAT, FREE, FAT]);
}
