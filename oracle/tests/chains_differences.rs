//! Where the calls that read a chain and the Rust's part as they are meant to: a smallest input each, with both sides.
//!
//! The Rust is chain.rs and alloc.rs over the stand-ins. It keeps the tables that it was handed at the opening, and never
//! looks at the image for them again.
#![cfg(oracle)]

use oracle::abi::Lent;
use oracle::asked;
use oracle::called::{self, Call};
use oracle::calls::Opened;
use oracle::held::Case;
use oracle::image;
use oracle::inputs::{END, FREE};
use oracle::internal::{Chain, SectorInit, Validation};
use oracle::layout::{Layout, FAT};
use oracle::openings::room;
use std::io::Read;

/// An image of which all is used, opened strictly with tables that are just long enough.
fn opened(image: &[u8]) -> Opened<'_> {
    let lengths = [room(image[26].into(), image.len()); 5];
    Opened::of(&Case { image, used: image.len(), mode: 1, lengths }).unwrap()
}

/// What the Rust reads from a chain of one image with the tables of another: ids and bytes.
fn read_with(tables_of: &[u8], image: &[u8], start: u32) -> (Vec<u32>, Vec<u8>) {
    let (version, tables) = image::loaded(tables_of, Validation::Strict).unwrap();
    let mut allocator = image::over(image, version, tables, Validation::Strict).unwrap();
    let mut buf = vec![0; image.len()];
    let (ids, read) = asked::read_chain(&mut allocator, start, 0, &mut buf).unwrap();
    buf.truncate(read);
    (ids, buf)
}

/// Our numbers for the same, of the call that opens and of the one that reads.
fn ours_with(tables_of: &[u8], image: &[u8], start: u32) -> [u32; 2] {
    let before = opened(tables_of);
    let lent = Lent { image, ..before.lent() };
    [None, Some((0, 512))].map(|read| called::same(&Call { lent, ..before.call(start, read) }).number)
}

/// 11: the Rust has no lent tables, and lists the ids by itself.
#[test]
fn smallest_short_id_list() {
    let image = Layout::small(&[FAT]).bytes();
    let opened = opened(&image);
    let call = opened.call(END, None);
    assert_eq!(called::same(&call).number, 0);
    assert_eq!(called::same(&Call { ids: &[], ..call }).number, 11);
    let mut rust = image::lend(&image, Validation::Strict).unwrap();
    assert_eq!(asked::open_chain(&mut rust, END), Ok(vec![]));
}

/// 19: the image is no longer the one that was opened. The Rust does not look.
#[test]
fn smallest_other_image() {
    let header = Layout::plain(3, 0).bytes();
    assert_eq!(ours_with(&header, &[0; 512], END), [19, 19]);
    assert_eq!(read_with(&header, &[0; 512], END), (vec![], vec![]));
    // The sector was a chain, and is FREE: the Rust reads it still.
    let (one, other) = (Layout::small(&[FAT, END]).bytes(), Layout::small(&[FAT, FREE]).bytes());
    assert_eq!((ours_with(&one, &one, 1), ours_with(&one, &other, 1)), ([0, 0], [19, 19]));
    assert_eq!(read_with(&one, &other, 1), (vec![1], vec![0xa1; 512]));
}

/// 19: tables that are not those of the image, by one entry. The Rust has its own, and walks these.
#[test]
fn smallest_other_tables() {
    let image = Layout::small(&[FAT, END, END]).bytes();
    let opened = opened(&image);
    let mut tables = opened.tables.clone();
    tables.fat[1] = 2;
    let lent = Lent { tables: &tables, ..opened.lent() };
    assert_eq!(called::same(&Call { lent, ..opened.call(1, None) }).number, 19);
    let (version, mut tables) = image::loaded(&image, Validation::Strict).unwrap();
    tables.fat[1] = 2;
    let mut rust = image::over(&image, version, tables, Validation::Strict).unwrap();
    assert_eq!(asked::open_chain(&mut rust, 1), Ok(vec![1, 2]));
}

/// 19: an image that does not open here has no state, and what stands in for one is refused. The Rust opens it (18), and
/// reads the chains that are whole.
#[test]
fn smallest_of_a_refused_image() {
    let image = Layout::small(&[FAT, 2, FREE, END]).bytes();
    let whole = Layout::small(&[FAT, END, END, END]).bytes();
    let mut like = opened(&whole);
    like.image = &image;
    like.tables.fat[1..3].copy_from_slice(&[2, FREE]);
    like.tables.frees[0] = 2;
    like.tables.marks[2] = 1;
    like.state[oracle::abi::FREES] = 1;
    assert_eq!(called::same(&like.call(3, None)).number, 19);
    let mut rust = image::lend(&image, Validation::Strict).unwrap();
    assert_eq!(asked::open_chain(&mut rust, 3), Ok(vec![3]));
}

/// One read of the Rust is a run of sectors that follow one another; ours is all of them.
#[test]
fn smallest_run() {
    let image = Layout::small(&[FAT, END, 1]).bytes();
    let opened = opened(&image);
    assert_eq!(called::same(&opened.call(2, Some((0, 1024)))).answer, [2, 2, 1024]);
    let mut rust = image::lend(&image, Validation::Strict).unwrap();
    let mut chain = Chain::new(&mut rust, 2, SectorInit::Zero).unwrap();
    let mut buf = [0; 1024];
    assert_eq!(chain.read(&mut buf).unwrap(), 512);
    assert_eq!(chain.read(&mut buf[512..]).unwrap(), 512);
    assert_eq!(buf[..], [[0xa2; 512], [0xa1; 512]].concat());
    // No chain of fewer sectors has two runs.
    assert_eq!(chain.read(&mut buf).unwrap(), 0);
}
