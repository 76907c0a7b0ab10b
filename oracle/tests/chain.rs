//! alloc.rs and chain.rs over the stand-ins, on cases 1, 2, 5 to 7, 9, 10 and 12 of the specification.
#![cfg(oracle)]

use oracle::image::{self, Store};
use oracle::internal::consts::{END_OF_CHAIN, FAT_SECTOR, FREE_SECTOR};
use oracle::internal::{Allocator, SectorInit, Validation};
use std::io::{Read, Seek, SeekFrom, Write};

fn open_q() -> Allocator<Store> {
    image::open(image::image_q(), Validation::Strict).unwrap()
}

/// The ids of the chain from 1, and its bytes.
fn chain_of(allocator: &mut Allocator<Store>) -> (Vec<u32>, Vec<u8>) {
    let mut chain = allocator.open_chain(1, SectorInit::Zero).unwrap();
    let mut bytes = Vec::new();
    chain.read_to_end(&mut bytes).unwrap();
    assert_eq!(bytes.len() as u64, chain.len());
    (chain.sector_ids().to_vec(), bytes)
}

/// What sector i of Q is full of.
fn full(ids: &[u8]) -> Vec<u8> {
    ids.iter().flat_map(|&id| [0xa0 + id; 512]).collect()
}

/// Opened again from its bytes, the FAT is the one in memory, and the free list is in ascending order.
fn opens_again(allocator: &mut Allocator<Store>) {
    let mut again = image::open(image::bytes_of(allocator).to_vec(), Validation::Strict).unwrap();
    assert_eq!(image::fat_of(&again), image::fat_of(allocator));
    let mut free = image::free_list(allocator).unwrap();
    free.sort_unstable();
    assert_eq!(image::free_list(&mut again).unwrap(), free);
}

/// Case 1: Q, start 1.
#[test]
fn opened() {
    let mut allocator = open_q();
    assert_eq!(image::fat_of(&allocator), [FAT_SECTOR, 2, 3, END_OF_CHAIN, FREE_SECTOR, FREE_SECTOR]);
    assert_eq!(chain_of(&mut allocator), (vec![1, 2, 3], full(&[1, 2, 3])));
    assert_eq!(image::free_list(&mut allocator).unwrap(), [4, 5]);
    // Looking has changed nothing.
    assert_eq!(image::bytes_of(&allocator), image::image_q());
    assert_eq!(image::free_list(&mut allocator).unwrap(), [4, 5]);
}

/// Case 2: 600 bytes at 1,536.
#[test]
fn written() {
    let mut allocator = open_q();
    let mut chain = allocator.open_chain(1, SectorInit::Zero).unwrap();
    chain.seek(SeekFrom::Start(1536)).unwrap();
    chain.write_all(&[0x77; 600]).unwrap();
    drop(chain);
    let (ids, bytes) = chain_of(&mut allocator);
    assert_eq!(ids, [1, 2, 3, 5, 4]);
    assert_eq!(bytes[..1536], full(&[1, 2, 3]));
    assert_eq!(bytes[1536..2136], [0x77; 600]);
    assert_eq!(bytes[2136..], [0; 424]);
    assert_eq!(image::fat_of(&allocator), [FAT_SECTOR, 2, 3, 5, END_OF_CHAIN, 4]);
    assert!(image::free_list(&mut allocator).unwrap().is_empty());
    assert_eq!(image::bytes_of(&allocator).len(), image::image_q().len());
    opens_again(&mut allocator);
}

fn resized(length: u64) -> Allocator<Store> {
    let mut allocator = open_q();
    allocator.open_chain(1, SectorInit::Zero).unwrap().set_len(length).unwrap();
    allocator
}

/// Case 5: to 513, and to 512.
#[test]
fn shortened() {
    let mut allocator = resized(513);
    let (ids, bytes) = chain_of(&mut allocator);
    assert_eq!(ids, [1, 2]);
    assert_eq!(bytes[..513], full(&[1, 2])[..513]);
    assert_eq!(bytes[513..], [0; 511]);
    assert_eq!(image::free_list(&mut allocator).unwrap(), [4, 5, 3]);
    opens_again(&mut allocator);

    let mut allocator = resized(512);
    assert_eq!(chain_of(&mut allocator), (vec![1], full(&[1])));
    assert_eq!(image::free_list(&mut allocator).unwrap(), [4, 5, 2, 3]);
    // Freed sectors keep their bytes.
    assert_eq!(image::bytes_of(&allocator)[1024..], image::image_q()[1024..]);
}

/// Case 6: to 0, by `set_len` and by `free`.
#[test]
fn freed() {
    let mut allocator = resized(0);
    assert_eq!(image::free_list(&mut allocator).unwrap(), [4, 5, 1, 2, 3]);
    opens_again(&mut allocator);
    let mut other = open_q();
    other.open_chain(1, SectorInit::Zero).unwrap().free().unwrap();
    assert_eq!(image::free_list(&mut other).unwrap(), [4, 5, 1, 2, 3]);
    assert_eq!(image::bytes_of(&other), image::bytes_of(&allocator));
}

/// Case 7: past the end of the free list the image grows; sector 6 is zero.
#[test]
fn grown() {
    let mut allocator = resized(3072);
    let (ids, bytes) = chain_of(&mut allocator);
    assert_eq!(ids, [1, 2, 3, 5, 4, 6]);
    assert_eq!(bytes[1536..], [0; 1536]);
    assert_eq!(image::bytes_of(&allocator).len(), 512 * 8);
    opens_again(&mut allocator);
}

/// Case 9: the first sector of an image that has only a header needs a FAT sector first.
#[test]
fn first_sector() {
    let mut header = image::small_image(&[])[..512].to_vec();
    image::put32(&mut header, 44, 0);
    image::put32(&mut header, 76, FREE_SECTOR);
    let mut allocator = image::open(header, Validation::Strict).unwrap();
    let mut chain = allocator.open_chain(END_OF_CHAIN, SectorInit::Zero).unwrap();
    chain.write_all(&[9]).unwrap();
    assert_eq!(chain.sector_ids(), [1]);
    drop(chain);
    assert_eq!(image::fat_of(&allocator), [FAT_SECTOR, END_OF_CHAIN]);
    let bytes = image::bytes_of(&allocator);
    assert_eq!([image::get32(bytes, 44), image::get32(bytes, 76)], [1, 0]);
    assert_eq!(bytes.len(), 512 * 3);
    opens_again(&mut allocator);
}

/// Case 10: a pointer past the end is END in a permissive table; the bytes keep it.
#[test]
fn repaired() {
    let mut image = image::image_q();
    image::put32(&mut image, 512 + 4 * 3, 0xffff_fffa);
    assert!(image::open(image.clone(), Validation::Strict).is_err());
    let allocator = image::open(image.clone(), Validation::Permissive).unwrap();
    assert_eq!(image::fat_of(&allocator)[3], END_OF_CHAIN);
    assert_eq!(image::bytes_of(&allocator), image);
    image::put32(&mut image, 512 + 4 * 3, 0xffff_fffb);
    for mode in [Validation::Strict, Validation::Permissive] {
        assert!(image::open(image.clone(), mode).is_err());
    }
}

/// An image of version 3 with n = 13,952, none free: FAT sectors from 0, every other sector a chain of its own.
fn full_image() -> Vec<u8> {
    let mut image = image::small_image(&[])[..512].to_vec();
    image.resize(512 * 13_953, 0);
    image::put32(&mut image, 44, 109);
    for place in 0..109u32 {
        image::put32(&mut image, 76 + 4 * place as usize, place);
    }
    for id in 0..13_952 {
        image::put32(&mut image, 512 + 4 * id, if id < 109 { FAT_SECTOR } else { END_OF_CHAIN });
    }
    image
}

/// Case 12: one more sector takes a FAT sector and the first DIFAT sector before it.
#[test]
fn first_difat_sector() {
    let mut allocator = image::open(full_image(), Validation::Strict).unwrap();
    assert_eq!(allocator.begin_chain(SectorInit::Zero).unwrap(), 13_954);
    let fat = image::fat_of(&allocator);
    assert_eq!(fat[13_952..], [FAT_SECTOR, 0xffff_fffc, END_OF_CHAIN]);
    let bytes = image::bytes_of(&allocator);
    assert_eq!([44, 68, 72].map(|at| image::get32(bytes, at)), [110, 13_953, 1]);
    let difat = &bytes[512 * 13_954..512 * 13_955];
    assert_eq!(image::get32(difat, 0), 13_952);
    assert_eq!(difat[4..508], [0xff; 504]);
    assert_eq!(image::get32(difat, 508), END_OF_CHAIN);
    opens_again(&mut allocator);
}
