//! The cases of the specification, asked of an owning image.

mod common;

use common::{image_of, image_q, SAMPLE};
use rasuvelk::{Growth, Image, Refusal, Validation, Version, END_OF_CHAIN, FAT_SECTOR, FREE_SECTOR};
use rasuvelk::{DIFAT_SECTOR, INVALID_SECTOR, MAX_REGULAR_SECTOR, MAX_SECTORS};

/// Image Q with room for one sector more.
fn q() -> Image {
    let mut image = Image::open(image_q(), Validation::Strict).unwrap();
    assert_eq!(image.reserve(1), 7);
    image
}

/// That a fresh strict opening of the bytes gives what is in hand, the free list but for its order.
fn opens_the_same(image: &Image) {
    image.verify().unwrap();
    let again = Image::open(image.bytes(), Validation::Strict).unwrap();
    let (ours, theirs) = (image.view(), again.view());
    assert_eq!(image.state(), again.state());
    assert_eq!(ours.fat(), theirs.fat());
    assert_eq!(ours.fat_sectors(), theirs.fat_sectors());
    assert_eq!(ours.difat_sectors(), theirs.difat_sectors());
    let mut frees = ours.free_sectors().to_vec();
    frees.sort_unstable();
    assert_eq!(frees, theirs.free_sectors());
}

#[test]
fn case_1_lists() {
    let image = q();
    let chain = image.chain(1).unwrap();
    assert_eq!((chain.sector_ids(), chain.len(), chain.start_sector_id()), (&[1, 2, 3][..], 1536, 1));
    assert_eq!(image.view().free_sectors(), [4, 5]);
    assert_eq!(image.chain_starts(), [1]);
}

#[test]
fn case_2_writes_past_the_end() {
    let mut image = q();
    assert_eq!(image.write(1, 1536, &[9; 600]).unwrap().sector_ids(), [1, 2, 3, 5, 4]);
    let bytes = image.read_to_vec(1).unwrap();
    assert_eq!(bytes.len(), 2560);
    assert!(bytes[1024..1536].iter().all(|&byte| byte == 0xa3));
    assert!(bytes[1536..2136].iter().all(|&byte| byte == 9));
    assert!(bytes[2136..].iter().all(|&byte| byte == 0));
    opens_the_same(&image);
}

#[test]
fn case_3_refuses_a_hole() {
    let mut image = q();
    assert_eq!(image.write(1, 1537, b"x"), Err(Refusal::Offset));
    assert_eq!(image.write(1, 1537, b""), Err(Refusal::Offset));
    assert_eq!(image, q());
}

#[test]
fn case_4_resizes_within_its_sectors() {
    let mut image = q();
    assert_eq!(image.resize(1, 1536).unwrap().sector_ids(), [1, 2, 3]);
    assert_eq!(image, q());
    image.resize(1, 1300).unwrap();
    let bytes = image.read_to_vec(1).unwrap();
    assert_eq!(bytes[1300..], [0; 236]);
    assert_eq!(bytes[..1300], q().read_to_vec(1).unwrap()[..1300]);
    opens_the_same(&image);
    let mut image = q();
    assert_eq!(image.resize(1, 1537).unwrap().sector_ids(), [1, 2, 3, 5]);
    opens_the_same(&image);
}

#[test]
fn case_5_cuts() {
    let mut image = q();
    assert_eq!(image.resize(1, 513).unwrap().sector_ids(), [1, 2]);
    assert_eq!(image.view().free_sectors(), [4, 5, 3]);
    assert_eq!(image.read_to_vec(1).unwrap()[513..], [0; 511]);
    opens_the_same(&image);
    let mut image = q();
    assert_eq!(image.resize(1, 512).unwrap().sector_ids(), [1]);
    assert_eq!(image.view().free_sectors(), [4, 5, 2, 3]);
    opens_the_same(&image);
}

#[test]
fn case_6_frees() {
    let mut freed = q();
    freed.free(1).unwrap();
    assert_eq!(freed.view().free_sectors(), [4, 5, 1, 2, 3]);
    assert_eq!(freed.view().sector(2), Some(&[0xa2; 512][..]));
    let mut resized = q();
    assert_eq!(resized.resize(1, 0).unwrap().start_sector_id(), END_OF_CHAIN);
    assert_eq!(freed, resized);
    opens_the_same(&freed);
}

#[test]
fn case_7_fills_the_room() {
    let mut image = q();
    assert_eq!(image.resize(1, 3584), Err(Refusal::NoRoom));
    assert_eq!(image, q());
    assert_eq!(image.resize(1, 3072).unwrap().sector_ids(), [1, 2, 3, 5, 4, 6]);
    opens_the_same(&image);
}

#[test]
fn case_8_starts() {
    let mut image = q();
    assert_eq!(image.chain(2).unwrap().sector_ids(), [2, 3]);
    assert_eq!(image.resize(2, 0), Err(Refusal::MidChain));
    assert_eq!(image.write(2, 0, b""), Err(Refusal::MidChain));
    assert_eq!(image.chain(4), Err(Refusal::BrokenChain));
    assert_eq!(image.chain(6), Err(Refusal::BadStart));
    assert_eq!(image.chain(FREE_SECTOR), Err(Refusal::BadStart));
}

#[test]
fn case_9_begins_a_chain() {
    let mut image = Image::create(Version::V3).unwrap();
    image.reserve(1);
    assert_eq!(image.write(END_OF_CHAIN, 0, b"x"), Err(Refusal::NoRoom));
    image.reserve(2);
    assert_eq!(image.write(END_OF_CHAIN, 0, b"x").unwrap().sector_ids(), [1]);
    assert_eq!(image.view().fat(), [FAT_SECTOR, END_OF_CHAIN]);
    let header = image.header();
    assert_eq!((header.num_fat_sectors, header.initial_difat_entries[0]), (1, 0));
    opens_the_same(&image);
}

#[test]
fn case_10_modes() {
    let past = image_of(&[FAT_SECTOR, 2, 3, MAX_REGULAR_SECTOR, FREE_SECTOR, FREE_SECTOR]);
    assert_eq!(Image::open(&past[..], Validation::Strict), Err(Refusal::PastEnd));
    let mut image = Image::open(past, Validation::Permissive).unwrap();
    assert_eq!(image.chain(1).unwrap().sector_ids(), [1, 2, 3]);
    assert_eq!(image.write(1, 0, b"x"), Err(Refusal::PermissiveChange));
    assert_eq!(image.free(1), Err(Refusal::PermissiveChange));
    let invalid = image_of(&[FAT_SECTOR, 2, 3, INVALID_SECTOR, FREE_SECTOR, FREE_SECTOR]);
    for validation in [Validation::Strict, Validation::Permissive] {
        assert_eq!(Image::open(&invalid[..], validation), Err(Refusal::InvalidEntry));
    }
}

/// An image of n sectors, none free: what a chain from END has once it has grown so far.
fn full(sectors: u64) -> Image {
    let mut image = Image::create(Version::V3).unwrap();
    image.set_growth(Growth::AsNeeded);
    image.resize(END_OF_CHAIN, 512 * sectors).unwrap();
    image.set_growth(Growth::Fixed);
    image.shrink_to_fit();
    image
}

#[test]
fn case_11_adds_a_fat_sector() {
    let mut image = full(127);
    assert_eq!((image.num_sectors(), image.room()), (128, 128));
    image.reserve(1);
    assert_eq!(image.resize(1, 512 * 128), Err(Refusal::NoRoom));
    image.reserve(2);
    assert_eq!(image.resize(1, 512 * 128).unwrap().sector_ids().last(), Some(&129));
    assert_eq!(image.view().fat_sectors(), [0, 128]);
    opens_the_same(&image);
}

#[test]
fn case_12_adds_a_difat_sector() {
    let mut image = full(13_952 - 109);
    assert_eq!((image.num_sectors(), image.view().free_sectors().len()), (13_952, 0));
    image.reserve(3);
    let chain = image.resize(1, 512 * (13_952 - 109 + 1)).unwrap();
    assert_eq!(chain.sector_ids().last(), Some(&13_954));
    assert_eq!(image.view().fat_sectors().last(), Some(&13_952));
    assert_eq!(image.view().difat_sectors(), [13_953]);
    assert_eq!(image.view().fat()[13_952..], [FAT_SECTOR, DIFAT_SECTOR, END_OF_CHAIN]);
    opens_the_same(&image);
}

#[test]
fn case_13_the_most_sectors() {
    let mut image = full(16_384 - 128 - 1);
    assert_eq!(image.num_sectors(), MAX_SECTORS);
    opens_the_same(&image);
    image.set_growth(Growth::AsNeeded);
    assert_eq!(image.resize(1, 512 * 16_384), Err(Refusal::NoRoom));
    assert_eq!(image.room(), MAX_SECTORS);
    let mut bytes = image.into_bytes();
    bytes.resize(bytes.len() + 512, 0);
    assert_eq!(Image::open(bytes, Validation::Strict), Err(Refusal::WholeSectors));
}

#[test]
fn version_4_has_longer_sectors() {
    let mut image = Image::create(Version::V4).unwrap();
    image.set_growth(Growth::AsNeeded);
    let chain = image.write(END_OF_CHAIN, 0, &[5; 5000]).unwrap();
    assert_eq!((chain.sector_ids(), chain.len()), (&[1, 2][..], 8192));
    assert_eq!(image.bytes().len(), 4 * 4096);
    assert_eq!(image.view().sector(0).map(<[u8]>::len), Some(4096));
    opens_the_same(&image);
}

#[test]
fn room_is_the_callers_choice() {
    let mut image = Image::open(SAMPLE, Validation::Strict).unwrap();
    assert_eq!((image.room(), image.growth()), (10, Growth::Fixed));
    assert_eq!(image.resize(0, 4097), Err(Refusal::NoRoom));
    assert_eq!(image.room(), 10);
    image.set_growth(Growth::UpTo(13));
    assert_eq!(image.resize(0, 512 * 12), Err(Refusal::NoRoom));
    assert_eq!(image.room(), 10, "a refused change leaves the room as it was");
    assert_eq!(image.resize(0, 512 * 11).unwrap().num_sectors(), 11);
    assert_eq!(image.room(), 13);
    image.set_growth(Growth::AsNeeded);
    for length in [u64::MAX, u64::MAX - 511, 1 << 63, 512 * 16_384] {
        assert_eq!(image.resize(0, length), Err(Refusal::NoRoom));
        assert_eq!(image.room(), 13);
    }
    opens_the_same(&image);
}

#[test]
fn every_chain_keeps_its_bytes_but_the_one_that_is_edited() {
    let mut image = Image::open(SAMPLE, Validation::Strict).unwrap();
    image.set_growth(Growth::AsNeeded);
    let directory = image.read_to_vec(9).unwrap();
    let mut expected = image.read_to_vec(0).unwrap();
    image.write(0, 100, b"in place").unwrap();
    image.write(0, 4096, b"by growth").unwrap();
    expected[100..108].copy_from_slice(b"in place");
    expected.extend_from_slice(b"by growth");
    expected.resize(4096 + 512, 0);
    let again = Image::open(image.bytes(), Validation::Strict).unwrap();
    assert_eq!(again.read_to_vec(0).unwrap(), expected);
    assert_eq!(again.read_to_vec(9).unwrap(), directory);
    opens_the_same(&image);
}
