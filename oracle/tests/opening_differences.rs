//! Where the opening and the Rust's part as they are meant to: a smallest input each, with both sides.
//!
//! The Rust is alloc.rs over the stand-ins, which load what the lists name, and the first n entries of the FAT.
#![cfg(oracle)]

use oracle::abi;
use oracle::asked::{self, Opening};
use oracle::held::{self, Case};
use oracle::image::{self, Store};
use oracle::inputs::{put32, put_listed, END, FREE};
use oracle::internal::{Allocator, SectorInit, Validation, Version};
use oracle::layout::{Layout, DIFAT, DIFATS_AT, FAT, FATS_AT, FIRST_DIFAT_AT};
use oracle::openings::{self, room};
use std::io::{Read, Write};

/// Our refusal in both modes, all bytes used and the tables long enough.
fn ours(image: &[u8]) -> u32 {
    let lengths = [room(image[26].into(), image.len()); 5];
    let [one, other] = [0, 1].map(|mode| held::same(&Case { image, used: image.len(), mode, lengths }).number);
    assert_eq!(one, other);
    one
}

/// The Rust's FAT and its list of FAT sectors; it opens in both modes, with the same tables.
fn rusts(image: &[u8]) -> (Vec<u32>, Vec<u32>) {
    let [one, other] = [0, 1].map(|mode| asked::open(image, mode));
    assert_eq!(one, other);
    match one {
        Opening::Opened(tables) => (tables.fat, tables.fats),
        other => panic!("the Rust {other:?}"),
    }
}

fn allocator(image: &[u8]) -> Allocator<Store> {
    image::open(image.to_vec(), Validation::Strict).unwrap()
}

fn with_long(layout: &Layout, at: usize, number: u32) -> Vec<u8> {
    let mut image = layout.bytes();
    put32(&mut image, at, number);
    image
}

/// 1: more is said to be used than there is, or less than a header. The Rust is told no such number: it takes the bytes
/// that there are, and of a cut header what it needs.
#[test]
fn smallest_used() {
    let header = Layout::plain(3, 0).bytes();
    let at = |image, used| held::same(&Case { image, used, mode: 1, lengths: [0; 5] }).number;
    assert_eq!([at(&header, 512), at(&header, 513), at(&header, 511), at(&[], 1), at(&[], 0)], [0, 1, 1, 1, 1]);
    assert_eq!(rusts(&header), (vec![], vec![]));
    assert_eq!(asked::read_header(&header[..80], 1).0, 0);
}

/// 9: an id behind the first FREE of the list is forgotten.
#[test]
fn smallest_forgotten_id() {
    let image = with_long(&Layout::small(&[FAT]), 76 + 8, 0);
    assert_eq!(ours(&image), 9);
    assert_eq!(rusts(&image), (vec![FAT], vec![0]));
}

/// The next FAT sector brings it to life: the list was 0, FREE, 5, and is 0, 128, 5.
#[test]
fn forgotten_id_comes_to_life() {
    let mut entries = [END; 128];
    entries[0] = FAT;
    let mut image = Layout::small(&entries).bytes();
    put_listed(&mut image, 2, 5);
    assert_eq!(ours(&image), 9);
    let mut allocator = allocator(&image);
    assert_eq!(allocator.begin_chain(SectorInit::Zero).unwrap(), 129);
    let bytes = image::bytes_of(&allocator);
    assert_eq!([76, 80, 84].map(|at| image::get32(bytes, at)), [0, 128, 5]);
    assert_eq!(asked::open(bytes, 1), Opening::Refused(14));
}

/// 10: a byte after the last whole sector.
#[test]
fn smallest_part_of_a_sector() {
    for version in [3, 4] {
        let mut image = Layout::plain(version, 0).bytes();
        image.push(7);
        assert_eq!(ours(&image), 10);
        assert_eq!(rusts(&image), (vec![], vec![]));
    }
    // A header of version 4 without the rest of its sector: the Rust reads it, the stand-ins have no sector 0.
    let header = &Layout::plain(4, 0).bytes()[..512];
    assert_eq!(ours(header), 10);
    assert_eq!(asked::read_header(header, 1).0, 0);
}

/// 10: one sector more than 16,384.
#[test]
fn smallest_of_too_many() {
    for version in [3, 4] {
        let layout = Layout::plain(version, 16_385);
        let image = layout.bytes();
        assert_eq!(ours(&image), 10);
        assert_eq!(rusts(&image), (layout.entries, layout.fats));
    }
}

/// 11: the Rust has no lent tables.
#[test]
fn smallest_short_table() {
    let image = Layout::small(&[FAT]).bytes();
    for table in 0..5 {
        let mut lengths = [1; 5];
        lengths[table] = 0;
        let number = |mode| held::same(&Case { image: &image, used: 1024, mode, lengths }).number;
        assert_eq!([number(0), number(1)], [11, 11]);
    }
    assert_eq!((ours(&image), rusts(&image)), (0, (vec![FAT], vec![0])));
}

/// 12: alloc.rs does not look at the two counts of the header.
#[test]
fn smallest_wrong_counts() {
    for at in [FATS_AT, DIFATS_AT] {
        let image = with_long(&Layout::plain(3, 0), at, 1);
        assert_eq!((ours(&image), rusts(&image)), (12, (vec![], vec![])));
    }
}

/// 12: a sector that no FAT sector has an entry for. The next allocation takes it for the FAT, whatever it holds.
#[test]
fn smallest_without_a_fat() {
    let mut image = Layout::plain(3, 0).bytes();
    image.resize(1024, 0x77);
    assert_eq!((ours(&image), rusts(&image)), (12, (vec![], vec![])));
    let mut allocator = allocator(&image);
    assert_eq!(allocator.begin_chain(SectorInit::Zero).unwrap(), 1);
    assert_eq!(image::fat_of(&allocator), [FAT, END]);
    assert!(!image::bytes_of(&allocator)[512..1024].contains(&0x77));
}

/// 12: a spare FAT sector. When the entries of the first are used up, the Rust adds a third all the same.
#[test]
fn smallest_spare_fat_sector() {
    let mut entries = vec![FAT, FAT];
    let spare = |entries: &[u32]| {
        let mut image = Layout::small(entries).bytes();
        put32(&mut image, FATS_AT, 2);
        put_listed(&mut image, 1, 1);
        image[1024..1536].fill(0xff);
        image
    };
    assert_eq!((ours(&spare(&entries)), rusts(&spare(&entries))), (12, (entries.clone(), vec![0, 1])));
    entries.resize(128, END);
    let mut allocator = allocator(&spare(&entries));
    assert_eq!(allocator.begin_chain(SectorInit::Zero).unwrap(), 129);
    assert_eq!(image::get32(image::bytes_of(&allocator), FATS_AT), 3);
    assert_eq!(image::fat_of(&allocator)[128..], [FAT, END]);
}

/// 12: the same FAT sector listed twice; with the right count it takes 129 sectors. Its entries stand for two sectors
/// each, and to take one takes the other on disk: the image is then another than the one in memory.
#[test]
fn smallest_fat_sector_twice() {
    let mut image = with_long(&Layout::small(&[FAT]), FATS_AT, 2);
    put_listed(&mut image, 1, 0);
    assert_eq!((ours(&image), rusts(&image)), (12, (vec![FAT], vec![0, 0])));

    let mut layout = Layout::plain(3, 129);
    layout.fats[1] = 0;
    layout.entries[1] = FREE;
    layout.entries[128] = FAT;
    let image = layout.bytes();
    assert_eq!((ours(&image), rusts(&image)), (12, (layout.entries.clone(), vec![0, 0])));
    let mut entries = layout.entries;
    entries.extend([FREE, FREE]);
    let mut layout = Layout { entries, ..Layout::plain(3, 131) };
    layout.fats[1] = 0;
    let mut allocator = allocator(&layout.bytes());
    assert_eq!(allocator.begin_chain(SectorInit::Zero).unwrap(), 130);
    assert_eq!(image::fat_of(&allocator)[2], FREE);
    let again = image::open(image::bytes_of(&allocator).to_vec(), Validation::Strict).unwrap();
    assert_eq!(image::fat_of(&again)[2], END);
}

/// 12: a DIFAT sector that is not needed, empty or with the only id in it.
#[test]
fn smallest_spare_difat_sector() {
    let mut image = with_long(&Layout::small(&[FAT, DIFAT]), FIRST_DIFAT_AT, 1);
    put32(&mut image, DIFATS_AT, 1);
    image[1024..1536].fill(0xff);
    assert_eq!((ours(&image), rusts(&image)), (12, (vec![FAT, DIFAT], vec![0])));
    put_listed(&mut image, 0, FREE);
    put32(&mut image, 1024, 0);
    assert_eq!((ours(&image), rusts(&image)), (12, (vec![FAT, DIFAT], vec![0])));
}

/// 12: a special value as the first DIFAT sector. The stand-ins end the DIFAT there; alloc.rs is not asked.
#[test]
fn smallest_special_difat_pointer() {
    for special in [0xffff_fffb, DIFAT, FAT] {
        let image = with_long(&Layout::plain(3, 0), FIRST_DIFAT_AT, special);
        assert_eq!((ours(&image), rusts(&image)), (12, (vec![], vec![])));
    }
}

/// 12: an id behind the first FREE of a DIFAT sector; the stand-ins forget it, as the Rust does in the header.
#[test]
fn smallest_forgotten_in_a_difat_sector() {
    let layout = Layout::plain(3, 13_953);
    let image = with_long(&layout, layout.listed_at(111), 5);
    assert_eq!((ours(&image), rusts(&image)), (12, (layout.entries, layout.fats)));
}

/// 12: an id too few in the header, and one more in the DIFAT sector. The stand-ins load as many as there must be, and the
/// Rust has the same list as with each in its place.
#[test]
fn smallest_moved_to_a_difat_sector() {
    let layout = Layout::plain(3, 13_953);
    assert_eq!((layout.fats.len(), &layout.difats[..]), (110, &[110][..]));
    let mut image = with_long(&layout, layout.listed_at(108), FREE);
    put32(&mut image, layout.listed_at(109), 108);
    put32(&mut image, layout.listed_at(110), 109);
    assert_eq!([FATS_AT, DIFATS_AT].map(|at| image::get32(&image, at)), [110, 1]);
    assert_eq!((ours(&image), rusts(&image)), (12, (layout.entries, layout.fats)));
}

/// 12: an id of a sector that is not there. The Rust refuses it too, by causes that have no number of their own: the
/// stand-ins can't load it, and alloc.rs, handed it all the same, does not find it in the FAT.
#[test]
fn smallest_id_past_the_end() {
    let refused = |image: &[u8], id: u32| {
        for mode in [0, 1] {
            match asked::open(image, mode) {
                Opening::Unnumbered(message) => assert!(message.contains(&format!("No sector {id} "))),
                other => panic!("the Rust {other:?}"),
            }
        }
    };
    let layout = Layout::small(&[FAT]);
    for id in [1, 0xffff_fffa] {
        let image = with_long(&layout, layout.listed_at(0), id);
        assert_eq!(ours(&image), 12);
        refused(&image, id);
        let tables = || image::Tables { difat_sectors: vec![], fat_sectors: vec![id], fat: vec![FAT] };
        let message = format!("DIFAT lists {id} as a FAT sector");
        for mode in [Validation::Permissive, Validation::Strict] {
            let error = image::over(&image, Version::V3, tables(), mode).err().unwrap();
            assert!(error.to_string().contains(&message));
        }
    }
    let layout = Layout::plain(3, 13_953);
    let image = with_long(&layout, FIRST_DIFAT_AT, 13_953);
    assert_eq!(ours(&image), 12);
    refused(&image, 13_953);
}

/// 13: an entry past the last sector; alloc.rs is handed the first n.
#[test]
fn smallest_tail() {
    let layout = Layout::small(&[FAT]);
    for entry in [0, 0xffff_fffa, 0xffff_fffb, DIFAT, FAT, END] {
        let image = with_long(&layout, layout.entry_at(1), entry);
        assert_eq!((ours(&image), rusts(&image)), (13, (vec![FAT], vec![0])));
    }
}

/// The ids of a chain, and its bytes.
fn chain_of(allocator: &mut Allocator<Store>, start: u32) -> (Vec<u32>, Vec<u8>) {
    let mut chain = allocator.open_chain(start, SectorInit::Zero).unwrap();
    let mut bytes = Vec::new();
    chain.read_to_end(&mut bytes).unwrap();
    (chain.sector_ids().to_vec(), bytes)
}

/// 18: sector 1 points at 2, which is FREE. The next allocation is 2: two chains then own it, what is written to the new
/// one shows in the old, and in the bytes there is nothing left to refuse.
#[test]
fn smallest_poisoned() {
    let image = Layout::small(&[FAT, 2, FREE]).bytes();
    assert_eq!((ours(&image), rusts(&image)), (18, (vec![FAT, 2, FREE], vec![0])));
    let mut allocator = allocator(&image);
    assert!(allocator.open_chain(1, SectorInit::Zero).is_err());
    assert_eq!(image::free_list(&mut allocator).unwrap(), [2]);
    assert_eq!(allocator.begin_chain(SectorInit::Zero).unwrap(), 2);
    allocator.open_chain(2, SectorInit::Zero).unwrap().write_all(&[0x55; 512]).unwrap();
    assert_eq!(chain_of(&mut allocator, 2), (vec![2], vec![0x55; 512]));
    let (ids, bytes) = chain_of(&mut allocator, 1);
    assert_eq!((ids, &bytes[512..]), (vec![1, 2], &[0x55; 512][..]));
    assert_eq!(ours(image::bytes_of(&allocator)), 0);
}

/// No image of fewer sectors is poisoned.
#[test]
fn no_smaller_poisoned() {
    let mut compared = 0;
    for (n, place) in [(0, 0), (1, 0), (2, 0), (2, 1)] {
        openings::every_fat(3, n, place, &mut |case| {
            let answer = held::same(case);
            assert!(answer.number != 18 && answer.state[abi::MODE] < 2);
            compared += 1;
        });
    }
    assert_eq!(compared, 2 * (1 + 8 + 2 * 81));
}
