//! Every number from 1 to 26, met once through this package, and what is said of it.

mod common;

use common::{image_of, image_q, SAMPLE};
use rasuvelk::{Header, Image, Lent, Memory, Refusal, Validation, Version};
use rasuvelk::{END_OF_CHAIN, FAT_SECTOR, FREE_SECTOR, INVALID_SECTOR};
use std::collections::HashSet;

/// The sample with some bytes changed, opened strictly.
fn with(at: usize, bytes: &[u8]) -> Option<Refusal> {
    let mut file = SAMPLE.to_vec();
    file[at..at + bytes.len()].copy_from_slice(bytes);
    Image::open(file, Validation::Strict).err()
}

/// An image of these entries, opened strictly.
fn of(entries: &[u32]) -> Option<Refusal> {
    Image::open(image_of(entries), Validation::Strict).err()
}

/// Image Q in lent memory whose tables have so many elements; its first data byte is changed after the opening.
fn disturbed(elements: usize) -> Option<Refusal> {
    let mut bytes = image_q();
    let (mut words, mut marks) = (vec![0; 5 * elements], vec![0; elements]);
    let memory = Memory::split(&mut words, &mut marks);
    let lent = match Lent::open(&mut bytes[..], 7 * 512, Validation::Strict, memory) {
        Ok(lent) => lent,
        Err(refusal) => return Some(refusal),
    };
    let (image, memory, state) = lent.into_parts();
    image[512 + 4] = 3;
    Lent::resume(image, memory, state).chain(1).err()
}

#[test]
fn each_number_is_met() {
    let mut q = Image::open(image_q(), Validation::Strict).unwrap();
    let mut permissive = Image::open(SAMPLE, Validation::Permissive).unwrap();
    let looped = Image::open(image_of(&[FAT_SECTOR, 2, 1]), Validation::Strict).unwrap();
    let met = [
        Image::open(&SAMPLE[..511], Validation::Strict).err(),
        with(0, &[0]),
        with(28, &[0]),
        with(26, &[5]),
        with(30, &[12]),
        with(32, &[7]),
        with(40, &[1]),
        with(57, &[0]),
        with(80, &[0xfe]),
        Image::open(&SAMPLE[..5631], Validation::Strict).err(),
        disturbed(5),
        with(44, &[2]),
        with(9 * 512 + 40, &[0]),
        with(9 * 512 + 32, &[0xfe]),
        with(9 * 512 + 36, &[10, 0, 0, 0]),
        with(9 * 512 + 36, &[1, 0, 0, 0]),
        of(&[FAT_SECTOR, INVALID_SECTOR]),
        of(&[FAT_SECTOR, 2, FREE_SECTOR]),
        disturbed(6),
        q.chain(6).err(),
        q.chain(4).err(),
        looped.chain(1).err(),
        q.read(1, 1537, &mut []).err(),
        q.resize(1, 512 * 6).err(),
        q.free(2).err(),
        permissive.write(0, 0, b"").err(),
    ];
    for (refusal, met) in Refusal::ALL.into_iter().zip(met) {
        assert_eq!(met, Some(refusal));
    }
}

#[test]
fn each_is_told_apart() {
    let mut texts = HashSet::new();
    for (refusal, number) in Refusal::ALL.into_iter().zip(1..) {
        assert_eq!(refusal.number(), number);
        assert_eq!(Refusal::from_number(number), refusal);
        assert!(refusal.to_string().starts_with(&format!("refusal {number}, {}: ", refusal.name())));
        assert!(refusal.help().ends_with('.'));
        assert!(texts.insert(refusal.name()) && texts.insert(refusal.reason()));
    }
    for number in [0, 27, u32::MAX] {
        assert_eq!(Refusal::from_number(number).number(), number);
    }
}

#[test]
fn the_header_writer_refuses_what_no_reader_gives() {
    let mut buf = [0x11; 600];
    let mut listed = Header::new(Version::V3);
    listed.initial_difat_entries[1] = 5;
    let free = Header { first_difat_sector: FREE_SECTOR, ..Header::new(Version::V4) };
    for header in [listed, free] {
        assert_eq!(header.write_to(&mut buf), Err(Refusal::HeaderList));
    }
    assert_eq!(Header::new(Version::V3).write_to(&mut buf[..511]), Err(Refusal::TooShort));
    assert_eq!(buf, [0x11; 600]);
    let header = Header { num_dir_sectors: 3, first_difat_sector: END_OF_CHAIN, ..Header::new(Version::V4) };
    assert_eq!(header.write_to(&mut buf), Ok(()));
    assert_eq!(buf[512..], [0x11; 88]);
    assert_eq!(Header::read_from(&buf, Validation::Strict), Ok(header));
}
