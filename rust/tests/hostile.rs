//! Hostile input: whatever the bytes, the starts, the offsets and the lengths, there is an answer, and it is one that
//! is documented for the call. After a refusal nothing has changed; after a change the bytes open again.

mod common;

use common::{image_of, image_q, number, Random, SAMPLE};
use rasuvelk::{Growth, Header, Image, Lent, Memory, State, Validation, Version};
use rasuvelk::{DIFAT_SECTOR, END_OF_CHAIN, FAT_SECTOR, FREE_SECTOR, INVALID_SECTOR, MAX_REGULAR_SECTOR};

const BOTH: [Validation; 2] = [Validation::Strict, Validation::Permissive];
const OFFSETS: [u64; 8] = [0, 1, 511, 512, 513, 1 << 32, u64::MAX - 511, u64::MAX];

/// Entries and starts of every kind.
fn starts(sectors: usize) -> Vec<u32> {
    let n = sectors as u32;
    let special = [MAX_REGULAR_SECTOR, INVALID_SECTOR, DIFAT_SECTOR, FAT_SECTOR, END_OF_CHAIN, FREE_SECTOR];
    [0, 1, 2, n.wrapping_sub(1), n, n + 1].into_iter().chain(special).collect()
}

/// Asks every call of an image; gives how many answers there were.
fn try_all(image: &Image, random: &mut Random) -> usize {
    let mut answers = 0;
    for start in starts(image.num_sectors()) {
        let offset = random.of(&OFFSETS);
        let mut buf = [0x55; 700];
        let chain = image.chain(start);
        assert!([0, 20, 21, 22].contains(&number(&chain)), "chain {start}: {chain:?}");
        let read = image.read(start, offset, &mut buf);
        assert!([0, 20, 21, 22, 23].contains(&number(&read)), "read {start} {offset}: {read:?}");
        let kept = read.unwrap_or(0);
        assert!(buf[kept..].iter().all(|&byte| byte == 0x55), "read {start} {offset} wrote past what it read");
        if let Ok(chain) = &chain {
            assert_eq!(image.read_to_vec(start).map(|bytes| bytes.len() as u64), Ok(chain.len()));
        }
        answers += 3 + try_changes(image, start, offset, random);
    }
    answers
}

/// Asks the three changes, each of a copy of its own.
fn try_changes(image: &Image, start: u32, offset: u64, random: &mut Random) -> usize {
    let buf = vec![7; random.of(&[0, 1, 511, 512, 1500])];
    for which in 0..3 {
        let mut changed = image.clone();
        changed.set_growth(random.of(&[Growth::Fixed, Growth::AsNeeded, Growth::UpTo(20)]));
        let answer = match which {
            0 => changed.write(start, offset, &buf).map(|_| ()),
            1 => changed.resize(start, offset).map(|_| ()),
            _ => changed.free(start),
        };
        let told = number(&answer);
        assert!([0, 20, 21, 22, 23, 24, 25, 26].contains(&told), "change {which} of {start}: {answer:?}");
        if told != 0 {
            assert_eq!(&changed, image, "a refused change changed something");
            assert_eq!(changed.room(), image.room());
        } else {
            changed.verify().unwrap();
            let again = Image::open(changed.bytes(), Validation::Strict).unwrap();
            assert_eq!(again.state(), changed.state());
            assert_eq!(again.view().fat(), changed.view().fat());
        }
    }
    3
}

/// Opens bytes in both modes, and asks every call of what opens. Gives how many openings were accepted.
fn try_bytes(bytes: &[u8], random: &mut Random) -> usize {
    let mut accepted = 0;
    for validation in BOTH {
        let opened = Image::open(bytes, validation);
        let told = number(&opened);
        let forgiven = if validation.is_strict() { &[][..] } else { &[7, 14, 15] };
        assert!(told <= 18 && told != 11 && !forgiven.contains(&told), "{validation:?}: {told}");
        let header = number(&Header::read_from(bytes, validation));
        assert!(header <= 9 && (header == told || told > 9 || told == 0), "header {header}, opening {told}");
        if let Ok(image) = opened {
            assert_eq!(image.bytes(), bytes);
            accepted += 1;
            try_all(&image, random);
        }
    }
    accepted
}

#[test]
fn every_cut_of_a_real_file() {
    let mut random = Random(1);
    let accepted: usize = (0..=SAMPLE.len()).map(|length| try_bytes(&SAMPLE[..length], &mut random)).sum();
    // Cut to whole sectors it names sectors that are gone; only the whole file opens, in both modes.
    assert_eq!(accepted, 2);
}

#[test]
fn every_byte_of_header_and_fat() {
    let mut random = Random(2);
    let mut accepted = 0;
    for (file, fat) in [(SAMPLE.to_vec(), 9 * 512), (image_q(), 512)] {
        for at in (0..512).chain(fat..fat + 64) {
            for value in [0, 1, 0x80, 0xfb, 0xff] {
                let mut bytes = file.clone();
                bytes[at] = value;
                accepted += try_bytes(&bytes, &mut random);
            }
        }
    }
    // Reserved bytes, minor version and the like do not matter, and some values are those that were there.
    assert!(accepted > 500, "{accepted} opened");
}

#[test]
fn small_fats_of_every_kind() {
    let mut random = Random(3);
    let values =
        [0, 1, 2, 3, 4, MAX_REGULAR_SECTOR, INVALID_SECTOR, DIFAT_SECTOR, FAT_SECTOR, END_OF_CHAIN, FREE_SECTOR];
    let mut accepted = 0;
    for _ in 0..4000 {
        let mut entries = [FAT_SECTOR; 5];
        entries[1..].fill_with(|| random.of(&values));
        accepted += try_bytes(&image_of(&entries), &mut random);
    }
    assert!(accepted > 300, "{accepted} opened");
}

#[test]
fn random_bytes() {
    let mut random = Random(4);
    for _ in 0..2000 {
        let mut bytes: Vec<u8> = (0..random.below(3000)).map(|_| random.next() as u8).collect();
        // Half of them begin like a header.
        if random.below(2) == 0 && bytes.len() >= 512 {
            Header::new(random.of(&[Version::V3, Version::V4])).write_to(&mut bytes).unwrap();
            bytes[random.below(512)] = random.next() as u8;
        }
        try_bytes(&bytes, &mut random);
    }
}

#[test]
fn lists_of_changes() {
    let mut random = Random(5);
    for round in 0..60 {
        let mut image = match round % 3 {
            0 => Image::open(SAMPLE, Validation::Strict).unwrap(),
            1 => Image::open(image_q(), Validation::Strict).unwrap(),
            _ => Image::create(random.of(&[Version::V3, Version::V4])).unwrap(),
        };
        image.set_growth(Growth::UpTo(300));
        let mut accepted = 0;
        for _ in 0..30 {
            let mut starts = image.chain_starts();
            starts.extend([END_OF_CHAIN, random.below(40) as u32]);
            let start = random.of(&starts);
            let length = image.chain(start).map_or(0, |chain| chain.len());
            let buf = vec![random.next() as u8; random.below(3000)];
            let before = image.clone();
            let answer = match random.below(4) {
                0 => image.free(start),
                1 => image.resize(start, random.next() % 20_000).map(|_| ()),
                _ => image.write(start, length.min(random.next() % 4096), &buf).map(|_| ()),
            };
            match answer {
                Ok(()) => accepted += 1,
                Err(_) => assert_eq!(image, before),
            }
            image.verify().unwrap();
            assert_eq!(Image::open(image.bytes(), Validation::Strict).map(|again| again.header()), Ok(image.header()));
        }
        assert!(accepted > 5, "{accepted} changes in round {round}");
    }
}

#[test]
fn lent_memory_of_any_length() {
    let mut random = Random(6);
    let mut met = [0; 27];
    for _ in 0..20_000 {
        let mut bytes = if random.below(2) == 0 { image_q() } else { SAMPLE.to_vec() };
        let whole = bytes.len();
        let used = [whole, whole, whole, random.below(whole + 600), random.next() as usize][random.below(5)];
        bytes.resize(bytes.len() + random.below(1500), 0xee);
        let mut tables: Vec<Vec<u32>> =
            (0..5).map(|_| vec![9; random.of(&[0, 5, 6, 10, 14, 14, 14, 14, 14])]).collect();
        let mut marks = vec![9; random.of(&[0, 6, 14, 14, 14])];
        let [fat, fat_sectors, difat_sectors, free_sectors, ids] = &mut tables[..] else { unreachable!() };
        let memory = Memory { fat, fat_sectors, difat_sectors, free_sectors, marks: &mut marks, ids };
        let mut lent = match Lent::open(&mut bytes[..], used, Validation::Strict, memory) {
            Ok(lent) => lent,
            Err(refusal) => {
                assert!(refusal.number() == 1 || (10..=18).contains(&refusal.number()), "{refusal}");
                met[refusal.number() as usize] += 1;
                continue;
            }
        };
        let start = random.of(&starts(lent.state().num_sectors()));
        let offset = random.of(&OFFSETS);
        let told = match random.below(5) {
            0 => number(&lent.chain(start)),
            1 => number(&lent.read(start, offset, &mut [0; 100])),
            2 => number(&lent.write(start, offset, &[3; 600])),
            3 => number(&lent.resize(start, offset)),
            _ => number(&lent.free(start)),
        };
        assert!([0, 11, 20, 21, 23, 24, 25].contains(&told), "{told}");
        met[told as usize] += 1;
    }
    for told in [0, 1, 10, 11, 20, 21, 23, 24, 25] {
        assert!(met[told] > 0, "{told} was never met: {met:?}");
    }
}

#[test]
fn states_that_no_opening_gave() {
    let mut random = Random(7);
    let mut accepted = 0;
    for _ in 0..20_000 {
        let mut bytes = image_q();
        let (mut words, mut marks) = ([0; 5 * 6], [0; 6]);
        let memory = Memory::split(&mut words, &mut marks);
        let lent = Lent::open(&mut bytes[..], 7 * 512, Validation::Strict, memory).unwrap();
        let (image, memory, state) = lent.into_parts();
        let mut held = state.to_words();
        held[random.below(121)] = random.of(&[0, 1, 2, 3, 4, 6, 3584, 4096, u64::from(u32::MAX), u64::MAX]);
        let same = held == state.to_words();
        let Ok(state) = State::from_words(held) else {
            continue;
        };
        let mut lent = Lent::resume(image, memory, state);
        let told = number(&lent.write(1, 0, b"x"));
        // A mode of 0 alone is the state of a permissive opening, which gives the same tables.
        let expected = if same { &[0][..] } else { &[19, 26] };
        assert!(expected.contains(&told), "{told}");
        accepted += usize::from(told == 0);
    }
    assert!(accepted > 0);
}

#[test]
fn words_that_hold_no_state() {
    let words = Image::create(Version::V3).unwrap().state().to_words();
    assert_eq!(State::from_words(words).map(|state| state.to_words()), Ok(words));
    for place in 0..121 {
        let mut held = words;
        held[place] = 1 << 32;
        // Used bytes, sectors and free ones may be any number; what they are is for the next call to judge.
        assert_eq!(number(&State::from_words(held)), if (1..4).contains(&place) { 0 } else { 19 }, "word {place}");
    }
    for (place, wrong) in [(0, 2), (4, 2), (4, 5)] {
        let mut held = words;
        held[place] = wrong;
        assert_eq!(number(&State::from_words(held)), 19);
    }
}
