//! The calls that read a chain against the model, with no Rust at hand: number, answer, id list and buffer to their ends.

use oracle::abi::{self, Lent, State, Tables};
use oracle::called::{self, Call};
use oracle::calls::{self, scratch, Opened};
use oracle::held::Case;
use oracle::inputs::{put32, END, FREE};
use oracle::layout::{Layout, FAT};
use oracle::openings::{self, room};
use oracle::random::Random;
use oracle::{lengths, tamper};

/// How often each answer was met.
#[derive(Default, Debug)]
struct Tally([u64; 24]);

impl Tally {
    fn see(&mut self, call: &Call) -> u32 {
        let number = called::same(call).number;
        self.0[number as usize] += 1;
        number
    }

    fn compared(&self) -> u64 {
        self.0.iter().sum()
    }

    /// Each of these answers was met so often.
    fn has(&self, numbers: impl IntoIterator<Item = usize>, times: u64) {
        for number in numbers {
            assert!(self.0[number] >= times, "{number} in {self:?}");
        }
    }
}

/// Q with room for a seventh sector, its tables a little longer.
fn q() -> (Vec<u8>, [usize; 5]) {
    let mut image = Layout::q().bytes();
    image.resize(512 * 8, 0x11);
    (image, [7, 8, 9, 10, 11])
}

/// Case 1: Q, start 1. Case 8, of what only opens: starts 2, 4 and 6.
#[test]
fn cases() {
    let (image, lengths) = q();
    for mode in [0, 1] {
        let opened = Opened::of(&Case { image: &image, used: 512 * 7, mode, lengths }).unwrap();
        assert_eq!(opened.tables.frees[..3], [4, 5, 0]);
        let at = |start| called::same(&opened.call(start, None));
        assert_eq!((at(1).answer, &at(1).ids[..]), ([3, 1, 0], &[1, 2, 3, 0, 0, 0, 0][..]));
        assert_eq!((at(2).answer, &at(2).ids[..]), ([2, 2, 0], &[2, 3, 0, 0, 0, 0, 0][..]));
        assert_eq!((at(END).answer, &at(END).ids[..]), ([0, END.into(), 0], &[0; 7][..]));
        assert_eq!([0, 1, 2, 3, 4, 5, 6, 7, FREE].map(|start| at(start).number), [21, 0, 0, 0, 21, 21, 20, 20, 20]);
        // 1,536 bytes are the chain's length.
        let read = |offset, length| called::same(&opened.call(1, Some((offset, length))));
        let whole = read(0, 2000);
        assert_eq!(whole.answer, [3, 1, 1536]);
        for (i, sector) in whole.buf[..1536].chunks(512).enumerate() {
            assert_eq!(sector, [0xa1 + i as u8; 512]);
        }
        assert_eq!([read(1536, 1).answer, read(1535, 7).answer], [[3, 1, 0], [3, 1, 1]]);
        assert_eq!([0, 1].map(|length| read(1537, length).number), [23; 2]);
        assert_eq!([1 << 32, 1 << 63, u64::MAX].map(|offset| read(offset, 1).number), [23; 3]);
    }
}

/// END is an empty chain: only the offset 0 is in it.
#[test]
fn empty_chain() {
    let image = Layout::plain(3, 0).bytes();
    let opened = Opened::of(&Case { image: &image, used: 512, mode: 1, lengths: [0; 5] }).unwrap();
    for (offset, length, number) in [(0, 0, 0), (0, 9, 0), (1, 0, 23), (1, 9, 23)] {
        let outcome = called::same(&opened.call(END, Some((offset, length))));
        let answer = if number == 0 { [0, END.into(), 0] } else { [0; 3] };
        assert_eq!((outcome.number, outcome.answer), (number, answer));
    }
    assert_eq!(called::same(&opened.call(0, None)).number, 20);
}

/// Every image of at most 3 sectors that opens, from every start; of version 4 of at most 2.
#[test]
fn every_small_image() {
    let mut tally = Tally::default();
    let mut see = |case: &Case| {
        if let Some(opened) = Opened::of(case) {
            opened.every_start(9, &mut |call| _ = tally.see(call));
        }
    };
    for n in 0..=3 {
        (0..n.max(1)).for_each(|place| openings::every_fat(3, n, place, &mut see));
    }
    for n in 0..=2 {
        (0..n.max(1)).for_each(|place| openings::every_fat(4, n, place, &mut see));
    }
    assert_eq!([0, 20, 21, 22].map(|number| tally.0[number]), [4_706, 30_206, 5_296, 622]);
    assert_eq!(tally.compared(), 40_830);
}

/// Every read of images of up to 2 sectors, and of some with more.
#[test]
fn every_read() {
    let mut tally = Tally::default();
    for (n, place) in [(0, 0), (1, 0), (2, 0), (2, 1)] {
        openings::every_fat(3, n, place, &mut |case| {
            if let Some(opened) = Opened::of(case) {
                opened.every_read(9, 9, &mut |call| _ = tally.see(call));
            }
        });
    }
    let mut random = Random::new("model reads");
    calls::images(&mut random, &[3, 4, 5, 6, 9, 12], &[1, 2, 4, 7], &mut |opened| {
        opened.every_read(5, 16, &mut |call| _ = tally.see(call));
    });
    assert!(tally.compared() > 30_000, "{tally:?}");
    tally.has([0, 20, 21, 22, 23], 100);
}

#[test]
fn images() {
    let mut tally = Tally::default();
    let mut random = Random::new("model images");
    let third: Vec<usize> = (0..40).chain([127, 128, 129, 256, 257, 600]).collect();
    let mut more = Random::new("model images, reads");
    calls::images(&mut random, &third, &[0, 1, 2, 3, 5, 8, 12], &mut |opened| {
        opened.every_start(300, &mut |call| _ = tally.see(call));
        opened.some_reads(&mut more, 30, &mut |call| _ = tally.see(call));
    });
    assert!(tally.compared() > 20_000, "{tally:?}");
    tally.has([0, 20, 21, 22, 23], 200);
}

/// Images with several damages, and with random entries: those that open.
#[test]
fn broken_images() {
    let mut tally = Tally::default();
    let mut more = Random::new("model broken, reads");
    let mut see = |case: &Case| {
        if let Some(opened) = Opened::of(case) {
            opened.every_start(12, &mut |call| _ = tally.see(call));
            opened.some_reads(&mut more, 6, &mut |call| _ = tally.see(call));
        }
    };
    openings::broken(&mut Random::new("model broken chains"), 4_000, &mut see);
    openings::random(&mut Random::new("model random chains"), 4_000, &mut see);
    assert!(tally.compared() > 80_000, "{tally:?}");
    tally.has([0, 20, 21, 22, 23], 200);
}

/// Images with a DIFAT sector, with as many sectors as may be, and of version 4 with two FAT sectors.
#[test]
fn long_images() {
    let mut tally = Tally::default();
    let mut random = Random::new("model long chains");
    let mut more = Random::new("model long chains, reads");
    calls::images(&mut random, &[13_953, 16_384], &[1_025], &mut |opened| {
        opened.every_start(4, &mut |call| _ = tally.see(call));
        opened.some_reads(&mut more, 3, &mut |call| _ = tally.see(call));
    });
    tally.has([0, 20, 21], 10);
}

/// Holds a call whose state or tables are others than the opening's.
fn tampered(tally: &mut Tally, opened: &Opened, lent: Lent, round: &mut usize) -> u32 {
    // The id list holds something else each time, and every third call is a read.
    *round += 1;
    let ids = scratch(*round, opened.ids.len());
    let read = (*round % 3 == 0).then_some((*round as u64 % 7, 40));
    let start = if *round % 2 == 0 { END } else { (*round % (opened.n() + 1)) as u32 };
    tally.see(&Call { lent, ids: &ids, start, read })
}

/// Images whose states and tables are changed: Q, one that is free but for its FAT sector, and all kinds of short ones,
/// around 128 sectors, and of both versions.
fn to_tamper_with(name: &str, see: &mut impl FnMut(&Opened)) {
    let (image, lengths) = q();
    let free = Layout::plain(3, 20).bytes();
    for mode in [0, 1] {
        see(&Opened::of(&Case { image: &image, used: 512 * 7, mode, lengths }).unwrap());
        see(&Opened::of(&Case { image: &free, used: 512 * 21, mode, lengths: [21; 5] }).unwrap());
    }
    calls::images(&mut Random::new(name), &[0, 1, 2, 3, 5, 9, 14, 129], &[0, 1, 3, 6], see);
}

/// 19: every word of the state, changed alone. A mode may be the other where that opening gives the same tables; a
/// version of 3 for 4 asks for longer tables.
#[test]
fn every_word_of_the_state() {
    let (mut tally, mut round, mut modes, mut rooms) = (Tally::default(), 0, [0, 0], 0);
    to_tamper_with("tampered states", &mut |opened| {
        tamper::states(opened, &mut |place, state| {
            let number = tampered(&mut tally, opened, Lent { state, ..opened.lent() }, &mut round);
            let flipped = place == abi::MODE && state[place] < 2;
            let shorter = place == abi::HEADER && (state[place], opened.length()) == (3, 4096);
            if flipped {
                // Where both openings accept, they give the same tables.
                let (used, mode) = (state[abi::USED] as usize, state[abi::MODE] as u32);
                let case = Case { image: opened.image, used, mode, lengths: opened.tables.lengths() };
                assert_eq!(number == 19, Opened::of(&case).is_none());
                modes[usize::from(number == 19)] += 1;
            } else if shorter {
                let short = room(3, opened.image.len()) > opened.ids.len();
                assert_eq!(number, if short { 11 } else { 19 });
                rooms += u64::from(short);
            } else {
                assert_eq!(number, 19, "{place} {:x}", state[place]);
            }
        });
    });
    assert!(tally.0[19] > 50_000 && modes[0] > 20 && modes[1] > 0 && rooms > 10, "{tally:?} {modes:?} {rooms}");
}

/// A flipped mode is a matter of agreement: Q opens in both; three others only in the permissive one.
#[test]
fn flipped_modes() {
    let flipped = |image: &[u8], mode: u32| {
        let mut opened = Opened::of(&Case { image, used: image.len(), mode, lengths: [6; 5] }).unwrap();
        opened.state[abi::MODE] = u64::from(1 - mode);
        let outcome = called::same(&opened.call(1, None));
        (outcome.number, outcome.answer)
    };
    let layout = Layout::q();
    let image = layout.bytes();
    assert_eq!([flipped(&image, 0), flipped(&image, 1)], [(0, [3, 1, 0]); 2]);
    // Directory sectors in version 3, no mark of the FAT sector, a pointer past the end.
    for (at, number) in [(40, 1), (layout.entry_at(0), END), (layout.entry_at(3), 6)] {
        let mut image = image.clone();
        put32(&mut image, at, number);
        assert_eq!(flipped(&image, 0), (19, [0; 3]));
    }
}

/// 19: every element of every table, changed alone, those past its count and past the room too.
#[test]
fn every_element_of_the_tables() {
    let (mut tally, mut round) = (Tally::default(), 0);
    to_tamper_with("tampered tables", &mut |opened| {
        tamper::tables(opened, 200, &mut |tables| {
            assert_eq!(tampered(&mut tally, opened, Lent { tables, ..opened.lent() }, &mut round), 19);
        });
    });
    assert!(tally.0[19] > 40_000, "{tally:?}");
}

/// Two elements of a table changed places: 19, but where they are two of the free list, which may have any order.
#[test]
fn every_swap() {
    let (mut tally, mut round, mut frees) = (Tally::default(), 0, 0);
    to_tamper_with("swapped", &mut |opened| {
        tamper::swapped(opened, 20, &mut |free, tables| {
            let number = tampered(&mut tally, opened, Lent { tables, ..opened.lent() }, &mut round);
            assert_eq!(number == 19, !free);
            frees += u64::from(free);
        });
    });
    assert!(tally.0[19] > 1_000 && frees > 200, "{tally:?} {frees}");
}

/// 19: a free list that is not the FREE sectors, once each and no other.
#[test]
fn free_lists() {
    let (mut tally, mut round) = (Tally::default(), 0);
    to_tamper_with("free lists", &mut |opened| {
        tamper::free_lists(opened, 20, &mut |tables| {
            assert_eq!(tampered(&mut tally, opened, Lent { tables, ..opened.lent() }, &mut round), 19);
        });
    });
    assert!(tally.0[19] > 500, "{tally:?}");
}

/// A free list in any order: the answer is that of the ascending one.
#[test]
fn permuted_free_lists() {
    let mut tally = Tally::default();
    let mut random = Random::new("permuted");
    calls::images(&mut Random::new("permuted images"), &[5, 9, 40, 200, 16_384], &[6], &mut |opened| {
        let count = opened.state[abi::FREES] as usize;
        let mut tables = opened.tables.clone();
        for time in 0..8 {
            let frees = &mut tables.frees[..count];
            match time {
                0 => frees.reverse(),
                1 => frees.rotate_left(count / 2),
                _ => (1..count).for_each(|i| frees.swap(i, random.below(i + 1))),
            }
            let ids = scratch(time, opened.ids.len());
            let start = random.below(opened.n()) as u32;
            let first = opened.call(start, Some((0, 700)));
            let call = Call { lent: Lent { tables: &tables, ..opened.lent() }, ids: &ids, ..first };
            tally.see(&call);
            assert!(called::ask(&call) == called::ask(&first));
        }
    });
    assert_eq!(tally.0[19], 0);
    assert!(tally.compared() > 250, "{tally:?}");
}

/// The first elements, the last and some between of long tables, changed alone; and every word of their state.
#[test]
fn long_tables() {
    let (mut tally, mut round) = (Tally::default(), 0);
    let mut random = Random::new("long tables");
    let layout = Layout::random(&mut random, 3, 13_954);
    let image = layout.noisy(&mut random);
    let opened = Opened::of(&Case { image: &image, used: image.len(), mode: 1, lengths: [13_956; 5] }).unwrap();
    tamper::tables(&opened, 5, &mut |tables| {
        assert_eq!(tampered(&mut tally, &opened, Lent { tables, ..opened.lent() }, &mut round), 19);
    });
    tamper::free_lists(&opened, 4, &mut |tables| {
        assert_eq!(tampered(&mut tally, &opened, Lent { tables, ..opened.lent() }, &mut round), 19);
    });
    tamper::states(&opened, &mut |place, state| {
        let number = tampered(&mut tally, &opened, Lent { state, ..opened.lent() }, &mut round);
        assert_eq!(number == 19, place != abi::MODE || state[place] > 1);
    });
    assert!(tally.0[19] > 900, "{tally:?}");
}

/// Q after every change of a byte of its header and FAT, with the tables from before: 19, or the byte has no part in them.
#[test]
fn every_byte_of_the_image() {
    let mut tally = Tally::default();
    let (image, lengths) = q();
    for mode in [0, 1] {
        let mut unseen = Vec::new();
        let opened = Opened::of(&Case { image: &image, used: 512 * 7, mode, lengths }).unwrap();
        for at in 0..1024 {
            for other in [0, 1, 0xff, image[at] ^ 0x80].into_iter().filter(|&other| other != image[at]) {
                let mut image = image.clone();
                image[at] = other;
                let lent = Lent { image: &image, ..opened.lent() };
                if tally.see(&Call { lent, ..opened.call(1, None) }) == 0 {
                    unseen.push(at);
                }
            }
        }
        unseen.dedup();
        // Reserved bytes, the minor version, the transaction number; and FREE for END as the first DIFAT sector.
        let mut expected: Vec<usize> = (8..26).chain(34..40).chain(52..56).chain([68]).collect();
        if mode == 0 {
            // The count of directory sectors, the mark of the FAT sector, and a pointer past the end for END.
            expected.extend((40..44).chain(512..516).chain(524..528));
            expected.sort_unstable();
        }
        assert_eq!(unseen, expected);
    }
    assert_eq!((tally.compared(), tally.0[0], tally.0[19]), (6_184, 209, 5_975));
}

/// State, image and tables of three openings of images as long: only those of one go together.
#[test]
fn mixed() {
    let mut tally = Tally::default();
    let mut images = Vec::new();
    openings::every_fat(3, 3, 0, &mut |case| images.push((case.image.to_vec(), case.mode)));
    let all: Vec<Opened> = images
        .iter()
        .filter_map(|(image, mode)| Opened::of(&Case { image, used: image.len(), mode: *mode, lengths: [3; 5] }))
        .collect();
    let mut random = Random::new("mixed");
    for _ in 0..60_000 {
        let [a, b, c] = [(); 3].map(|()| &all[random.below(all.len())]);
        let pick = |random: &mut Random| random.pick(&[a, a, b, c]);
        let (one, two, three) = (pick(&mut random), pick(&mut random), pick(&mut random));
        let lent = Lent { state: &one.state, image: two.image, tables: &three.tables };
        tally.see(&Call { lent, ..a.call(random.below(4) as u32, None) });
    }
    assert_eq!((all.len(), tally.compared()), (804, 60_000));
    tally.has([0, 19, 20, 21, 22], 500);
}

/// Six lengths around the room, for the tables and the id list together.
#[test]
fn every_length() {
    let mut tally = Tally::default();
    let mut random = Random::new("model lengths");
    for (version, n, after) in [(3, 0, 0), (3, 0, 2), (3, 1, 0), (3, 6, 1), (4, 0, 0), (4, 3, 1)] {
        let layout = Layout::random(&mut random, version, n);
        let mut image = layout.noisy(&mut random);
        let used = image.len();
        image.resize(used + after * layout.length(), 0xee);
        let room = room(version, image.len());
        let opened = Opened::of(&Case { image: &image, used, mode: 1, lengths: [room; 5] }).unwrap();
        let each = lengths::table_lengths(room);
        for word in 0..each.len().pow(6) {
            let lengths: [usize; 6] = std::array::from_fn(|at| each[word / each.len().pow(at as u32) % each.len()]);
            let tables = resized(&opened.tables, &lengths);
            let ids = scratch(word, lengths[5]);
            let call = opened.call(random.below(n + 2) as u32, None);
            let number = tally.see(&Call { lent: Lent { tables: &tables, ..call.lent }, ids: &ids, ..call });
            assert_eq!(number == 11, lengths.iter().any(|&length| length < room));
        }
    }
    assert_eq!((tally.compared(), tally.0[11], tally.0[19]), (52_429, 48_055, 0));
}

/// The tables cut or with zeros after them.
fn resized(tables: &Tables, lengths: &[usize]) -> Tables {
    let mut tables = tables.clone();
    let all = [&mut tables.fat, &mut tables.fats, &mut tables.difats, &mut tables.frees];
    all.into_iter().zip(lengths).for_each(|(table, &length)| table.resize(length, 0));
    tables.marks.resize(lengths[4], 0);
    tables
}

/// The image lent shorter than it was, or longer: the room goes by that, and then 19 where less is lent than is used.
#[test]
fn lent_lengths() {
    let mut tally = Tally::default();
    let mut random = Random::new("lent lengths");
    for (version, n) in [(3, 0), (3, 1), (3, 6), (4, 0), (4, 2)] {
        let layout = Layout::random(&mut random, version, n);
        let used = (n + 1) * layout.length();
        let mut image = layout.noisy(&mut random);
        image.resize(used + 5 * layout.length(), 0x31);
        let lengths = [n + 2; 5];
        let opened = Opened::of(&Case { image: &image[..used], used, mode: 1, lengths }).unwrap();
        let edges = (0..=n + 5).flat_map(|i| [0, 1, 511, 512, 513].map(|more| i * layout.length() + more));
        for lent in edges.chain([image.len()]).filter(|&lent| lent <= image.len()) {
            for start in [0, 1, END] {
                let call = opened.call(start, None);
                let number = tally.see(&Call { lent: Lent { image: &image[..lent], ..call.lent }, ..call });
                match (room(version, lent) > n + 2, lent < used) {
                    (true, _) => assert_eq!(number, 11),
                    (false, shorter) => assert_eq!(number == 19, shorter),
                }
            }
        }
    }
    assert_eq!((tally.compared(), tally.0[11], tally.0[19]), (591, 174, 192));
}

/// The room goes by the version that the state says: by 3 for 4 it is longer, by 4 for 3 shorter; then it is 19.
#[test]
fn other_version() {
    for (version, other, lengths) in [(4, 3, [(23, 19), (22, 11)]), (3, 4, [(2, 19), (1, 11)])] {
        let mut image = Layout::plain(version, 2).bytes();
        let used = image.len();
        let mut opened = Opened::of(&Case { image: &image, used, mode: 1, lengths: [2; 5] }).unwrap();
        let (mut state, tables) = (opened.state, opened.tables.clone());
        image.resize(3 * 4096, 0);
        state[abi::HEADER + abi::VERSION] = other;
        opened = Opened { image: &image, state, tables, ids: vec![] };
        for (length, number) in lengths {
            opened.tables = resized(&opened.tables, &[length; 5]);
            opened.ids = scratch(0, length);
            assert_eq!(called::same(&opened.call(END, None)).number, number);
        }
    }
}

/// An image lent with more than 16,384 sectors after the header's: that many are its room.
#[test]
fn long_lent() {
    let mut image = Layout::q().bytes();
    for (sectors, room) in [(16_384, 16_383), (16_385, 16_384), (16_386, 16_384), (16_400, 16_384)] {
        image.resize(512 * sectors, 0);
        let opened = Opened::of(&Case { image: &image, used: 512 * 7, mode: 1, lengths: [room; 5] }).unwrap();
        assert_eq!(called::same(&opened.call(1, Some((0, 2000)))).answer, [3, 1, 1536]);
        for table in 0..6 {
            let mut lengths = [room; 6];
            lengths[table] -= 1;
            let tables = resized(&opened.tables, &lengths);
            let lent = Lent { tables: &tables, ..opened.lent() };
            let call = Call { lent, ids: &opened.ids[..lengths[5]], ..opened.call(1, None) };
            assert_eq!(called::same(&call).number, 11);
        }
    }
}

/// Words that are no state: each with a version, a mode or a number of the header that there is not.
fn no_states(state: &State, see: &mut impl FnMut(&State)) {
    let [mode, version] = [abi::MODE, abi::HEADER + abi::VERSION];
    let modes = [2, 1 << 32, u64::MAX].map(|word| (mode, word));
    let versions = [0, 2, 5, 3 + (1 << 32), 4 + (1 << 32)].map(|word| (version, word));
    let headers = (abi::HEADER..121).flat_map(|place| [1 << 32, u64::MAX].map(|more| (place, state[place] | more)));
    for (place, word) in modes.into_iter().chain(versions).chain(headers) {
        let mut state = *state;
        state[place] = word;
        see(&state);
    }
}

/// Words that are no state are 19 before 11, and the ids are zero then. The image has room by either sector length.
#[test]
fn no_state() {
    let mut compared = 0;
    let none = Tables::zero([0; 5]);
    for version in [3, 4] {
        let mut image = Layout::plain(version, 2).bytes();
        let used = image.len();
        image.resize(9 * 4096, 0);
        let room = room(version, image.len());
        let opened = Opened::of(&Case { image: &image, used, mode: 1, lengths: [room; 5] }).unwrap();
        no_states(&opened.state, &mut |state| {
            for tables in [&none, &opened.tables] {
                for ids in [&[][..], &[7], &opened.ids] {
                    let lent = Lent { state, image: &image, tables };
                    for read in [None, Some((0, 9))] {
                        assert_eq!(called::same(&Call { lent, ids, start: END, read }).number, 19);
                        compared += 1;
                    }
                }
            }
        });
        // Of a state the lengths are asked first.
        let call = opened.call(END, None);
        assert_eq!(called::same(&call).number, 0);
        assert_eq!(called::same(&Call { lent: Lent { tables: &none, ..call.lent }, ..call }).number, 11);
        assert_eq!(called::same(&Call { ids: &[7], ..call }).number, 11);
    }
    assert_eq!(compared, 2 * 12 * (3 + 5 + 117 * 2));
}

/// Image and buffer may begin at any place: each from 0 to 15 in a longer one.
#[test]
fn at_any_place() {
    let mut compared = 0;
    calls::images(&mut Random::new("places"), &[3, 6], &[2], &mut |opened| {
        for place in 0..16 {
            let mut around = vec![0x99; opened.image.len() + 16];
            let image = &mut around[place..place + opened.image.len()];
            image.copy_from_slice(opened.image);
            for start in opened.starts(9) {
                let call = opened.call(start, Some((place as u64 * 37, 600 + place)));
                let other = Call { lent: Lent { image, ..call.lent }, ..call };
                assert!(called::ask(&other) == called::ask(&call));
                compared += 1;
            }
        }
    });
    assert!(compared > 4_000, "{compared}");
}

/// Counts up through every word of these digits.
fn words(digits: &[&[u32]], see: &mut impl FnMut(&[u32])) {
    let count = digits.iter().map(|digits| digits.len()).product();
    let mut word = vec![0; digits.len()];
    for mut number in 0..count {
        for (letter, digits) in word.iter_mut().zip(digits) {
            *letter = digits[number % digits.len()];
            number /= digits.len();
        }
        see(&word);
    }
}

/// All tables and counts of the FREE sectors that these digits make, each lent with the image: how many are accepted.
fn every_table(tally: &mut Tally, opened: &Opened, digits: &[&[u32]]) -> u64 {
    let n = opened.n();
    let (mut accepted, mut round) = (0, 0);
    words(digits, &mut |word| {
        let (mut state, mut tables) = (opened.state, Tables::zero([n; 5]));
        let parts: Vec<&[u32]> = word[1..].chunks(n).collect();
        state[abi::FREES] = word[0].into();
        let all = [&mut tables.fat, &mut tables.fats, &mut tables.difats, &mut tables.frees];
        all.into_iter().zip(&parts).for_each(|(table, part)| table.copy_from_slice(part));
        tables.marks = parts[4].iter().map(|&mark| mark as u8).collect();
        let lent = Lent { state: &state, image: opened.image, tables: &tables };
        accepted += u64::from(tampered(tally, opened, lent, &mut round) != 19);
    });
    accepted
}

/// Every content of the tables of images with two sectors, from small alphabets: one is accepted. With two free sectors
/// it is two.
#[test]
fn every_content_of_the_tables() {
    let mut tally = Tally::default();
    let (entries, bits) = ([0, 1, 2, END, FREE, FAT], [0, 1]);
    let (entry, bit): (&[u32], &[u32]) = (&entries, &bits);
    let mut digits = vec![bit, entry, entry];
    digits.extend([bit; 8]);
    for fat in [[FAT, END], [FAT, FREE], [FAT, 0], [FAT, 1], [FAT, FAT]] {
        let image = Layout::small(&fat).bytes();
        for mode in [0, 1] {
            let opened = Opened::of(&Case { image: &image, used: 1536, mode, lengths: [2; 5] }).unwrap();
            assert_eq!(every_table(&mut tally, &opened, &digits), 1);
        }
    }
    assert_eq!(tally.compared(), 2 * 5 * 2 * 36 * 256);
    let image = Layout::small(&[FAT, FREE, FREE]).bytes();
    let opened = Opened::of(&Case { image: &image, used: 2048, mode: 1, lengths: [3; 5] }).unwrap();
    let (entry, id): (&[u32], &[u32]) = (&[2, FREE, FAT], &[0, 1, 2]);
    let mut digits = vec![&[1, 2, 3][..], entry, entry, entry, bit, &[0], bit, bit, &[0], &[0]];
    digits.extend([id, id, id, bit, bit, bit]);
    assert_eq!(every_table(&mut tally, &opened, &digits), 2);
    assert_eq!((tally.compared(), tally.0[19]), (324_288, 324_276));
}
