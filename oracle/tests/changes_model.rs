//! The calls that change a chain against the model, with no Rust at hand: number, answer, id list, state, image and every
//! table to their ends.

use oracle::abi::{self, Handed, State, Tables};
use oracle::calls::{self, scratch, Opened};
use oracle::changed::{self, Call, Change, Holding, Outcome};
use oracle::edits::{self, buffer};
use oracle::held::Case;
use oracle::inputs::{put32, END, FREE};
use oracle::layout::{Layout, DIFAT, FAT};
use oracle::openings::room;
use oracle::random::Random;
use oracle::{lengths, tamper};

/// How often each answer was met.
#[derive(Default, Debug)]
struct Tally([u64; 27]);

impl Tally {
    fn see(&mut self, holding: &mut Holding, call: &Call) -> u32 {
        let number = changed::same(holding, call).number;
        self.0[number as usize] += 1;
        number
    }

    fn compared(&self) -> u64 {
        self.0.iter().sum()
    }

    /// Each of these answers was met so often.
    fn has(&self, numbers: impl IntoIterator<Item = usize>, times: u64) {
        for number in numbers {
            assert!(self.0[number] >= times, "{number} in {self:?}");
        }
    }
}

/// Makes one change.
fn make(holding: &mut Holding, start: u32, change: Change) -> Outcome {
    let ids = scratch(0, holding.room());
    changed::same(holding, &Call { ids: &ids, start, change: &change })
}

/// Makes one change of a copy.
fn after(holding: &Holding, start: u32, change: Change) -> (Holding, Outcome) {
    let mut copy = holding.clone();
    let outcome = make(&mut copy, start, change);
    (copy, outcome)
}

/// Image Q with its room of 7.
fn q() -> Holding {
    Holding::strict(Layout::q().bytes(), 1)
}

/// The ids of an outcome.
fn ids(outcome: &Outcome) -> &[u32] {
    &outcome.ids[..outcome.answer[0] as usize]
}

/// The bytes of a chain.
fn bytes(holding: &Holding, ids: &[u32]) -> Vec<u8> {
    ids.iter().flat_map(|&id| holding.sector(id)).copied().collect()
}

/// What the sectors of Q are full of.
fn full(ids: &[u8]) -> Vec<u8> {
    ids.iter().flat_map(|&id| [0xa0 + id; 512]).collect()
}

/// Case 2: 600 bytes at 1,536.
#[test]
fn case_2() {
    let (held, outcome) = after(&q(), 1, Change::Write(1536, vec![0x77; 600]));
    assert_eq!((outcome.number, outcome.answer, ids(&outcome)), (0, [5, 1, 600], &[1, 2, 3, 5, 4][..]));
    assert_eq!(outcome.ids, [1, 2, 3, 5, 4, 0, 0]);
    let chain = bytes(&held, ids(&outcome));
    assert_eq!(chain[..1536], full(&[1, 2, 3]));
    assert_eq!(chain[1536..2136], [0x77; 600]);
    assert_eq!(chain[2136..2560], [0; 424]);
    assert_eq!(held.tables.fat, [FAT, 2, 3, 5, END, 4, 0]);
    assert_eq!((held.tables.frees, held.tables.marks), (vec![0; 7], vec![0, 0, 1, 1, 1, 1, 0]));
    assert_eq!(held.state[..4], [1, 3584, 6, 0]);
}

/// Case 3: at 1,537; without a byte too.
#[test]
fn case_3() {
    for length in [0, 1, 600] {
        let (held, outcome) = after(&q(), 1, Change::Write(1537, buffer(length)));
        assert_eq!((outcome.number, outcome.answer, &outcome.ids[..]), (23, [0; 3], &[0; 7][..]));
        assert_eq!(held, q());
    }
}

/// Case 4: to 1,536, 1,300 and 1,537.
#[test]
fn case_4() {
    let (held, outcome) = after(&q(), 1, Change::Resize(1536));
    assert_eq!((outcome.number, outcome.answer, &outcome.ids[..]), (0, [3, 1, 0], &[1, 2, 3, 0, 0, 0, 0][..]));
    assert_eq!(held, q());

    let (held, outcome) = after(&q(), 1, Change::Resize(1300));
    assert_eq!((outcome.answer, ids(&outcome)), ([3, 1, 0], &[1, 2, 3][..]));
    let chain = bytes(&held, &[1, 2, 3]);
    assert_eq!(chain[..1300], full(&[1, 2, 3])[..1300]);
    assert_eq!(chain[1300..], [0; 236]);
    assert_eq!((held.state, held.tables), (q().state, q().tables));

    let (held, outcome) = after(&q(), 1, Change::Resize(1537));
    assert_eq!((outcome.answer, ids(&outcome)), ([4, 1, 0], &[1, 2, 3, 5][..]));
    assert_eq!(bytes(&held, &[1, 2, 3, 5]), [full(&[1, 2, 3]), vec![0; 512]].concat());
    assert_eq!((held.frees(), held.n()), (&[4][..], 6));
}

/// Case 5: to 513 and 512.
#[test]
fn case_5() {
    let (held, outcome) = after(&q(), 1, Change::Resize(513));
    assert_eq!((outcome.answer, &outcome.ids[..]), ([2, 1, 0], &[1, 2, 0, 0, 0, 0, 0][..]));
    assert_eq!(held.frees(), [4, 5, 3]);
    let chain = bytes(&held, &[1, 2]);
    assert_eq!(chain[..513], full(&[1, 2])[..513]);
    assert_eq!(chain[513..1024], [0; 511]);
    assert_eq!(held.tables.fat, [FAT, 2, END, FREE, FREE, FREE, 0]);

    let (held, outcome) = after(&q(), 1, Change::Resize(512));
    assert_eq!((outcome.answer, ids(&outcome)), ([1, 1, 0], &[1][..]));
    assert_eq!(held.frees(), [4, 5, 2, 3]);
    // All sectors but the FAT sector keep their bytes.
    assert_eq!(held.image[1024..], q().image[1024..]);
}

/// Case 6: to 0, and freed.
#[test]
fn case_6() {
    let (held, outcome) = after(&q(), 1, Change::Resize(0));
    assert_eq!((outcome.number, outcome.answer, &outcome.ids[..]), (0, [0, END.into(), 0], &[0; 7][..]));
    assert_eq!(held.frees(), [4, 5, 1, 2, 3]);
    assert_eq!(held.tables.fat, [FAT, FREE, FREE, FREE, FREE, FREE, 0]);
    assert_eq!(held.tables.marks, [0; 7]);
    assert_eq!(held.state[..4], [1, 3584, 6, 5]);
    assert_eq!(held.image[1024..], q().image[1024..]);
    assert_eq!(after(&q(), 1, Change::Free), (held, outcome));
}

/// Case 7: to 3,072, and to 3,584.
#[test]
fn case_7() {
    let (held, outcome) = after(&q(), 1, Change::Resize(3072));
    assert_eq!((outcome.answer, &outcome.ids[..]), ([6, 1, 0], &[1, 2, 3, 5, 4, 6, 0][..]));
    assert_eq!(held.state[..4], [1, 4096, 7, 0]);
    assert_eq!(bytes(&held, &[5, 4, 6]), [0; 1536]);
    assert_eq!(held.tables.fat, [FAT, 2, 3, 5, 6, 4, END]);
    let (held, outcome) = after(&q(), 1, Change::Resize(3584));
    assert_eq!((outcome.number, outcome.answer, &outcome.ids[..]), (24, [0; 3], &[0; 7][..]));
    assert_eq!(held, q());
    assert_eq!([3072, 3073].map(|length| after(&q(), 1, Change::Resize(length)).1.number), [0, 24]);
}

/// Changes of every kind, some of them to no effect.
fn changes() -> [Change; 7] {
    let writes = [(0, 0), (0, 1), (u64::MAX, 1)].map(|(offset, length)| Change::Write(offset, buffer(length)));
    let [none, one, past] = writes;
    [none, one, past, Change::Resize(1024), Change::Resize(0), Change::Resize(u64::MAX), Change::Free]
}

/// Case 8: starts 2, 4 and 6.
#[test]
fn case_8() {
    for (start, number) in [(2, 25), (4, 21), (6, 20), (3, 25), (0, 21), (5, 21), (7, 20), (FREE, 20), (FAT, 20)] {
        for change in changes() {
            let (held, outcome) = after(&q(), start, change);
            assert_eq!((outcome.number, outcome.answer, &outcome.ids[..]), (number, [0; 3], &[0; 7][..]));
            assert_eq!(held, q());
        }
    }
}

/// Case 9: the first byte of an image that has only a header.
#[test]
fn case_9() {
    let header = Layout::plain(3, 0).bytes();
    let (held, outcome) = after(&Holding::strict(header.clone(), 2), END, Change::Write(0, vec![9]));
    assert_eq!((outcome.number, outcome.answer, &outcome.ids[..]), (0, [1, 1, 1], &[1, 0][..]));
    assert_eq!((&held.tables.fat[..], &held.tables.fats[..]), (&[FAT, END][..], &[0, 0][..]));
    assert_eq!([44, 76].map(|at| held.image[at..at + 4].to_vec()), [vec![1, 0, 0, 0], vec![0; 4]]);
    assert_eq!(held.sector(0)[..8], [0xfd, 0xff, 0xff, 0xff, 0xfe, 0xff, 0xff, 0xff]);
    assert_eq!(held.sector(0)[8..], [0xff; 504]);
    assert_eq!((held.sector(1)[0], &held.sector(1)[1..]), (9, &[0; 511][..]));
    let mut expected = header.clone();
    put32(&mut expected, 44, 1);
    put32(&mut expected, 76, 0);
    assert_eq!(held.image[..512], expected);
    let less = Holding::strict(header, 1);
    let (held, outcome) = after(&less, END, Change::Write(0, vec![9]));
    assert_eq!((outcome.number, &outcome.ids[..]), (24, &[0][..]));
    assert_eq!(held, less);
}

/// A chain of a full image, and its length.
fn only_chain(holding: &Holding) -> (u32, u64) {
    let count = holding.n() - holding.listed_sectors().iter().sum::<usize>();
    let start = (0..holding.n() as u32).find(|&id| holding.listed(id) == Some(count));
    (start.unwrap_or(END), (count * holding.length()) as u64)
}

/// Case 11: 128 sectors in use, and one more.
#[test]
fn case_11() {
    let mut random = Random::new("case 11");
    let held = edits::full(&mut random, 3, 128, 2);
    let (start, end) = only_chain(&held);
    for change in [Change::Resize(end + 1), Change::Write(end, buffer(512))] {
        let (held, outcome) = after(&held, start, change.clone());
        assert_eq!((outcome.number, ids(&outcome).last()), (0, Some(&129)));
        assert_eq!((&held.tables.fat[128..], &held.tables.fats[..2]), (&[FAT, END][..], &[0, 128][..]));
        assert_eq!((held.n(), held.listed_sectors()), (130, [2, 0]));
        assert_eq!([44, 80].map(|at| held.image[at..at + 4].to_vec()), [vec![2, 0, 0, 0], vec![128, 0, 0, 0]]);
        let less = edits::full(&mut random, 3, 128, 1);
        let (start, _) = only_chain(&less);
        assert_eq!(after(&less, start, change).1.number, 24);
    }
}

/// Case 12: 13,952 sectors in use, and one more.
#[test]
fn case_12() {
    let mut random = Random::new("case 12");
    let first = edits::full(&mut random, 3, 13_952, 3);
    let (start, end) = only_chain(&first);
    for change in [Change::Resize(end + 512), Change::Write(end, vec![1])] {
        let (held, outcome) = after(&first, start, change.clone());
        assert_eq!((outcome.number, ids(&outcome).last()), (0, Some(&13_954)));
        assert_eq!(held.tables.fat[13_952..], [FAT, DIFAT, END]);
        assert_eq!((held.tables.fats[109], held.tables.difats[0], held.listed_sectors()), (13_952, 13_953, [110, 1]));
        let word = |at: usize| u32::from_le_bytes(held.image[at..at + 4].try_into().unwrap());
        assert_eq!([44, 68, 72].map(word), [110, 13_953, 1]);
        let difat = held.sector(13_953);
        assert_eq!((&difat[..4], &difat[508..]), (&13_952u32.to_le_bytes()[..], &END.to_le_bytes()[..]));
        assert_eq!(difat[4..508], [0xff; 504]);
        let less = Holding { image: first.image[..first.image.len() - 512].to_vec(), ..first.clone() };
        assert_eq!((less.room(), after(&less, start, change).1.number), (13_954, 24));
    }
}

/// Version, sectors in use, how many the chain takes, how many there are then: FAT and DIFAT sectors among them.
const ROOMS: [(u16, usize, usize, usize); 22] = [
    (3, 0, 1, 2),
    (3, 0, 127, 128),
    (3, 0, 128, 130),
    (3, 1, 1, 2),
    (3, 6, 3, 9),
    (3, 127, 1, 128),
    (3, 127, 2, 130),
    (3, 128, 1, 130),
    (3, 128, 127, 256),
    (3, 128, 128, 258),
    (3, 128, 300, 431),
    (4, 0, 1, 2),
    (4, 1_023, 1, 1_024),
    (4, 1_024, 1, 1_026),
    (3, 13_951, 1, 13_952),
    (3, 13_951, 2, 13_955),
    (3, 13_952, 1, 13_955),
    (3, 13_952, 126, 14_080),
    (3, 13_952, 127, 14_082),
    (3, 14_079, 2, 14_082),
    (3, 14_080, 1, 14_082),
    (3, 16_256, 127, 16_384),
];

/// A room that is one too small, just enough, one more: 24 only at the first.
#[test]
fn around_the_room() {
    let mut random = Random::new("around the room");
    for (version, n, wanted, total) in ROOMS {
        let mut held = edits::full(&mut random, version, n, total - n + 1);
        let length = held.length();
        let (start, end) = only_chain(&held);
        for (less, number) in [(0, 0), (1, 0), (2, 24)] {
            held.image.truncate((total + 2 - less) * length);
            let grown = end + (wanted * length) as u64;
            for (start, change) in [
                (start, Change::Resize(grown)),
                (start, Change::Resize(grown - 1)),
                (start, Change::Write(end, buffer(wanted * length))),
                (END, Change::Write(0, buffer(wanted * length - length + 1))),
                (END, Change::Resize((wanted * length) as u64)),
            ] {
                let (after, outcome) = after(&held, start, change);
                assert_eq!(outcome.number, number, "{version} {n} {wanted} {less}");
                assert_eq!(after.n(), if outcome.number == 0 { total } else { n });
            }
        }
    }
}

/// FREE sectors are taken first: a room that holds no more sectors than there are is enough for so many.
#[test]
fn free_sectors_in_a_full_room() {
    for free in 0..5 {
        let mut layout = Layout::plain(3, 2 + free);
        layout.entries[1] = END;
        let held = Holding::strict(layout.bytes(), 0);
        for more in 0..=free + 2 {
            let (_, outcome) = after(&held, 1, Change::Resize(512 * (1 + more as u64)));
            assert_eq!(outcome.number, if more <= free { 0 } else { 24 });
            let expected: Vec<u32> = [1].into_iter().chain((2..2 + free as u32).rev().take(more)).collect();
            assert!(more > free || ids(&outcome) == expected);
        }
    }
}

/// No room is enough for these, in a short lent image and in one with as much room as may be.
#[test]
fn too_long() {
    let numbers = edits::TOO_LONG.into_iter().chain([(1 << 25) + 512, 16_385 * 512]);
    let numbers = numbers.chain((26..64).flat_map(|bit| [1 << bit, (1 << bit) + 1, (1 << bit) + 512]));
    let numbers: Vec<u64> = numbers.chain((0..1030).map(|less| u64::MAX - less)).collect();
    let large = Holding::strict(Layout::q().bytes(), 16_390);
    assert_eq!(large.room(), 16_384);
    let mut compared = 0;
    for (held, few) in [(&q(), 1), (&large, 40)] {
        for &number in numbers.iter().step_by(few) {
            for start in [1, END] {
                let (same, outcome) = after(held, start, Change::Resize(number));
                assert_eq!((outcome.number, outcome.answer), (24, [0; 3]), "{number:x}");
                assert!(same == *held);
                let (same, outcome) = after(held, start, Change::Write(number, buffer(1)));
                assert_eq!((outcome.number, outcome.answer), (23, [0; 3]), "{number:x}");
                assert!(same == *held);
                compared += 1;
            }
        }
    }
    assert_eq!(compared, 2_382);
}

/// The largest room has 16,255 data sectors, beside 128 FAT sectors and a DIFAT sector, and no more.
#[test]
fn all_of_the_room() {
    let header = Holding::strict(Layout::plain(3, 0).bytes(), 16_400);
    let most = 16_384 - 128 - 1;
    let (held, outcome) = after(&header, END, Change::Resize(512 * most));
    assert_eq!((outcome.number, held.n(), held.listed_sectors()), (0, 16_384, [128, 1]));
    assert_eq!(after(&header, END, Change::Resize(512 * most + 1)).1.number, 24);
    let again = make(&mut held.clone(), ids(&outcome)[0], Change::Resize(512 * most + 1));
    assert_eq!(again.number, 24);
    let (freed, outcome) = after(&held, ids(&outcome)[0], Change::Free);
    assert_eq!((outcome.number, freed.n(), freed.frees().len()), (0, 16_384, most as usize));
}

/// END is an empty chain: no change of it has an effect but one that needs a sector.
#[test]
fn empty_chain() {
    for held in [q(), Holding::strict(Layout::plain(3, 0).bytes(), 0), Holding::strict(Layout::plain(4, 0).bytes(), 0)]
    {
        for change in [Change::Write(0, vec![]), Change::Resize(0), Change::Free] {
            let (same, outcome) = after(&held, END, change);
            assert_eq!((outcome.number, outcome.answer), (0, [0, END.into(), 0]));
            assert!(same == held && outcome.ids.iter().all(|&id| id == 0));
        }
        assert_eq!([0, 1].map(|length| after(&held, END, Change::Write(1, buffer(length))).1.number), [23; 2]);
    }
    let (held, outcome) = after(&q(), END, Change::Resize(513));
    assert_eq!((outcome.answer, ids(&outcome), held.frees().len()), ([2, 5, 0], &[5, 4][..], 0));
}

/// 26: every change of a permissive state, whatever its start; but 11 and 19 before it.
#[test]
fn permissive() {
    let mut compared = 0;
    let mut see = |held: &Holding| {
        let long = scratch(1, held.room());
        for start in (0..=held.n() as u32).chain([END, FREE, FAT]) {
            for change in changes() {
                let mut copy = held.clone();
                let outcome = changed::same(&mut copy, &Call { ids: &long, start, change: &change });
                assert_eq!((outcome.number, outcome.answer), (26, [0; 3]));
                if held.room() > 0 {
                    let outcome = changed::same(&mut copy, &Call { ids: &long[1..], start, change: &change });
                    assert_eq!(outcome.number, 11);
                }
                copy.state[abi::FREES] ^= 1;
                let outcome = changed::same(&mut copy, &Call { ids: &long, start, change: &change });
                assert_eq!(outcome.number, 19);
                compared += 1;
            }
        }
    };
    calls::images(&mut Random::new("permissive changes"), &[0, 1, 2, 5, 9, 129], &[0, 1, 3], &mut |opened| {
        if opened.state[abi::MODE] == 0 {
            see(&holding_of(opened));
        }
    });
    assert!(compared > 3_000, "{compared}");
}

/// What an opening gave, to be changed.
fn holding_of(opened: &Opened) -> Holding {
    Holding { state: opened.state, image: opened.image.to_vec(), tables: opened.tables.clone() }
}

/// A mode is a matter of agreement: a strict state that says permissive is 26, a permissive one that says strict is changed.
#[test]
fn flipped_modes() {
    let mut strict = q();
    strict.state[abi::MODE] = 0;
    assert_eq!(make(&mut strict, 1, Change::Free).number, 26);
    let (image, used) = (q().image, 3584);
    let mut permissive = Holding::of(image, used, 0, [7; 5]).unwrap();
    assert_eq!(make(&mut permissive, 1, Change::Free).number, 26);
    permissive.state[abi::MODE] = 1;
    assert_eq!(make(&mut permissive, 1, Change::Free).number, 0);
    // Directory sectors in version 3, no mark of the FAT sector, a pointer past the end.
    for (at, number) in [(40, 1), (512, END), (524, 6)] {
        let mut image = q().image;
        put32(&mut image, at, number);
        let mut permissive = Holding::of(image, used, 0, [7; 5]).unwrap();
        permissive.state[abi::MODE] = 1;
        assert_eq!(make(&mut permissive, 1, Change::Free).number, 19);
    }
}

/// 25: every change from inside a chain, one without effect too; 22 and 21 come before it, 23 and 24 after.
#[test]
fn inside_a_chain() {
    // A chain 1, 2; a loop 3, 4; one that runs into the FAT sector, 5, 6.
    let layout = Layout::small(&[FAT, 2, END, 4, 3, 6, 0]);
    let held = Holding::strict(layout.bytes(), 1);
    for (start, number) in [(2, 25), (3, 22), (4, 22), (5, 21), (6, 21), (0, 21)] {
        for change in changes() {
            assert_eq!(after(&held, start, change).1.number, number);
        }
        assert_eq!(after(&held, start, Change::Resize(512)).1.number, number);
        assert_eq!(after(&held, start, Change::Write(513, vec![])).1.number, number);
    }
}

/// Lists of random changes, the id list and the bytes past the end full of rubbish, the tables longer than the room.
fn lists(name: &str, changes: u64, version: u16, sectors: impl Fn(&mut Random) -> usize) -> Tally {
    let mut tally = Tally::default();
    let mut random = Random::new(name);
    while tally.0[0] < changes {
        let (n, more) = (sectors(&mut random), random.pick(&[0, 0, 1, 2, 3, 5, 9]));
        let mut held = edits::holding(&mut random, version, n, more);
        for _ in 0..25 {
            if random.once_in(3) {
                edits::permute(&mut random, &mut held);
            }
            let ids = scratch(random.below(6), held.room() + random.below(4));
            let (start, change) = edits::next(&mut random, &held, 5);
            tally.see(&mut held, &Call { ids: &ids, start, change: &change });
        }
    }
    tally
}

#[test]
fn random_lists() {
    let tally = lists("model changes", 150_000, 3, |random| random.below(24));
    tally.has(20..26, 200);
}

#[test]
fn random_lists_of_the_fourth_version() {
    let tally = lists("model changes, fourth", 15_000, 4, |random| random.below(6));
    tally.has(20..26, 10);
}

#[test]
fn random_lists_around_a_fat_sector() {
    let tally = lists("model changes, 128", 20_000, 3, |random| 120 + random.below(12));
    tally.has(20..26, 20);
}

/// Every image of at most 2 sectors that opens strictly, and of 3 with the FAT sector first: changes around every edge from
/// every start.
#[test]
fn every_small_image() {
    let mut tally = Tally::default();
    let mut round = 0;
    let mut see = |held: &Holding| {
        edits::each(held, &mut |start, change| {
            round += 1;
            let ids = scratch(round, held.room());
            tally.see(&mut held.clone(), &Call { ids: &ids, start, change });
        });
    };
    for (n, place) in [(0, 0), (1, 0), (2, 0), (2, 1), (3, 0)] {
        [0, 1, 2].into_iter().for_each(|more| edits::every_fat(3, n, place, more, &mut see));
    }
    edits::every_fat(4, 1, 0, 1, &mut see);
    let expected = [2_879, 26_775, 18_870, 2_448, 2_676, 2_336, 306];
    assert_eq!([0, 20, 21, 22, 23, 24, 25].map(|number| tally.0[number]), expected);
    assert_eq!(tally.compared(), 56_290);
}

/// Holds a change whose state or tables are others than the opening's, of every kind in turn.
fn tampered(tally: &mut Tally, opened: &Opened, state: &State, tables: &Tables, round: &mut usize) -> u32 {
    *round += 1;
    let ids = scratch(*round, opened.ids.len());
    let change = &changes()[*round % 7];
    let start = if *round % 2 == 0 { END } else { (*round % (opened.n() + 1)) as u32 };
    let mut held = Holding { state: *state, image: opened.image.to_vec(), tables: tables.clone() };
    tally.see(&mut held, &Call { ids: &ids, start, change })
}

/// Images whose states and tables are changed.
fn to_tamper_with(name: &str, see: &mut impl FnMut(&Opened)) {
    let held = q();
    let free = Layout::plain(3, 20).bytes();
    see(&Opened::of(&Case { image: &held.image, used: 3584, mode: 1, lengths: [7, 8, 9, 10, 11] }).unwrap());
    see(&Opened::of(&Case { image: &free, used: 512 * 21, mode: 1, lengths: [21; 5] }).unwrap());
    calls::images(&mut Random::new(name), &[0, 1, 2, 3, 5, 9, 14, 129], &[0, 1, 3], see);
}

/// 19: every word of the state, changed alone; but a mode that agrees, and a version that asks for longer tables.
#[test]
fn every_word_of_the_state() {
    let (mut tally, mut round, mut modes, mut rooms) = (Tally::default(), 0, 0, 0);
    to_tamper_with("tampered states, changes", &mut |opened| {
        tamper::states(opened, &mut |place, state| {
            let number = tampered(&mut tally, opened, state, &opened.tables, &mut round);
            if place == abi::MODE && state[place] < 2 {
                let (used, mode) = (state[abi::USED] as usize, state[abi::MODE] as u32);
                let case = Case { image: opened.image, used, mode, lengths: opened.tables.lengths() };
                assert_eq!(number == 19, Opened::of(&case).is_none());
                assert!(mode == 1 || number == 26);
                modes += 1;
            } else if place == abi::HEADER && (state[place], opened.length()) == (3, 4096) {
                let short = room(3, opened.image.len()) > opened.ids.len();
                assert_eq!(number, if short { 11 } else { 19 });
                rooms += u64::from(short);
            } else {
                assert_eq!(number, 19, "{place} {:x}", state[place]);
            }
        });
    });
    assert!(tally.0[19] > 50_000 && modes > 20 && rooms > 8, "{tally:?} {modes} {rooms}");
}

/// 19: every element of every table, changed alone, those past its count and past the room too; free lists that are not the
/// FREE sectors; two elements that changed places, but for two of the free list.
#[test]
fn every_element_of_the_tables() {
    let (mut tally, mut round) = (Tally::default(), 0);
    to_tamper_with("tampered tables, changes", &mut |opened| {
        tamper::tables(opened, 60, &mut |tables| {
            assert_eq!(tampered(&mut tally, opened, &opened.state, tables, &mut round), 19);
        });
        tamper::free_lists(opened, 12, &mut |tables| {
            assert_eq!(tampered(&mut tally, opened, &opened.state, tables, &mut round), 19);
        });
        tamper::swapped(opened, 12, &mut |free, tables| {
            assert_eq!(tampered(&mut tally, opened, &opened.state, tables, &mut round) == 19, !free);
        });
    });
    assert!(tally.0[19] > 30_000, "{tally:?}");
}

/// Q with its tables and state after every change of a byte of its header and FAT: 19, or the byte has no part in them.
#[test]
fn every_byte_of_the_image() {
    let mut tally = Tally::default();
    let held = q();
    let mut unseen = Vec::new();
    for at in 0..1024 {
        for other in [0, 1, 0xff, held.image[at] ^ 0x80].into_iter().filter(|&other| other != held.image[at]) {
            let mut other_held = held.clone();
            other_held.image[at] = other;
            let ids = scratch(at, 7);
            let call = Call { ids: &ids, start: 1, change: &Change::Write(1536, buffer(600)) };
            if tally.see(&mut other_held, &call) == 0 {
                unseen.push(at);
            }
        }
    }
    unseen.dedup();
    let expected: Vec<usize> = (8..26).chain(34..40).chain(52..56).chain([68]).collect();
    assert_eq!(unseen, expected);
    assert_eq!((tally.compared(), tally.0[0], tally.0[19]), (3_092, 86, 3_006));
}

/// The tables cut or with zeros after them.
fn resized(tables: &Tables, lengths: &[usize]) -> Tables {
    let mut tables = tables.clone();
    let all = [&mut tables.fat, &mut tables.fats, &mut tables.difats, &mut tables.frees];
    all.into_iter().zip(lengths).for_each(|(table, &length)| table.resize(length, 0));
    tables.marks.resize(lengths[4], 0);
    tables
}

/// Six lengths around the room, for the tables and the id list together.
#[test]
fn every_length() {
    let mut tally = Tally::default();
    let mut random = Random::new("model lengths, changes");
    for (version, n, more) in [(3, 0, 0), (3, 0, 2), (3, 6, 1), (4, 1, 1)] {
        let held = Holding::strict(Layout::random(&mut random, version, n).noisy(&mut random), more);
        let room = held.room();
        let each = lengths::table_lengths(room);
        for word in 0..each.len().pow(6) {
            let lengths: [usize; 6] = std::array::from_fn(|at| each[word / each.len().pow(at as u32) % each.len()]);
            let mut copy = Holding { tables: resized(&held.tables, &lengths), ..held.clone() };
            let ids = scratch(word, lengths[5]);
            let any = random.below(n + 1) as u32;
            let start = random.pick(&[END, any]);
            let number = tally.see(&mut copy, &Call { ids: &ids, start, change: &changes()[word % 7] });
            assert_eq!(number == 11, lengths.iter().any(|&length| length < room));
        }
    }
    assert_eq!((tally.compared(), tally.0[11], tally.0[19]), (47_604, 44_688, 0));
}

/// The image lent shorter than it was, or longer: the room goes by that, and then 19 where less is lent than is used.
#[test]
fn lent_lengths() {
    let mut tally = Tally::default();
    for (version, n) in [(3, 0), (3, 6), (4, 1)] {
        let held = Holding::strict(Layout::plain(version, n).bytes(), 3);
        let (length, used) = (held.length(), held.used().len());
        for edge in 0..=n + 4 {
            for lent in [edge * length, edge * length + 1, edge * length + 511, (edge + 1) * length - 1] {
                let mut copy = held.clone();
                copy.image.resize(lent, 0);
                copy.tables = resized(&held.tables, &[n + 2; 5]);
                let call = Call { ids: &scratch(edge, n + 2), start: END, change: &Change::Resize(1) };
                let number = tally.see(&mut copy, &call);
                assert_eq!(number == 11, room(version, lent) > n + 2);
                assert_eq!(number == 19, lent < used);
            }
        }
    }
    assert_eq!([0, 11, 19, 24].map(|number| tally.0[number]), [24, 12, 40, 12]);
}

/// Words that are no state are 19 before 11, and the ids are zero then; the words stay.
#[test]
fn no_state() {
    let mut compared = 0;
    let held = q();
    let mut see = |place: usize, word: u64| {
        for lengths in [[0; 5], [7; 5]] {
            for ids in [&[][..], &[7], &[8; 7]] {
                for change in changes() {
                    let mut copy = Holding { tables: resized(&held.tables, &lengths), ..held.clone() };
                    copy.state[place] = word;
                    let outcome = changed::same(&mut copy, &Call { ids, start: END, change: &change });
                    assert_eq!(outcome.number, 19);
                    compared += 1;
                }
            }
        }
    };
    [2, 1 << 32, u64::MAX].into_iter().for_each(|word| see(abi::MODE, word));
    [0, 2, 5, 3 + (1 << 32)].into_iter().for_each(|word| see(abi::HEADER + abi::VERSION, word));
    for place in abi::HEADER..121 {
        [1 << 32, u64::MAX].into_iter().for_each(|more| see(place, held.state[place] | more));
    }
    assert_eq!(compared, 42 * (3 + 4 + 117 * 2));
    // Of a state the lengths are asked first.
    let mut copy = Holding { tables: Tables::zero([0; 5]), ..held.clone() };
    assert_eq!(make(&mut copy, 1, Change::Free).number, 11);
}

/// Image and buffer may begin at any place: each from 0 to 15 in a longer one.
#[test]
fn at_any_place() {
    let mut random = Random::new("places, changes");
    let mut compared = 0;
    for (version, n) in [(3, 6), (3, 9), (4, 2)] {
        let held = edits::holding(&mut random, version, n, 2);
        for place in 0..16 {
            for (start, change) in (0..40).map(|_| edits::next(&mut random, &held, 3)) {
                let Change::Write(offset, buf) = change else { continue };
                let mut around = vec![0x99; held.image.len() + 16];
                let image = &mut around[place..place + held.image.len()];
                image.copy_from_slice(&held.image);
                let bytes = [vec![0x55; 15 - place], buf.clone()].concat();
                let (mut state, mut tables) = (held.state, held.tables.clone());
                let (mut ids, mut answer) = (scratch(place, held.room()), [5; 3]);
                let mut handed = Handed { state: &mut state, image, tables: &mut tables };
                let number = abi::write_chain(&mut handed, &mut ids, start, offset, &bytes[15 - place..], &mut answer);
                let mut copy = held.clone();
                let expected = make(&mut copy, start, Change::Write(offset, buf));
                assert_eq!((number, answer, ids), (expected.number, expected.answer, expected.ids));
                assert!(copy.image == around[place..place + held.image.len()]);
                assert!(copy.state == state && copy.tables == tables);
                let end = place + held.image.len();
                assert!(around[..place].iter().chain(&around[end..]).all(|&byte| byte == 0x99));
                compared += 1;
            }
        }
    }
    assert!(compared > 500, "{compared}");
}

/// The order of the free list steers which sectors are taken: every order of three.
#[test]
fn permuted_free_lists() {
    let held = Holding::strict(Layout::small(&[FAT, END, FREE, FREE, FREE]).bytes(), 1);
    for order in [[2, 3, 4], [2, 4, 3], [3, 2, 4], [3, 4, 2], [4, 2, 3], [4, 3, 2]] {
        let mut held = held.clone();
        held.tables.frees[..3].copy_from_slice(&order);
        let mut expected = vec![1];
        expected.extend(order.iter().rev());
        expected.push(5);
        for taken in 1..=4 {
            let (after, outcome) = after(&held, 1, Change::Resize(512 * (taken as u64 + 1)));
            assert_eq!(ids(&outcome), &expected[..taken + 1]);
            assert_eq!(after.frees(), &order[..3 - taken.min(3)]);
            // Given back, they stand in chain order behind the others.
            let (back, _) = self::after(&after, 1, Change::Resize(1));
            let mut frees = after.frees().to_vec();
            frees.extend(&expected[1..taken + 1]);
            assert_eq!(back.frees(), frees);
        }
    }
}

/// State, image and tables of three openings of images as long: only those of one go together.
#[test]
fn mixed() {
    let mut tally = Tally::default();
    let mut all = Vec::new();
    edits::every_fat(3, 3, 0, 1, &mut |held| all.push(held.clone()));
    let mut random = Random::new("mixed changes");
    for round in 0..30_000 {
        let [a, b, c] = [(); 3].map(|()| &all[random.below(all.len())]);
        let pick = |random: &mut Random| random.pick(&[a, a, b, c]);
        let (one, two, three) = (pick(&mut random), pick(&mut random), pick(&mut random));
        let mut held = Holding { state: one.state, image: two.image.clone(), tables: three.tables.clone() };
        let start = random.pick(&[END, 0, 1, 2, 3]);
        tally.see(&mut held, &Call { ids: &scratch(round, 4), start, change: &changes()[random.below(7)] });
    }
    tally.has([0, 19, 20, 21, 22, 23, 24, 25], 20);
}
