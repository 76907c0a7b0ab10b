//! One call that changes a chain, asked of the library and of the model on copies of the same.

use crate::abi::{self, Answer, Handed, State, Tables};
use crate::called::{between, first, inside, taken_out};
use crate::inputs::END;
use crate::layout::{length_of, FATS_AT, FIRST_DIFAT_AT};
use crate::model;
use crate::openings::room;

/// What is lent to be changed, and handed from one call to the next.
#[derive(Clone, Debug, PartialEq, Eq)]
pub struct Holding {
    pub state: State,
    pub image: Vec<u8>,
    pub tables: Tables,
}

/// What a call asks for.
#[derive(Clone, Debug, PartialEq, Eq)]
pub enum Change {
    Write(u64, Vec<u8>),
    Resize(u64),
    Free,
}

/// A call: what the id list holds before it, the start, the change.
#[derive(Clone, Copy)]
pub struct Call<'a> {
    pub ids: &'a [u32],
    pub start: u32,
    pub change: &'a Change,
}

/// What came back beside the holding.
#[derive(Clone, Debug, PartialEq, Eq)]
pub struct Outcome {
    pub number: u32,
    pub answer: Answer,
    pub ids: Vec<u32>,
}

/// What stands around an id list and around an image, and must stay.
const ID_AROUND: u32 = 0xabcd_ef01;
const BYTE_AROUND: u8 = 0xf7;

type Write = fn(&mut Handed, &mut [u32], u32, u64, &[u8], &mut Answer) -> u32;
type Resize = fn(&mut Handed, &mut [u32], u32, u64, &mut Answer) -> u32;
type Free = fn(&mut Handed, &mut [u32], u32, &mut Answer) -> u32;

/// Makes the call of these three functions.
fn made(holding: &mut Holding, call: &Call, write: Write, resize: Resize, free: Free) -> Outcome {
    let mut ids = between(call.ids, ID_AROUND);
    let mut image = between(&holding.image, BYTE_AROUND);
    let mut answer = [0x1111_2222_3333_4444; 3];
    let Holding { state, tables, .. } = holding;
    let mut handed = Handed { state, image: inside(&mut image), tables };
    let list = inside(&mut ids);
    let number = match call.change {
        Change::Write(offset, buf) => write(&mut handed, list, call.start, *offset, buf, &mut answer),
        Change::Resize(length) => resize(&mut handed, list, call.start, *length, &mut answer),
        Change::Free => free(&mut handed, list, call.start, &mut answer),
    };
    holding.image = taken_out(image, BYTE_AROUND);
    Outcome { number, answer, ids: taken_out(ids, ID_AROUND) }
}

/// Asks the library alone. What is left, after a change or after a refusal, must be whole.
pub fn ask(holding: &mut Holding, call: &Call) -> Outcome {
    let before = holding.clone();
    let outcome = made(holding, call, abi::write_chain, abi::resize_chain, abi::free_chain);
    if outcome.number == 0 {
        outcome.is_a_change(&before, holding, call);
    } else {
        outcome.is_a_refusal(call);
        assert!(before.state == holding.state, "{} changed the state", outcome.number);
        assert!(before.tables == holding.tables, "{} changed a table", outcome.number);
        assert!(before.image == holding.image, "{} changed the image", outcome.number);
    }
    outcome
}

/// Asks the library and the model; all that comes back must be the same.
pub fn same(holding: &mut Holding, call: &Call) -> Outcome {
    let before = holding.clone();
    let mut models = holding.clone();
    let ours = ask(holding, call);
    let other = made(&mut models, call, model::write_chain, model::resize_chain, model::free_chain);
    assert_eq!((ours.number, ours.answer), (other.number, other.answer), "{}", before.told(call));
    assert!(ours.ids == other.ids, "ids {:?}, the model has {:?}: {}", ours.ids, other.ids, before.told(call));
    assert!(holding.state == models.state, "another state: {}", before.told(call));
    assert!(holding.tables == models.tables, "other tables: {}", before.told(call));
    assert!(holding.image == models.image, "other bytes: {}", before.told(call));
    ours
}

impl Outcome {
    /// Answer and id list are those of a refusal that the call can have.
    fn is_a_refusal(&self, call: &Call) {
        let number = self.number;
        match number {
            11 => assert!(self.ids == call.ids, "11 touched the ids"),
            23 => assert!(matches!(call.change, Change::Write(..)), "23 without an offset"),
            19..=22 | 24..=26 => {}
            _ => panic!("{number} is no refusal"),
        }
        assert!(number == 11 || self.ids.iter().all(|&id| id == 0), "{number} left ids");
        assert_eq!(self.answer, [0; 3], "{number} left an answer");
    }

    /// Answer, id list and holding are those of a change: the ids are the chain's; bytes that no change touches are as
    /// before; an opening of the bytes gives state and tables.
    fn is_a_change(&self, before: &Holding, after: &Holding, call: &Call) {
        let count = self.answer[0] as usize;
        let (ids, zeros) = self.ids.split_at(count);
        assert!(zeros.iter().all(|&id| id == 0), "ids past the chain's");
        let start = ids.first().copied().unwrap_or(END);
        let written = if let Change::Write(_, buf) = call.change { buf.len() } else { 0 };
        assert_eq!(self.answer, [count as u64, start.into(), written as u64]);
        let nexts = ids.iter().skip(1).copied().chain([END]);
        assert!(ids.iter().zip(nexts).all(|(&id, next)| after.tables.fat[id as usize] == next), "no chain {ids:?}");
        if let Change::Write(offset, buf) = call.change {
            after.has(ids, *offset, buf);
        }
        let used = after.state[abi::USED] as usize;
        assert!(before.image[used..] == after.image[used..], "the image past its end was written");
        let [old, new] = [before, after].map(Holding::other_bytes);
        assert!(old == new, "the header was written where it must not be");
        after.opens_again();
    }
}

impl Holding {
    /// What the library's opening gives, if it accepts; the tables have these lengths.
    pub fn of(image: Vec<u8>, used: usize, mode: u32, lengths: [usize; 5]) -> Option<Holding> {
        let mut tables = Tables::zero(lengths);
        let mut state = abi::REFUSED_STATE;
        let number = abi::open(&image, used, mode, &mut tables, &mut state);
        (number == 0).then_some(Holding { state, image, tables })
    }

    /// An image of which so much is used, lent with so many sectors more, opened strictly; the tables are as long as
    /// they must be.
    pub fn strict(mut image: Vec<u8>, more: usize) -> Holding {
        let (used, version) = (image.len(), image[26].into());
        image.resize(used + more * length_of(version), 0x99);
        let room = room(version, image.len());
        Holding::of(image, used, 1, [room; 5]).unwrap()
    }

    pub fn n(&self) -> usize {
        self.state[abi::SECTORS] as usize
    }

    fn version(&self) -> u16 {
        self.state[abi::HEADER + abi::VERSION] as u16
    }

    /// Bytes of a sector.
    pub fn length(&self) -> usize {
        length_of(self.version())
    }

    /// The sectors that there is room for.
    pub fn room(&self) -> usize {
        room(self.version(), self.image.len())
    }

    /// The free list.
    pub fn frees(&self) -> &[u32] {
        &self.tables.frees[..self.state[abi::FREES] as usize]
    }

    /// How many FAT sectors and DIFAT sectors there are.
    pub fn listed_sectors(&self) -> [usize; 2] {
        [abi::FAT_SECTORS, abi::DIFAT_SECTORS].map(|place| self.state[abi::HEADER + place] as usize)
    }

    /// The bytes in use.
    pub fn used(&self) -> &[u8] {
        &self.image[..self.state[abi::USED] as usize]
    }

    /// The bytes of a sector.
    pub fn sector(&self, id: u32) -> &[u8] {
        &self.image[(id as usize + 1) * self.length()..][..self.length()]
    }

    /// How many sectors the chain from this start has, if it ends.
    pub fn listed(&self, start: u32) -> Option<usize> {
        let fat = &self.tables.fat[..self.n()];
        let (mut id, mut count) = (start, 0);
        while id != END {
            id = *fat.get(id as usize)?;
            count += 1;
            if count > fat.len() {
                return None;
            }
        }
        Some(count)
    }

    /// A buffer that was written to a chain is there.
    fn has(&self, ids: &[u32], offset: u64, buf: &[u8]) {
        let (mut at, mut left) = (offset as usize, buf);
        while !left.is_empty() {
            let sector = &self.sector(ids[at / self.length()])[at % self.length()..];
            let (part, rest) = left.split_at(left.len().min(sector.len()));
            assert!(sector.starts_with(part), "not what was written");
            (at, left) = (at + part.len(), rest);
        }
    }

    /// The header's bytes that no change of a chain touches: all but three fields, two of them before the list, and it.
    fn other_bytes(&self) -> [&[u8]; 3] {
        let image = &self.image[..self.length()];
        [&image[..FATS_AT], &image[FATS_AT + 4..FIRST_DIFAT_AT], &image[512..]]
    }

    /// The library's opening of the bytes gives this state and these tables, the free list in ascending order.
    pub fn opens_again(&self) {
        let mut opened = Tables::zero(self.tables.lengths());
        let mut state = abi::REFUSED_STATE;
        let used = self.state[abi::USED] as usize;
        assert_eq!(abi::open(&self.image, used, 1, &mut opened, &mut state), 0, "the image does not open again");
        assert!(state == self.state, "another state");
        let count = self.frees().len();
        let [held, opened_frees] = [&self.tables.frees, &opened.frees].map(|frees| {
            let mut frees = frees.clone();
            frees[..count].sort_unstable();
            frees
        });
        assert!(held == opened_frees, "another free list");
        let Tables { fat, fats, difats, marks, .. } = &self.tables;
        let lists = [(fat, &opened.fat), (fats, &opened.fats), (difats, &opened.difats)];
        assert!(lists.into_iter().all(|(held, opened)| held == opened) && *marks == opened.marks, "other tables");
    }

    /// The call as text; of long tables only the beginning.
    pub fn told(&self, call: &Call) -> String {
        let change = match call.change {
            Change::Write(offset, buf) => format!("{} bytes at {offset}", buf.len()),
            change => format!("{change:?}"),
        };
        let [fat, frees] = [&self.tables.fat, &self.tables.frees].map(|table| first(table));
        let (lent, lengths, ids) = (self.image.len(), self.tables.lengths(), call.ids.len());
        let (start, state) = (call.start, &self.state[..12]);
        format!("{change} from {start:x}; {lent} bytes, {ids} ids, state {state:x?}, {lengths:?} {fat} {frees}")
    }
}
