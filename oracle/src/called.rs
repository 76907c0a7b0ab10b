//! One call on a chain, asked of the library and of the model on lists and buffers with the same rubbish.

use crate::abi::{self, Answer, Lent};
use crate::model;
use std::hint::black_box;

/// A call: what it is lent, what the id list holds before it, the start.
#[derive(Clone, Copy)]
pub struct Call<'a> {
    pub lent: Lent<'a>,
    pub ids: &'a [u32],
    pub start: u32,
    /// The offset and the buffer's length of a read; none where the chain is only opened.
    pub read: Option<(u64, usize)>,
}

/// What came back.
#[derive(Clone, Debug, PartialEq, Eq)]
pub struct Outcome {
    pub number: u32,
    pub answer: Answer,
    pub ids: Vec<u32>,
    pub buf: Vec<u8>,
}

/// Images of at most so many bytes are looked at after every call.
const LOOKED_AT: usize = 1 << 18;

/// Elements around a lent list that no call may touch.
const AROUND: usize = 2;

/// What a buffer of this length holds before a read.
pub fn rubbish(length: usize) -> Vec<u8> {
    (0..length).map(|i| 0x11 + (i % 0x5b) as u8).collect()
}

/// A copy of a list between elements that must stay.
pub(crate) fn between<T: Copy>(list: &[T], around: T) -> Vec<T> {
    let sides = [around; AROUND];
    [&sides, list, &sides].concat()
}

/// The lent part of such a copy.
pub(crate) fn inside<T>(list: &mut [T]) -> &mut [T] {
    let end = list.len() - AROUND;
    &mut list[AROUND..end]
}

/// The list without what stands around it, which has stayed.
pub(crate) fn taken_out<T: Copy + PartialEq>(mut list: Vec<T>, around: T) -> Vec<T> {
    let end = list.len() - AROUND;
    assert!(list[..AROUND].iter().chain(&list[end..]).all(|&element| element == around), "written past an end");
    list.truncate(end);
    list.split_off(AROUND)
}

type OpenChain = fn(&Lent, &mut [u32], u32, &mut Answer) -> u32;
type ReadChain = fn(&Lent, &mut [u32], u32, u64, &mut [u8], &mut Answer) -> u32;

/// Makes the call of these two functions.
fn made(call: &Call, open: OpenChain, read: ReadChain) -> Outcome {
    let mut ids = between(call.ids, 0xabcd_ef01);
    let mut buf = between(&rubbish(call.read.map_or(0, |read| read.1)), 0xf7);
    let mut answer = [0x1111_2222_3333_4444; 3];
    let number = match call.read {
        None => open(&call.lent, inside(&mut ids), call.start, &mut answer),
        Some((offset, _)) => read(&call.lent, inside(&mut ids), call.start, offset, inside(&mut buf), &mut answer),
    };
    Outcome { number, answer, ids: taken_out(ids, 0xabcd_ef01), buf: taken_out(buf, 0xf7) }
}

/// Asks the library alone. What it only reads must stay, and a refusal leaves what it must.
pub fn ask(call: &Call) -> Outcome {
    let Lent { state, image, tables } = call.lent;
    let before = (*state, tables.clone(), (image.len() <= LOOKED_AT).then(|| image.to_vec()));
    let outcome = made(call, abi::open_chain, abi::read_chain);
    // What is lent to be read is taken by the compiler to stay as it is: it is read anew.
    let after = black_box(call.lent);
    assert!(before.0 == *after.state, "the state was written");
    assert!(before.1 == *after.tables, "a table was written");
    assert!(before.2.is_none_or(|copy| copy == after.image), "the image was written");
    outcome.is_whole(call);
    outcome
}

impl Outcome {
    /// The id list, the answer and the buffer are what the number allows.
    fn is_whole(&self, call: &Call) {
        let number = self.number;
        let [count, start, read] = self.answer.map(|number| number as usize);
        match number {
            0 => {
                assert!(self.ids[count..].iter().all(|&id| id == 0), "ids past the chain's");
                assert_eq!(start, call.start as usize);
                assert_eq!(self.buf[read..], rubbish(self.buf.len())[read..]);
                return;
            }
            11 => assert!(self.ids == call.ids, "11 touched the ids"),
            19..=22 => assert!(self.ids.iter().all(|&id| id == 0), "{number} left ids"),
            23 if call.read.is_some() => assert!(self.ids.iter().all(|&id| id == 0), "23 left ids"),
            _ => panic!("{number} is no refusal"),
        }
        assert_eq!(self.answer, [0; 3], "{number} left an answer");
        assert!(self.buf == rubbish(self.buf.len()), "{number} touched the buffer");
    }
}

/// Asks the library and the model; all that comes back must be the same.
pub fn same(call: &Call) -> Outcome {
    let ours = ask(call);
    let models = made(call, model::open_chain, model::read_chain);
    assert_eq!((ours.number, ours.answer), (models.number, models.answer), "{}", call.told());
    assert!(ours.ids == models.ids, "ids {:?}, the model has {:?}: {}", ours.ids, models.ids, call.told());
    assert!(ours.buf == models.buf, "other bytes: {}", call.told());
    ours
}

impl Call<'_> {
    /// The call as text; of long tables only the beginning.
    pub fn told(&self) -> String {
        let Lent { state, image, tables } = self.lent;
        let (len, ids, start) = (image.len(), self.ids.len(), self.start);
        let words: Vec<String> =
            [&tables.fat, &tables.fats, &tables.difats, &tables.frees].map(|t| first(t)).into_iter().collect();
        let (lengths, marks, read) = (tables.lengths(), first(&tables.marks), self.read);
        let state = &state[..12];
        format!("{len} bytes, {ids} ids, start {start:x}, {read:?}, state {state:x?}, {lengths:?} {words:?} {marks}")
    }
}

/// The beginning of a table as text.
pub(crate) fn first<T: std::fmt::LowerHex + std::fmt::Debug>(table: &[T]) -> String {
    format!("{:x?}", &table[..table.len().min(40)])
}
