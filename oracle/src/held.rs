//! One opening, asked of the library and of the model on tables full of the same rubbish.

use crate::abi::{self, State, Tables};
use crate::model;
use std::hint::black_box;

/// What is opened: an image, how much of it is used, the mode, and the lengths of the tables.
#[derive(Clone, Copy)]
pub struct Case<'a> {
    pub image: &'a [u8],
    pub used: usize,
    pub mode: u32,
    pub lengths: [usize; 5],
}

/// What came back.
#[derive(Clone, Debug, PartialEq, Eq)]
pub struct Answer {
    pub number: u32,
    pub state: State,
    pub tables: Tables,
}

/// Images of at most so many bytes are looked at after every call.
const LOOKED_AT: usize = 1 << 18;

/// Tables of these lengths with no zero in them.
pub fn rubbish(lengths: [usize; 5]) -> Tables {
    let mut tables = Tables::zero(lengths);
    let words = [&mut tables.fat, &mut tables.fats, &mut tables.difats, &mut tables.frees];
    for (table, first) in words.into_iter().zip([0x5a00_0000, 1, 0xffff_0000, 0x1000]) {
        for (i, word) in table.iter_mut().enumerate() {
            *word = first + (i % 0xffff) as u32;
        }
    }
    tables.marks.fill(0x77);
    tables
}

/// Asks the library alone. Beside a refusal the state is the refused one; the tables are untouched or zero.
pub fn ask(case: &Case) -> Answer {
    let mut tables = rubbish(case.lengths);
    let mut state = [0x3333_4444_5555_6666; 121];
    let copy = (case.image.len() <= LOOKED_AT).then(|| case.image.to_vec());
    let number = abi::open(case.image, case.used, case.mode, &mut tables, &mut state);
    // A lent image is one that the compiler takes to stay as it is: it is read anew.
    let after = black_box(case.image);
    assert!(copy.is_none_or(|copy| copy == after), "the image was written");
    match number {
        0 => {}
        1..=11 => assert!(tables == rubbish(case.lengths), "{number} touched a table"),
        12..=18 => assert!(tables == Tables::zero(case.lengths), "{number} left a table"),
        _ => panic!("{number} is no refusal"),
    }
    assert!(number == 0 || state == abi::REFUSED_STATE, "{number} left a state");
    Answer { number, state, tables }
}

/// Asks the library and the model; all that comes back must be the same.
pub fn same(case: &Case) -> Answer {
    let ours = ask(case);
    let mut tables = rubbish(case.lengths);
    let mut state = [7; 121];
    let number = model::open(case.image, case.used, case.mode, &mut tables, &mut state);
    let models = Answer { number, state, tables };
    assert_eq!(ours.number, models.number, "{}", case.told());
    assert!(ours == models, "{}\n{}", case.told(), difference(&ours, &models));
    ours
}

/// Where two answers with the same number differ.
fn difference(ours: &Answer, models: &Answer) -> String {
    fn first<T: PartialEq + std::fmt::Debug>(name: &str, one: &[T], other: &[T]) -> String {
        match one.iter().zip(other).position(|(a, b)| a != b) {
            Some(at) => format!("{name} {at}: {:x?}, the model has {:x?}\n", one[at], other[at]),
            None => String::new(),
        }
    }
    let (one, other) = (&ours.tables, &models.tables);
    [
        first("state", &ours.state, &models.state),
        first("fat", &one.fat, &other.fat),
        first("fats", &one.fats, &other.fats),
        first("difats", &one.difats, &other.difats),
        first("frees", &one.frees, &other.frees),
        first("marks", &one.marks, &other.marks),
    ]
    .concat()
}

impl Case<'_> {
    /// The case as text; of a long image only what stands in its beginning.
    pub fn told(&self) -> String {
        let shown = &self.image[..self.image.len().min(4096)];
        let words: Vec<u32> = shown.chunks_exact(4).map(|four| u32::from_le_bytes(four.try_into().unwrap())).collect();
        let (len, used, mode, lengths) = (self.image.len(), self.used, self.mode, self.lengths);
        format!("{len} bytes, {used} used, mode {mode}, tables {lengths:?}: {words:x?}")
    }
}
