//! Calls on the chains of an opened image held against the Rust of cfb, and against the model on the way.
//!
//! The Rust keeps its tables and is lent nothing, so 11 and 19 are not asked of it: a call that is refused so is not shown
//! here. All other answers are the same.

use crate::abi;
use crate::asked;
use crate::called::{self, Call};
use crate::calls::Opened;
use crate::image;
use crate::internal::Allocator;
use std::io::Cursor;

/// How often each answer was met, and how many bytes were read.
#[derive(Default, Debug)]
pub struct Tally {
    pub answers: [u64; 24],
    pub bytes: u64,
}

/// The Rust's opening of the same bytes in the same mode.
pub fn rusts<'a>(opened: &Opened<'a>) -> Allocator<Cursor<&'a [u8]>> {
    let used = opened.state[abi::USED] as usize;
    image::lend(&opened.image[..used], asked::mode_of(opened.state[abi::MODE] as u32)).unwrap()
}

impl Tally {
    /// How many calls were compared.
    pub fn compared(&self) -> u64 {
        self.answers.iter().sum()
    }

    /// Each of these answers was met so often.
    pub fn has(&self, numbers: impl IntoIterator<Item = usize>, times: u64) {
        for number in numbers {
            assert!(self.answers[number] >= times, "{number} in {self:?}");
        }
    }

    /// Holds one call.
    pub fn see(&mut self, rust: &mut Allocator<Cursor<&[u8]>>, call: &Call) {
        let ours = called::same(call);
        self.answers[ours.number as usize] += 1;
        let mut buf = called::rubbish(ours.buf.len());
        let rusts = match call.read {
            None => asked::open_chain(rust, call.start).map(|ids| (ids, 0)),
            Some((offset, _)) => asked::read_chain(rust, call.start, offset, &mut buf),
        };
        match rusts {
            Ok((mut ids, read)) => {
                let answer = [ids.len() as u64, call.start.into(), read as u64];
                ids.resize(call.ids.len(), 0);
                assert_eq!((ours.number, ours.answer), (0, answer), "{}", call.told());
                assert!(ours.ids == ids && ours.buf == buf, "{}", call.told());
                self.bytes += read as u64;
            }
            Err(number) => assert_eq!(ours.number, number, "{}", call.told()),
        }
    }
}
