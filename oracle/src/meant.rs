//! Where the header's reader and the Rust's part as they are meant to, decided from the input alone.

use crate::inputs::{self, FREE, HEADER, LISTED, LIST_AT};

fn listed(bytes: &[u8], place: usize) -> u32 {
    let at = LIST_AT + 4 * place;
    u32::from_le_bytes(bytes[at..at + 4].try_into().unwrap())
}

/// What the Rust must answer to a slice that is shorter than a header: the first cause whose bytes it read.
pub fn on_a_cut(bytes: &[u8], mode: u32) -> u32 {
    let model = inputs::good(if bytes.get(26) == Some(&4) { 4 } else { 3 }, 0);
    let checks = [
        (2, 0..8, 8),
        (3, 28..30, 30),
        (4, 26..28, 30),
        (5, 30..32, 32),
        (6, 32..34, 34),
        (7, 40..44, 44),
        (8, 56..60, 60),
    ];
    for (number, range, read) in checks {
        if bytes.len() < read {
            return 1;
        }
        let forgiven = number == 7 && (mode == 0 || model[26] == 4);
        if !forgiven && bytes[range.clone()] != model[range] {
            return number;
        }
    }
    for place in 0..LISTED {
        if bytes.len() < LIST_AT + 4 * place + 4 {
            return 1;
        }
        match listed(bytes, place) {
            FREE => return 0,
            entry if entry > inputs::REGULAR_LAST => return 9,
            _ => {}
        }
    }
    unreachable!("a slice that holds a whole list is not cut short");
}

/// The header with FREE for everything after the first FREE, if that changes it.
pub fn forgetful(bytes: &[u8]) -> Option<Vec<u8>> {
    let first = (0..LISTED).find(|&place| listed(bytes, place) == FREE)?;
    let mut other = bytes.to_vec();
    other[LIST_AT + 4 * first..HEADER].fill(0xff);
    (other != bytes).then_some(other)
}
