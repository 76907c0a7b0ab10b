//! The calls that read a chain: whether state, image and tables agree, the walk, the bytes.

use super::opening::{open, room, store};
use super::END;
use crate::abi::{self, Answer, Lent, State, Tables};

/// Bytes of a sector, if the words can be a state: a mode, a version, and no number of the header above 32 bits.
fn sector_length(state: &State) -> Option<usize> {
    let is_state = state[abi::MODE] <= 1 && state[abi::HEADER..].iter().all(|&word| word <= u32::MAX.into());
    match state[abi::HEADER + abi::VERSION] {
        3 if is_state => Some(512),
        4 if is_state => Some(4096),
        _ => None,
    }
}

/// Whether the image opens by the state's mode and used length, and gives this state and these tables. The free list
/// may have any order.
fn agree(lent: &Lent) -> bool {
    let Ok(used) = usize::try_from(lent.state[abi::USED]) else {
        return false;
    };
    let mut opened = Tables::zero(lent.tables.lengths());
    let mut state = abi::REFUSED_STATE;
    let number = open(lent.image, used, lent.state[abi::MODE] as u32, &mut opened, &mut state);
    if number != 0 || state != *lent.state {
        return false;
    }
    let mut tables = lent.tables.clone();
    tables.frees[..state[abi::FREES] as usize].sort_unstable();
    tables == opened
}

/// Walks from a start: the ids, or the refusal.
pub fn walk(fat: &[u32], start: u32) -> Result<Vec<u32>, u32> {
    let n = fat.len();
    if start != END && start as usize >= n {
        return Err(20);
    }
    let mut ids = Vec::new();
    let mut id = start;
    while id != END {
        ids.push(id);
        assert!(ids.len() <= n);
        let next = fat[id as usize];
        // What is below n is regular.
        if next != END && next as usize >= n {
            return Err(21);
        }
        if next == start {
            return Err(22);
        }
        id = next;
    }
    Ok(ids)
}

/// The bytes of a sector, if the lengths are long enough and image, state and tables agree; or the refusal.
pub fn agreed(lent: &Lent, listed: usize) -> Result<usize, u32> {
    let Some(length) = sector_length(lent.state) else {
        return Err(19);
    };
    let room = room(lent.image.len(), length);
    if listed < room || lent.tables.lengths().iter().any(|&lent| lent < room) {
        return Err(11);
    }
    if !agree(lent) {
        return Err(19);
    }
    Ok(length)
}

/// The ids of the chain and the bytes of a sector, or the refusal.
fn chain(lent: &Lent, listed: usize, start: u32) -> Result<(Vec<u32>, usize), u32> {
    let length = agreed(lent, listed)?;
    let n = lent.state[abi::SECTORS] as usize;
    Ok((walk(&lent.tables.fat[..n], start)?, length))
}

/// Leaves the id list and the answer as they must be; 0, or the number of the refusal.
pub fn done(found: Result<(Vec<u32>, usize), u32>, ids: &mut [u32], start: u32, answer: &mut Answer) -> u32 {
    *answer = [0; 3];
    match found {
        Ok((chain, read)) => {
            store(ids, &chain);
            *answer = [chain.len() as u64, start.into(), read as u64];
            0
        }
        Err(11) => 11,
        Err(number) => {
            ids.fill(0);
            number
        }
    }
}

/// Lists the ids of a chain; 0, or the number of the refusal.
pub fn open_chain(lent: &Lent, ids: &mut [u32], start: u32, answer: &mut Answer) -> u32 {
    let found = chain(lent, ids.len(), start).map(|(chain, _)| (chain, 0));
    done(found, ids, start, answer)
}

/// Reads a chain from an offset into a buffer: the ids and how many bytes, or the refusal.
fn read(lent: &Lent, listed: usize, start: u32, offset: u64, buf: &mut [u8]) -> Result<(Vec<u32>, usize), u32> {
    let (ids, length) = chain(lent, listed, start)?;
    let bytes: Vec<u8> =
        ids.iter().flat_map(|&id| &lent.image[(id as usize + 1) * length..][..length]).copied().collect();
    if offset > bytes.len() as u64 {
        return Err(23);
    }
    let remains = &bytes[offset as usize..];
    let count = remains.len().min(buf.len());
    buf[..count].copy_from_slice(&remains[..count]);
    Ok((ids, count))
}

/// Reads a chain from an offset, and lists its ids; 0, or the number of the refusal.
pub fn read_chain(lent: &Lent, ids: &mut [u32], start: u32, offset: u64, buf: &mut [u8], answer: &mut Answer) -> u32 {
    let found = read(lent, ids.len(), start, offset, buf);
    done(found, ids, start, answer)
}
