//! States and tables that no opening of the image gave: one number put somewhere else than what stands there.

use crate::abi::{self, State, Tables};
use crate::calls::Opened;
use crate::damage;
use crate::inputs::{END, FREE};
use crate::layout::{DIFAT, FAT};

/// Other values for a word of a state.
fn other_words(opened: &Opened, place: usize) -> Vec<u64> {
    let word = opened.state[place];
    let (n, length) = (opened.n() as u64, opened.length() as u64);
    let mut values = vec![0, word.wrapping_sub(1), word.wrapping_add(1), word ^ 1 << 32, u64::MAX];
    // Of the header's list only a few places have more.
    if place < abi::HEADER + abi::LIST + 3 {
        values.extend([1, 2, 3, 4, 5, n, n + 1, word.wrapping_sub(length), word.wrapping_add(length)]);
        values.extend([word ^ 1 << 31, word ^ 1 << 63, 1 << 32, 1 << 63, u64::MAX - 511]);
        values.extend([FREE, END, FAT].map(u64::from));
    }
    values.sort_unstable();
    values.dedup();
    values.retain(|&value| value != word);
    values
}

/// Shows the state with each word changed alone, and says which.
pub fn states(opened: &Opened, see: &mut impl FnMut(usize, &State)) {
    let mut state = opened.state;
    for place in 0..state.len() {
        let word = state[place];
        for other in other_words(opened, place) {
            state[place] = other;
            see(place, &state);
        }
        state[place] = word;
    }
}

/// Other values for an entry of a table.
fn other_entries(n: usize, entry: u32) -> Vec<u32> {
    let n = n as u32;
    let mut values = vec![0, 1, n.saturating_sub(1), n, n + 1, entry.wrapping_sub(1), entry.wrapping_add(1)];
    values.extend([entry ^ 0x100, entry ^ 0x8000_0000, DIFAT, FAT, END, FREE]);
    values.sort_unstable();
    values.dedup();
    values.retain(|&value| value != entry);
    values
}

/// One of the four tables of numbers.
fn table(tables: &mut Tables, which: usize) -> &mut Vec<u32> {
    match which {
        0 => &mut tables.fat,
        1 => &mut tables.fats,
        2 => &mut tables.difats,
        _ => &mut tables.frees,
    }
}

/// Shows the tables with each element changed alone, past the counts too: at most about so many of each.
pub fn tables(opened: &Opened, most: usize, see: &mut impl FnMut(&Tables)) {
    let mut tables = opened.tables.clone();
    let counts = [abi::FAT_SECTORS, abi::DIFAT_SECTORS].map(|place| opened.state[abi::HEADER + place] as usize);
    let counts = [opened.n(), counts[0], counts[1], opened.state[abi::FREES] as usize];
    for (which, count) in counts.into_iter().enumerate() {
        for i in around(table(&mut tables, which).len(), count, most) {
            let entry = table(&mut tables, which)[i];
            for other in other_entries(opened.n(), entry) {
                table(&mut tables, which)[i] = other;
                see(&tables);
            }
            table(&mut tables, which)[i] = entry;
        }
    }
    for i in around(tables.marks.len(), opened.n(), most) {
        let mark = tables.marks[i];
        for other in [0, 1, 2, 0x80, 0x81, 0xff].into_iter().filter(|&other| other != mark) {
            tables.marks[i] = other;
            see(&tables);
        }
        tables.marks[i] = mark;
    }
}

/// Some places of a table, those around its count among them.
fn around(length: usize, count: usize, most: usize) -> Vec<usize> {
    let mut places = damage::some(length, most);
    places.extend([count.wrapping_sub(1), count, count + 1].into_iter().filter(|&place| place < length));
    places.sort_unstable();
    places.dedup();
    places
}

/// Shows the tables with two elements of one changed places, and says whether these are two of the free list.
pub fn swapped(opened: &Opened, most: usize, see: &mut impl FnMut(bool, &Tables)) {
    let mut tables = opened.tables.clone();
    let count = opened.state[abi::FREES] as usize;
    let places = damage::some(opened.n(), most);
    for (&i, &j) in places.iter().flat_map(|i| places.iter().map(move |j| (i, j))).filter(|(i, j)| i < j) {
        for which in 0..4 {
            if table(&mut tables, which)[i] != table(&mut tables, which)[j] {
                table(&mut tables, which).swap(i, j);
                see(which == 3 && j < count, &tables);
                table(&mut tables, which).swap(i, j);
            }
        }
        if tables.marks[i] != tables.marks[j] {
            tables.marks.swap(i, j);
            see(false, &tables);
            tables.marks.swap(i, j);
        }
    }
}

/// Shows free lists that are not the FREE sectors once each: one named twice for another, which stands behind the count
/// or nowhere; one named for its two neighbours as well, with the same sum; one too few, one too many.
pub fn free_lists(opened: &Opened, most: usize, see: &mut impl FnMut(&Tables)) {
    let count = opened.state[abi::FREES] as usize;
    let places = damage::some(count, most);
    for (&i, &j) in places.iter().flat_map(|i| places.iter().map(move |j| (i, j))).filter(|(i, j)| i != j) {
        let mut tables = opened.tables.clone();
        tables.frees[i] = tables.frees[j];
        see(&tables);
        if let Some(behind) = tables.frees.get_mut(count) {
            *behind = opened.tables.frees[i];
            see(&tables);
        }
    }
    for i in places.iter().copied().filter(|i| i + 2 < count) {
        let three = &opened.tables.frees[i..i + 3];
        if three[1] == three[0] + 1 && three[2] == three[1] + 1 {
            let mut tables = opened.tables.clone();
            tables.frees[i..i + 3].fill(three[1]);
            see(&tables);
        }
    }
    // Zero is also what stands behind the list.
    for i in places.into_iter().filter(|&i| opened.tables.frees[i] != 0) {
        let mut tables = opened.tables.clone();
        // Without this one, and with zero in its place at the end.
        tables.frees.copy_within(i + 1..count, i);
        tables.frees[count - 1] = 0;
        see(&tables);
        tables.frees.clone_from(&opened.tables.frees);
        if let Some(behind) = tables.frees.get_mut(count) {
            *behind = opened.tables.frees[i];
            see(&tables);
        }
    }
}
