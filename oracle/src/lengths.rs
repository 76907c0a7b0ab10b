//! Openings to compare on: used lengths and table lengths around every boundary, room after the used part.

use crate::held::Case;
use crate::layout::Layout;
use crate::openings::{room, untouched};
use crate::random::Random;

/// Used lengths around every boundary of an image with n sectors of this length, lent so long.
fn used_lengths(length: usize, n: usize, lent: usize) -> Vec<usize> {
    let mut all = vec![0, 1, 80, 511, 512, 513, 1023, 1024, 1025];
    for sectors in [1, 2, n, n + 1, n + 2, 16_385, 16_386, 16_387] {
        let bytes = sectors * length;
        all.extend([bytes.saturating_sub(1), bytes, bytes + 1]);
    }
    all.extend([lent.saturating_sub(1), lent, lent + 1, lent + length]);
    all.extend([1 << 32, (1 << 32) + 512, 1 << 63, usize::MAX - 4095, usize::MAX - 511, usize::MAX - 1, usize::MAX]);
    all.sort_unstable();
    all.dedup();
    all
}

/// Images with and without room after them, at every used length.
pub fn used(random: &mut Random, see: &mut impl FnMut(&Case)) {
    for (version, n) in [(3, 0), (3, 1), (3, 6), (3, 127), (3, 128), (3, 129), (4, 0), (4, 1), (4, 6)] {
        let layout = Layout::random(random, version, n);
        let length = layout.length();
        for after in [0, 1, length - 1, length, length + 1, 5 * length] {
            let mut image = layout.noisy(random);
            let from = image.len();
            image.resize(from + after, 0);
            random.fill(&mut image[from..]);
            for used in used_lengths(length, n, image.len()) {
                for mode in [0, 1] {
                    let lengths = [room(version, image.len()); 5];
                    see(&Case { image: &image, used, mode, lengths });
                }
            }
            cut(version, &image, see);
        }
    }
}

/// The first bytes of an image, all of them used.
fn cut(version: u16, image: &[u8], see: &mut impl FnMut(&Case)) {
    for length in [0, 1, 79, 80, 511, 512, 513, 1023, 1024, 4095, 4096, 4097] {
        let image = &image[..length.min(image.len())];
        for mode in [0, 1] {
            let lengths = [room(version, image.len()); 5];
            see(&Case { image, used: image.len(), mode, lengths });
        }
    }
}

/// Lengths of a table around the room: none, one less, as long, longer.
pub fn table_lengths(room: usize) -> Vec<usize> {
    let mut all = vec![0, room.saturating_sub(1), room, room + 1, room + 5];
    all.dedup();
    all
}

/// Every table at each length around the room, all together for short images, one by one for longer ones.
pub fn tables(random: &mut Random, see: &mut impl FnMut(&Case)) {
    for (version, n, after) in [(3, 0, 0), (3, 0, 2), (3, 1, 0), (3, 6, 1), (4, 0, 0), (4, 3, 1)] {
        let layout = Layout::random(random, version, n);
        let mut image = layout.noisy(random);
        let used = image.len();
        image.resize(used + after * layout.length(), 0xee);
        let each = table_lengths(room(version, image.len()));
        for word in 0..each.len().pow(5) {
            let lengths = std::array::from_fn(|table| each[word / each.len().pow(table as u32) % each.len()]);
            for mode in [0, 1] {
                see(&Case { image: &image, used, mode, lengths });
            }
        }
    }
    for (version, n) in [(3, 127), (3, 128), (3, 129), (4, 1_024)] {
        let layout = Layout::random(random, version, n);
        untouched(&mut layout.noisy(random), |image| one_by_one(version, image, image.len(), see));
    }
}

/// Each table alone at each length around the room.
fn one_by_one(version: u16, image: &[u8], used: usize, see: &mut impl FnMut(&Case)) {
    let room = room(version, image.len());
    for table in 0..5 {
        for length in table_lengths(room) {
            let mut lengths = [room; 5];
            lengths[table] = length;
            for mode in [0, 1] {
                see(&Case { image, used, mode, lengths });
            }
        }
    }
}

/// A lent image with room for more than 16,384 sectors: few are used, or as many as may be, or more.
pub fn long_lent(random: &mut Random, see: &mut impl FnMut(&Case)) {
    for n in [0, 6, 200, 16_384] {
        let mut image = Layout::random(random, 3, n).noisy(random);
        let used = image.len();
        for sectors in [16_384, 16_385, 16_386, 16_400] {
            if sectors * 512 >= used {
                image.resize(sectors * 512, 0);
                untouched(&mut image, |image| one_by_one(3, image, used, see));
            }
        }
    }
    for n in [16_385, 16_386] {
        untouched(&mut Layout::plain(3, n).bytes(), |image| {
            one_by_one(3, image, image.len(), see);
            one_by_one(3, image, image.len() - 511, see);
        });
    }
}
