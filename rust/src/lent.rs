//! An image and tables in memory that the caller lends.

use crate::consts::MAX_SECTORS;
use crate::ffi::{self, Hand, Look, Tables, TablesMut};
use crate::view::View;
use crate::{Refusal, State, Validation, Version};
use std::fmt;

/// How many elements each lent table must have, at least, for an image of so many bytes: its whole sectors less the
/// header's, at most [`MAX_SECTORS`].
///
/// ```
/// use rasuvelk::{room_for, Version};
///
/// assert_eq!(room_for(8 * 512, Version::V3), 7);
/// assert_eq!(room_for(8 * 512, Version::V4), 0);
/// assert_eq!(room_for(usize::MAX, Version::V3), 16_384);
/// ```
pub fn room_for(image_len: usize, version: Version) -> usize {
    (image_len / version.sector_len()).saturating_sub(1).min(MAX_SECTORS)
}

/// The memory that a [`Lent`] image keeps its tables in. Each slice needs [`room_for`] elements; longer ones do no harm.
///
/// ```
/// use rasuvelk::Memory;
///
/// let (mut words, mut marks) = ([0; 5 * 7], [0; 7]);
/// let memory = Memory::split(&mut words, &mut marks);
/// assert_eq!(memory.fat.len(), 7);
/// ```
pub struct Memory<'a> {
    /// For the FAT.
    pub fat: &'a mut [u32],
    /// For the ids of the FAT's sectors.
    pub fat_sectors: &'a mut [u32],
    /// For the ids of the DIFAT's sectors.
    pub difat_sectors: &'a mut [u32],
    /// For the free sectors.
    pub free_sectors: &'a mut [u32],
    /// For a mark of each sector, 1 where some entry names it.
    pub marks: &'a mut [u8],
    /// For the ids of the chain that a call lists.
    pub ids: &'a mut [u32],
}

impl<'a> Memory<'a> {
    /// Splits one slice of words into five tables of one length. Five times [`room_for`] words are enough, and as many
    /// marks as [`room_for`].
    ///
    /// ```
    /// use rasuvelk::Memory;
    ///
    /// let (mut words, mut marks) = ([0; 12], [0; 2]);
    /// assert_eq!(Memory::split(&mut words, &mut marks).ids.len(), 2);
    /// ```
    pub fn split(words: &'a mut [u32], marks: &'a mut [u8]) -> Memory<'a> {
        let each = words.len() / 5;
        let (fat, words) = words.split_at_mut(each);
        let (fat_sectors, words) = words.split_at_mut(each);
        let (difat_sectors, words) = words.split_at_mut(each);
        let (free_sectors, words) = words.split_at_mut(each);
        let (ids, _) = words.split_at_mut(each);
        Memory { fat, fat_sectors, difat_sectors, free_sectors, marks, ids }
    }

    fn tables(&self) -> Tables<'_> {
        Tables {
            fat: self.fat,
            fats: self.fat_sectors,
            difats: self.difat_sectors,
            frees: self.free_sectors,
            marks: self.marks,
        }
    }

    /// The five tables to be written, and the list of ids.
    fn tables_mut(&mut self) -> (TablesMut<'_>, &mut [u32]) {
        let tables = TablesMut {
            fat: self.fat,
            fats: self.fat_sectors,
            difats: self.difat_sectors,
            frees: self.free_sectors,
            marks: self.marks,
        };
        (tables, self.ids)
    }
}

/// An opened image in memory that the caller lends: nothing is allocated here.
///
/// The image is anything with bytes: `&[u8]` to read, `&mut [u8]` to change too. Bytes behind the used ones are the room
/// that changes can grow into. Whoever wants no such care takes an [`Image`](crate::Image).
///
/// ```
/// use rasuvelk::{Header, Lent, Memory, Validation, Version, END_OF_CHAIN};
///
/// # fn main() -> Result<(), rasuvelk::Refusal> {
/// let mut bytes = [0; 4 * 512]; // room for three sectors
/// Header::new(Version::V3).write_to(&mut bytes)?;
///
/// let (mut words, mut marks) = ([0; 5 * 3], [0; 3]);
/// let mut lent = Lent::open(&mut bytes[..], 512, Validation::Strict, Memory::split(&mut words, &mut marks))?;
/// assert_eq!(lent.write(END_OF_CHAIN, 0, b"hello")?, [1]); // sector 0 became the FAT
/// let mut buf = [0; 5];
/// assert_eq!(lent.read(1, 0, &mut buf)?, 5);
/// assert_eq!(buf, *b"hello");
/// # Ok(())
/// # }
/// ```
pub struct Lent<'a, B> {
    image: B,
    memory: Memory<'a>,
    state: State,
}

impl<'a, B> Lent<'a, B> {
    /// Takes up an image that was opened before, from what [`into_parts`](Lent::into_parts) gave. Nothing is looked at
    /// here: where the parts do not belong together, the next call is refused by [11](Refusal::ShortTable) or
    /// [19](Refusal::Disagrees).
    ///
    /// ```
    /// use rasuvelk::{Header, Lent, Memory, Refusal, Validation, Version, END_OF_CHAIN};
    ///
    /// # fn main() -> Result<(), rasuvelk::Refusal> {
    /// let mut bytes = [0; 512];
    /// Header::new(Version::V3).write_to(&mut bytes)?;
    /// let (mut words, mut marks) = ([0; 0], [0; 0]);
    /// let lent = Lent::open(&bytes[..], 512, Validation::Strict, Memory::split(&mut words, &mut marks))?;
    /// let (_, memory, state) = lent.into_parts();
    ///
    /// let mut other = Lent::resume(&[0; 512][..], memory, state); // not the bytes that were opened
    /// assert_eq!(other.chain(END_OF_CHAIN), Err(Refusal::Disagrees));
    /// # Ok(())
    /// # }
    /// ```
    pub fn resume(image: B, memory: Memory<'a>, state: State) -> Lent<'a, B> {
        Lent { image, memory, state }
    }

    /// The image, its tables and its state, to be kept elsewhere.
    ///
    /// ```
    /// # use rasuvelk::{Header, Lent, Memory, Validation, Version};
    /// # fn main() -> Result<(), rasuvelk::Refusal> {
    /// # let mut bytes = [0; 512];
    /// # Header::new(Version::V3).write_to(&mut bytes)?;
    /// # let (mut words, mut marks) = ([0; 0], [0; 0]);
    /// # let lent = Lent::open(&bytes[..], 512, Validation::Strict, Memory::split(&mut words, &mut marks))?;
    /// let (image, _memory, state) = lent.into_parts();
    /// assert_eq!(state.used(), image.len());
    /// # Ok(())
    /// # }
    /// ```
    pub fn into_parts(self) -> (B, Memory<'a>, State) {
        (self.image, self.memory, self.state)
    }

    /// The state: mode, used bytes, counts, header.
    ///
    /// ```
    /// # use rasuvelk::{Header, Lent, Memory, Validation, Version};
    /// # fn main() -> Result<(), rasuvelk::Refusal> {
    /// # let mut bytes = [0; 512];
    /// # Header::new(Version::V3).write_to(&mut bytes)?;
    /// # let (mut words, mut marks) = ([0; 0], [0; 0]);
    /// # let lent = Lent::open(&bytes[..], 512, Validation::Strict, Memory::split(&mut words, &mut marks))?;
    /// assert_eq!(lent.state().version(), Version::V3);
    /// # Ok(())
    /// # }
    /// ```
    pub fn state(&self) -> &State {
        &self.state
    }
}

impl<'a, B: AsRef<[u8]>> Lent<'a, B> {
    /// Opens the first `used` bytes of an image. The image is not written.
    ///
    /// # Errors
    ///
    /// Refusals 1 to 18. The tables stay as they were at 1 to 11, and are zero at 12 to 18.
    ///
    /// ```
    /// use rasuvelk::{Header, Lent, Memory, Refusal, Validation, Version};
    ///
    /// # fn main() -> Result<(), rasuvelk::Refusal> {
    /// let mut bytes = [0; 1024]; // room for a sector
    /// Header::new(Version::V3).write_to(&mut bytes)?;
    /// let (mut words, mut marks) = ([0; 0], [0; 0]); // and no table for it
    /// let refused = Lent::open(&bytes[..], 512, Validation::Strict, Memory::split(&mut words, &mut marks));
    /// assert_eq!(refused.err(), Some(Refusal::ShortTable));
    /// # Ok(())
    /// # }
    /// ```
    pub fn open(image: B, used: usize, validation: Validation, memory: Memory<'a>) -> Result<Lent<'a, B>, Refusal> {
        let mut lent = Lent { image, memory, state: State::none() };
        let (tables, _) = lent.memory.tables_mut();
        ffi::open(lent.image.as_ref(), used, validation.mode(), tables, &mut lent.state.words)?;
        Ok(lent)
    }

    /// A look at its bytes and tables.
    ///
    /// ```
    /// # use rasuvelk::{Header, Lent, Memory, Validation, Version};
    /// # fn main() -> Result<(), rasuvelk::Refusal> {
    /// # let mut bytes = [0; 512];
    /// # Header::new(Version::V3).write_to(&mut bytes)?;
    /// # let (mut words, mut marks) = ([0; 0], [0; 0]);
    /// # let lent = Lent::open(&bytes[..], 512, Validation::Strict, Memory::split(&mut words, &mut marks))?;
    /// assert!(lent.view().fat().is_empty());
    /// # Ok(())
    /// # }
    /// ```
    pub fn view(&self) -> View<'_> {
        let look = Look { state: &self.state.words, image: self.image.as_ref(), tables: self.memory.tables() };
        View::of(look, &self.state)
    }

    /// The ids of the chain from `start` on. They stand in the lent list, which is zero after them.
    ///
    /// # Errors
    ///
    /// Refusals 11 and 19 to 22. The list is zero then, but for 11, where it stays.
    ///
    /// ```
    /// # use rasuvelk::{Header, Lent, Memory, Validation, Version, END_OF_CHAIN};
    /// # fn main() -> Result<(), rasuvelk::Refusal> {
    /// # let mut bytes = [0; 512];
    /// # Header::new(Version::V3).write_to(&mut bytes)?;
    /// # let (mut words, mut marks) = ([0; 0], [0; 0]);
    /// # let mut lent = Lent::open(&bytes[..], 512, Validation::Strict, Memory::split(&mut words, &mut marks))?;
    /// assert!(lent.chain(END_OF_CHAIN)?.is_empty());
    /// # Ok(())
    /// # }
    /// ```
    pub fn chain(&mut self, start: u32) -> Result<&[u32], Refusal> {
        let (tables, ids) = split(&mut self.memory);
        let look = Look { state: &self.state.words, image: self.image.as_ref(), tables };
        let told = ffi::open_chain(look, ids, start)?;
        Ok(ids.get(..told.ids).unwrap_or_default())
    }

    /// Reads the chain from a byte on: the smaller of the buffer and what remains. Gives how many bytes were read; the
    /// rest of the buffer stays.
    ///
    /// # Errors
    ///
    /// Refusals 11 and 19 to 23. The buffer stays then.
    ///
    /// ```
    /// # use rasuvelk::{Header, Lent, Memory, Refusal, Validation, Version, END_OF_CHAIN};
    /// # fn main() -> Result<(), rasuvelk::Refusal> {
    /// # let mut bytes = [0; 512];
    /// # Header::new(Version::V3).write_to(&mut bytes)?;
    /// # let (mut words, mut marks) = ([0; 0], [0; 0]);
    /// # let mut lent = Lent::open(&bytes[..], 512, Validation::Strict, Memory::split(&mut words, &mut marks))?;
    /// assert_eq!(lent.read(END_OF_CHAIN, 0, &mut [7])?, 0);
    /// assert_eq!(lent.read(END_OF_CHAIN, 1, &mut [7]), Err(Refusal::Offset));
    /// # Ok(())
    /// # }
    /// ```
    pub fn read(&mut self, start: u32, offset: u64, buf: &mut [u8]) -> Result<usize, Refusal> {
        let (tables, ids) = split(&mut self.memory);
        let look = Look { state: &self.state.words, image: self.image.as_ref(), tables };
        Ok(ffi::read_chain(look, ids, start, offset, buf)?.bytes)
    }
}

/// The five tables to look at, and the list of ids to be written.
fn split<'m>(memory: &'m mut Memory<'_>) -> (Tables<'m>, &'m mut [u32]) {
    let tables = Tables {
        fat: memory.fat,
        fats: memory.fat_sectors,
        difats: memory.difat_sectors,
        frees: memory.free_sectors,
        marks: memory.marks,
    };
    (tables, memory.ids)
}

impl<B: AsRef<[u8]> + AsMut<[u8]>> Lent<'_, B> {
    /// Writes all of a buffer over the chain's bytes from `offset` on; the chain grows to hold it. Gives its ids after
    /// the write. [`END_OF_CHAIN`](crate::END_OF_CHAIN) begins a chain.
    ///
    /// # Errors
    ///
    /// Refusals 11, 19, 26, 20, 21, 22, 25, 23 and 24, in this order. Image, tables and state stay then.
    ///
    /// ```
    /// use rasuvelk::{Header, Lent, Memory, Refusal, Validation, Version, END_OF_CHAIN};
    ///
    /// # fn main() -> Result<(), rasuvelk::Refusal> {
    /// let mut bytes = [0; 1024]; // room for one sector: the FAT alone would fill it
    /// Header::new(Version::V3).write_to(&mut bytes)?;
    /// let (mut words, mut marks) = ([0; 5], [0; 1]);
    /// let mut lent = Lent::open(&mut bytes[..], 512, Validation::Strict, Memory::split(&mut words, &mut marks))?;
    /// assert_eq!(lent.write(END_OF_CHAIN, 0, b"x"), Err(Refusal::NoRoom));
    /// # Ok(())
    /// # }
    /// ```
    pub fn write(&mut self, start: u32, offset: u64, buf: &[u8]) -> Result<&[u32], Refusal> {
        let (tables, ids) = self.memory.tables_mut();
        let hand = Hand { state: &mut self.state.words, image: self.image.as_mut(), tables };
        let told = ffi::write_chain(hand, ids, start, offset, buf)?;
        Ok(ids.get(..told.ids).unwrap_or_default())
    }

    /// Makes the chain as many sectors long as `length` bytes ask for. Gives its ids after that.
    ///
    /// # Errors
    ///
    /// Refusals 11, 19, 26, 20, 21, 22, 25 and 24, in this order. Image, tables and state stay then.
    ///
    /// ```
    /// # use rasuvelk::{Header, Lent, Memory, Refusal, Validation, Version, END_OF_CHAIN};
    /// # fn main() -> Result<(), rasuvelk::Refusal> {
    /// # let mut bytes = [0; 4 * 512];
    /// # Header::new(Version::V3).write_to(&mut bytes)?;
    /// # let (mut words, mut marks) = ([0; 15], [0; 3]);
    /// # let mut lent = Lent::open(&mut bytes[..], 512, Validation::Strict, Memory::split(&mut words, &mut marks))?;
    /// assert_eq!(lent.resize(END_OF_CHAIN, 513)?, [1, 2]);
    /// assert_eq!(lent.resize(1, u64::MAX), Err(Refusal::NoRoom));
    /// # Ok(())
    /// # }
    /// ```
    pub fn resize(&mut self, start: u32, length: u64) -> Result<&[u32], Refusal> {
        let (tables, ids) = self.memory.tables_mut();
        let hand = Hand { state: &mut self.state.words, image: self.image.as_mut(), tables };
        let told = ffi::resize_chain(hand, ids, start, length)?;
        Ok(ids.get(..told.ids).unwrap_or_default())
    }

    /// Frees the whole chain. Its sectors keep their bytes.
    ///
    /// # Errors
    ///
    /// Refusals 11, 19, 26, 20, 21, 22 and 25, in this order. Image, tables and state stay then.
    ///
    /// ```
    /// # use rasuvelk::{Header, Lent, Memory, Validation, Version, END_OF_CHAIN};
    /// # fn main() -> Result<(), rasuvelk::Refusal> {
    /// # let mut bytes = [0; 4 * 512];
    /// # Header::new(Version::V3).write_to(&mut bytes)?;
    /// # let (mut words, mut marks) = ([0; 15], [0; 3]);
    /// # let mut lent = Lent::open(&mut bytes[..], 512, Validation::Strict, Memory::split(&mut words, &mut marks))?;
    /// lent.resize(END_OF_CHAIN, 513)?;
    /// lent.free(1)?;
    /// assert_eq!(lent.view().free_sectors(), [1, 2]);
    /// # Ok(())
    /// # }
    /// ```
    pub fn free(&mut self, start: u32) -> Result<(), Refusal> {
        let (tables, ids) = self.memory.tables_mut();
        let hand = Hand { state: &mut self.state.words, image: self.image.as_mut(), tables };
        ffi::free_chain(hand, ids, start).map(|_| ())
    }
}

impl fmt::Debug for Memory<'_> {
    fn fmt(&self, out: &mut fmt::Formatter<'_>) -> fmt::Result {
        let lengths =
            [&self.fat, &self.fat_sectors, &self.difat_sectors, &self.free_sectors, &self.ids].map(|list| list.len());
        out.debug_struct("Memory").field("words", &lengths).field("marks", &self.marks.len()).finish()
    }
}

impl<B> fmt::Debug for Lent<'_, B> {
    fn fmt(&self, out: &mut fmt::Formatter<'_>) -> fmt::Result {
        out.debug_struct("Lent").field("state", &self.state).field("memory", &self.memory).finish_non_exhaustive()
    }
}
