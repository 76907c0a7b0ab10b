//! An image that owns its bytes and its tables.

use crate::chain::Chain;
use crate::consts::{END_OF_CHAIN, MAX_SECTORS};
use crate::ffi::{self, Hand, Look, Tables, TablesMut, Told};
use crate::lent::room_for;
use crate::view::View;
use crate::{Header, Refusal, State, Validation, Version};
use std::fmt;

/// What an [`Image`] does where a change needs more room than its buffer has.
///
/// ```
/// use rasuvelk::{Growth, Image, Refusal, Version, END_OF_CHAIN};
///
/// # fn main() -> Result<(), rasuvelk::Refusal> {
/// let mut image = Image::create(Version::V3)?;
/// assert_eq!(image.write(END_OF_CHAIN, 0, b"x"), Err(Refusal::NoRoom));
/// image.set_growth(Growth::AsNeeded);
/// assert_eq!(image.write(END_OF_CHAIN, 0, b"x")?.sector_ids(), [1]);
/// # Ok(())
/// # }
/// ```
#[derive(Clone, Copy, Debug, Default, PartialEq, Eq)]
pub enum Growth {
    /// Nothing: the change is refused by [24](Refusal::NoRoom). [`Image::reserve`] makes room by hand.
    #[default]
    Fixed,
    /// Doubles the room until the change fits, up to [`MAX_SECTORS`].
    AsNeeded,
    /// The same, up to so many sectors.
    UpTo(usize),
}

impl Growth {
    /// The most sectors that it lets an image have room for.
    fn limit(self) -> usize {
        match self {
            Growth::Fixed => 0,
            Growth::AsNeeded => MAX_SECTORS,
            Growth::UpTo(sectors) => sectors.min(MAX_SECTORS),
        }
    }
}

/// An opened image that owns its bytes, its tables and its state, and keeps them together: nothing else can change one
/// without the others, and the tables always have the room. So refusals [11](Refusal::ShortTable) and
/// [19](Refusal::Disagrees) cannot be met by a mistake of the caller's.
///
/// Every call first has the library judge the whole image again, as it is meant to; that costs time in proportion to the
/// number of sectors (docs/BENCHMARKS.md). A call allocates a list of ids; [`Lent`](crate::Lent) allocates nothing.
///
/// ```
/// use rasuvelk::{Growth, Image, Validation};
///
/// # fn main() -> Result<(), Box<dyn std::error::Error>> {
/// let mut image = Image::open(std::fs::read("../examples/sample.xls")?, Validation::Strict)?;
/// image.set_growth(Growth::AsNeeded);
/// let end = image.chain(0)?.len();
/// let chain = image.write(0, end, b"one sector more")?;
/// assert_eq!(chain.sector_ids(), [0, 1, 2, 3, 4, 5, 6, 7, 10]);
///
/// let again = Image::open(image.bytes(), Validation::Strict)?;
/// assert_eq!(again.read_to_vec(0)?[4096..4111], *b"one sector more");
/// # Ok(())
/// # }
/// ```
#[derive(Clone)]
pub struct Image {
    /// The used bytes and, behind them, those that changes can grow into.
    bytes: Vec<u8>,
    fat: Vec<u32>,
    fats: Vec<u32>,
    difats: Vec<u32>,
    frees: Vec<u32>,
    marks: Vec<u8>,
    state: State,
    growth: Growth,
}

impl Image {
    /// Opens the bytes of a whole file.
    ///
    /// # Errors
    ///
    /// Refusals 1 to 10 and 12 to 18. Permissive never gives 7, 14 and 15; what it opens can be read, not changed.
    ///
    /// ```
    /// use rasuvelk::{Image, Refusal, Validation};
    ///
    /// # fn main() -> Result<(), Box<dyn std::error::Error>> {
    /// let mut file = std::fs::read("../examples/sample.xls")?;
    /// assert_eq!(Image::open(&file[..], Validation::Strict)?.num_sectors(), 10);
    /// file.pop();
    /// assert_eq!(Image::open(file, Validation::Strict), Err(Refusal::WholeSectors));
    /// # Ok(())
    /// # }
    /// ```
    pub fn open(bytes: impl Into<Vec<u8>>, validation: Validation) -> Result<Image, Refusal> {
        let bytes = bytes.into();
        // Before the version is known, sectors of 512 bytes ask for most.
        let room = room_for(bytes.len(), Version::V3);
        let list = || vec![0; room];
        let mut image = Image {
            fat: list(),
            fats: list(),
            difats: list(),
            frees: list(),
            marks: vec![0; room],
            bytes,
            state: State::none(),
            growth: Growth::Fixed,
        };
        let used = image.bytes.len();
        let Hand { state, image: lent, tables } = image.hand();
        ffi::open(lent, used, validation.mode(), tables, state)?;
        image.set_room(room_for(used, image.version()));
        Ok(image)
    }

    /// An image with no sectors: a header alone, opened strictly. It is not yet a compound file, since it has no
    /// directory; that is for the caller to write.
    ///
    /// # Errors
    ///
    /// None that is known: such a header opens.
    ///
    /// ```
    /// use rasuvelk::{Image, Version};
    ///
    /// # fn main() -> Result<(), rasuvelk::Refusal> {
    /// assert_eq!(Image::create(Version::V4)?.bytes().len(), 4096);
    /// # Ok(())
    /// # }
    /// ```
    pub fn create(version: Version) -> Result<Image, Refusal> {
        let mut bytes = vec![0; version.sector_len()];
        Header::new(version).write_to(&mut bytes)?;
        Image::open(bytes, Validation::Strict)
    }

    /// The ids of the chain from `start` on. A start inside a chain gives the chain from there on;
    /// [`END_OF_CHAIN`] is a chain of no sectors.
    ///
    /// # Errors
    ///
    /// Refusals 20 to 22.
    ///
    /// ```
    /// use rasuvelk::{Image, Refusal, Validation};
    ///
    /// # fn main() -> Result<(), Box<dyn std::error::Error>> {
    /// let image = Image::open(std::fs::read("../examples/sample.xls")?, Validation::Strict)?;
    /// assert_eq!(image.chain(5)?.sector_ids(), [5, 6, 7]);
    /// assert_eq!(image.chain(8), Err(Refusal::BrokenChain)); // the FAT's own sector
    /// assert_eq!(image.chain(10), Err(Refusal::BadStart));
    /// # Ok(())
    /// # }
    /// ```
    pub fn chain(&self, start: u32) -> Result<Chain, Refusal> {
        let mut ids = self.list();
        let told = ffi::open_chain(self.look(), &mut ids, start)?;
        Ok(self.chain_of(ids, told))
    }

    /// The first sector of each chain, ascending; see [`View::chain_starts`].
    ///
    /// ```
    /// use rasuvelk::{Image, Validation};
    ///
    /// # fn main() -> Result<(), Box<dyn std::error::Error>> {
    /// let image = Image::open(std::fs::read("../examples/sample.xls")?, Validation::Strict)?;
    /// assert_eq!(image.chain_starts(), [0, 9]);
    /// assert_eq!(image.header().first_dir_sector, 9);
    /// # Ok(())
    /// # }
    /// ```
    pub fn chain_starts(&self) -> Vec<u32> {
        self.view().chain_starts().collect()
    }

    /// Reads the chain from byte `offset` on into the front of a buffer: as many bytes as it has room for, or as the
    /// chain still has. Gives how many; the rest of the buffer stays.
    ///
    /// # Errors
    ///
    /// Refusals 20 to 23. The buffer stays then.
    ///
    /// ```
    /// use rasuvelk::{Image, Refusal, Validation};
    ///
    /// # fn main() -> Result<(), Box<dyn std::error::Error>> {
    /// let image = Image::open(std::fs::read("../examples/sample.xls")?, Validation::Strict)?;
    /// let mut name = [0; 20];
    /// assert_eq!(image.read(9, 0, &mut name)?, 20);
    /// assert_eq!(name, *b"R\0o\0o\0t\0 \0E\0n\0t\0r\0y\0");
    /// assert_eq!(image.read(9, 512, &mut name)?, 0);
    /// assert_eq!(image.read(9, 513, &mut name), Err(Refusal::Offset));
    /// # Ok(())
    /// # }
    /// ```
    pub fn read(&self, start: u32, offset: u64, buf: &mut [u8]) -> Result<usize, Refusal> {
        let mut ids = self.list();
        Ok(ffi::read_chain(self.look(), &mut ids, start, offset, buf)?.bytes)
    }

    /// All bytes of the chain.
    ///
    /// # Errors
    ///
    /// Refusals 20 to 22.
    ///
    /// ```
    /// use rasuvelk::{Image, Validation};
    ///
    /// # fn main() -> Result<(), Box<dyn std::error::Error>> {
    /// let image = Image::open(std::fs::read("../examples/sample.xls")?, Validation::Strict)?;
    /// assert_eq!(image.read_to_vec(0)?.len(), 4096);
    /// # Ok(())
    /// # }
    /// ```
    pub fn read_to_vec(&self, start: u32) -> Result<Vec<u8>, Refusal> {
        let mut bytes = vec![0; self.chain(start)?.len() as usize];
        let read = self.read(start, 0, &mut bytes)?;
        bytes.truncate(read);
        Ok(bytes)
    }

    /// Writes all of a buffer over the chain's bytes from byte `offset` on. The chain grows to hold it, and new bytes
    /// past the buffer are zero; [`END_OF_CHAIN`] begins a chain. Gives the chain after it: keep its start, if it was
    /// begun.
    ///
    /// # Errors
    ///
    /// Refusals 26, 20, 21, 22, 25, 23 and 24, in this order. The image stays as it was then.
    ///
    /// ```
    /// use rasuvelk::{Image, Refusal, Validation};
    ///
    /// # fn main() -> Result<(), Box<dyn std::error::Error>> {
    /// let mut image = Image::open(std::fs::read("../examples/sample.xls")?, Validation::Strict)?;
    /// image.write(0, 4000, b"over the old bytes")?;
    /// assert_eq!(image.read_to_vec(0)?[4000..4018], *b"over the old bytes");
    ///
    /// assert_eq!(image.write(1, 0, b"not the start"), Err(Refusal::MidChain));
    /// assert_eq!(image.write(0, 4097, b"a hole"), Err(Refusal::Offset));
    /// assert_eq!(image.write(0, 4096, b"no room"), Err(Refusal::NoRoom));
    /// # Ok(())
    /// # }
    /// ```
    pub fn write(&mut self, start: u32, offset: u64, buf: &[u8]) -> Result<Chain, Refusal> {
        let length = offset.saturating_add(buf.len() as u64);
        self.change(length, |hand, ids| ffi::write_chain(hand, ids, start, offset, buf))
    }

    /// Makes the chain as many sectors long as `length` bytes ask for, whatever number that is. New sectors are zero.
    /// Where there are no more than before, the tail is freed, and the bytes from `length` to the end of its sector become
    /// zero. Gives the chain after it: 0 frees it all, and [`END_OF_CHAIN`] begins one.
    ///
    /// # Errors
    ///
    /// Refusals 26, 20, 21, 22, 25 and 24, in this order. The image stays as it was then.
    ///
    /// ```
    /// use rasuvelk::{Image, Refusal, Validation};
    ///
    /// # fn main() -> Result<(), Box<dyn std::error::Error>> {
    /// let mut image = Image::open(std::fs::read("../examples/sample.xls")?, Validation::Strict)?;
    /// assert_eq!(image.resize(0, 1000)?.sector_ids(), [0, 1]);
    /// assert_eq!(image.view().free_sectors(), [2, 3, 4, 5, 6, 7]);
    /// assert_eq!(image.resize(0, 1025)?.sector_ids(), [0, 1, 7]);
    /// assert_eq!(image.resize(0, u64::MAX), Err(Refusal::NoRoom));
    /// # Ok(())
    /// # }
    /// ```
    pub fn resize(&mut self, start: u32, length: u64) -> Result<Chain, Refusal> {
        self.change(length, |hand, ids| ffi::resize_chain(hand, ids, start, length))
    }

    /// Frees the whole chain. Its sectors keep their bytes; what pointed to its start, such as a directory entry, is for
    /// the caller to mend.
    ///
    /// # Errors
    ///
    /// Refusals 26, 20, 21, 22 and 25, in this order. The image stays as it was then.
    ///
    /// ```
    /// use rasuvelk::{Image, Validation};
    ///
    /// # fn main() -> Result<(), Box<dyn std::error::Error>> {
    /// let mut image = Image::open(std::fs::read("../examples/sample.xls")?, Validation::Strict)?;
    /// image.free(0)?;
    /// assert_eq!(image.chain_starts(), [9]);
    /// # Ok(())
    /// # }
    /// ```
    pub fn free(&mut self, start: u32) -> Result<(), Refusal> {
        self.change(0, |hand, ids| ffi::free_chain(hand, ids, start)).map(|_| ())
    }

    /// Has the library judge that bytes, tables and state still are what an opening of the bytes gives. Every call does
    /// so first; this one does nothing else.
    ///
    /// # Errors
    ///
    /// None, unless something wrote to this image's memory from outside.
    ///
    /// ```
    /// # fn main() -> Result<(), rasuvelk::Refusal> {
    /// let image = rasuvelk::Image::create(rasuvelk::Version::V3)?;
    /// image.verify()?;
    /// # Ok(())
    /// # }
    /// ```
    pub fn verify(&self) -> Result<(), Refusal> {
        self.chain(END_OF_CHAIN).map(|_| ())
    }

    /// The used bytes: what to write to a file.
    ///
    /// ```
    /// # fn main() -> Result<(), rasuvelk::Refusal> {
    /// let mut image = rasuvelk::Image::create(rasuvelk::Version::V3)?;
    /// image.reserve(100);
    /// assert_eq!(image.bytes().len(), 512);
    /// # Ok(())
    /// # }
    /// ```
    pub fn bytes(&self) -> &[u8] {
        self.view().bytes()
    }

    /// The used bytes, without a copy.
    ///
    /// ```
    /// # fn main() -> Result<(), rasuvelk::Refusal> {
    /// let mut image = rasuvelk::Image::create(rasuvelk::Version::V3)?;
    /// image.reserve(100);
    /// assert_eq!(image.into_bytes().len(), 512);
    /// # Ok(())
    /// # }
    /// ```
    pub fn into_bytes(mut self) -> Vec<u8> {
        self.bytes.truncate(self.state.used());
        self.bytes
    }

    /// A look at its bytes and tables.
    ///
    /// ```
    /// # fn main() -> Result<(), rasuvelk::Refusal> {
    /// let image = rasuvelk::Image::create(rasuvelk::Version::V3)?;
    /// assert!(image.view().fat_sectors().is_empty());
    /// # Ok(())
    /// # }
    /// ```
    pub fn view(&self) -> View<'_> {
        View::of(self.look(), &self.state)
    }

    /// The state: mode, used bytes, counts, header.
    ///
    /// ```
    /// # fn main() -> Result<(), rasuvelk::Refusal> {
    /// let image = rasuvelk::Image::create(rasuvelk::Version::V3)?;
    /// assert!(image.state().validation().is_strict());
    /// # Ok(())
    /// # }
    /// ```
    pub fn state(&self) -> &State {
        &self.state
    }

    /// The header, as the image has it now.
    ///
    /// ```
    /// # fn main() -> Result<(), Box<dyn std::error::Error>> {
    /// # use rasuvelk::{Image, Validation};
    /// let image = Image::open(std::fs::read("../examples/sample.xls")?, Validation::Strict)?;
    /// assert_eq!(image.header().num_fat_sectors, 1);
    /// # Ok(())
    /// # }
    /// ```
    pub fn header(&self) -> Header {
        self.state.header()
    }

    /// The version.
    ///
    /// ```
    /// # fn main() -> Result<(), rasuvelk::Refusal> {
    /// # use rasuvelk::{Image, Version};
    /// assert_eq!(Image::create(Version::V4)?.version(), Version::V4);
    /// # Ok(())
    /// # }
    /// ```
    pub fn version(&self) -> Version {
        self.state.version()
    }

    /// Bytes of a sector.
    ///
    /// ```
    /// # fn main() -> Result<(), rasuvelk::Refusal> {
    /// # use rasuvelk::{Image, Version};
    /// assert_eq!(Image::create(Version::V4)?.sector_len(), 4096);
    /// # Ok(())
    /// # }
    /// ```
    pub fn sector_len(&self) -> usize {
        self.version().sector_len()
    }

    /// The sectors besides the header's.
    ///
    /// ```
    /// # fn main() -> Result<(), rasuvelk::Refusal> {
    /// # use rasuvelk::{Image, Version};
    /// assert_eq!(Image::create(Version::V4)?.num_sectors(), 0);
    /// # Ok(())
    /// # }
    /// ```
    pub fn num_sectors(&self) -> usize {
        self.state.num_sectors()
    }

    /// The most sectors that fit into the buffer as it is now.
    ///
    /// ```
    /// # fn main() -> Result<(), rasuvelk::Refusal> {
    /// # use rasuvelk::{Image, Version};
    /// assert_eq!(Image::create(Version::V4)?.room(), 0);
    /// # Ok(())
    /// # }
    /// ```
    pub fn room(&self) -> usize {
        room_for(self.bytes.len(), self.version())
    }

    /// Makes room for so many sectors more than there are now, at most [`MAX_SECTORS`] in all. A change needs room for
    /// new FAT and DIFAT sectors too: one for each 128 sectors (1,024 in version 4) and now and then one more. Gives the
    /// [`room`](Image::room) there is then.
    ///
    /// ```
    /// # fn main() -> Result<(), rasuvelk::Refusal> {
    /// # use rasuvelk::{Image, Version, END_OF_CHAIN};
    /// let mut image = Image::create(Version::V3)?;
    /// assert_eq!(image.reserve(3), 3);
    /// assert_eq!(image.write(END_OF_CHAIN, 0, &[7; 1000])?.sector_ids(), [1, 2]);
    /// assert_eq!(image.reserve(usize::MAX), 16_384);
    /// # Ok(())
    /// # }
    /// ```
    pub fn reserve(&mut self, sectors: usize) -> usize {
        let wanted = self.num_sectors().saturating_add(sectors).min(MAX_SECTORS);
        if wanted > self.room() {
            self.set_room(wanted);
        }
        self.room()
    }

    /// Gives back the room behind the used bytes.
    ///
    /// ```
    /// # fn main() -> Result<(), rasuvelk::Refusal> {
    /// # use rasuvelk::{Image, Version};
    /// let mut image = Image::create(Version::V3)?;
    /// image.reserve(3);
    /// image.shrink_to_fit();
    /// assert_eq!(image.room(), 0);
    /// # Ok(())
    /// # }
    /// ```
    pub fn shrink_to_fit(&mut self) {
        self.set_room(self.num_sectors());
        self.bytes.shrink_to_fit();
    }

    /// What is done where a change needs more room. It is [`Growth::Fixed`] unless it is chosen.
    ///
    /// ```
    /// # fn main() -> Result<(), rasuvelk::Refusal> {
    /// # use rasuvelk::{Growth, Image, Version};
    /// assert_eq!(Image::create(Version::V3)?.growth(), Growth::Fixed);
    /// # Ok(())
    /// # }
    /// ```
    pub fn growth(&self) -> Growth {
        self.growth
    }

    /// Chooses what is done where a change needs more room.
    ///
    /// ```
    /// # fn main() -> Result<(), rasuvelk::Refusal> {
    /// # use rasuvelk::{Growth, Image, Refusal, Version, END_OF_CHAIN};
    /// let mut image = Image::create(Version::V3)?;
    /// image.set_growth(Growth::UpTo(2));
    /// assert_eq!(image.resize(END_OF_CHAIN, 512)?.sector_ids(), [1]);
    /// assert_eq!(image.resize(1, 513), Err(Refusal::NoRoom));
    /// # Ok(())
    /// # }
    /// ```
    pub fn set_growth(&mut self, growth: Growth) {
        self.growth = growth;
    }

    fn look(&self) -> Look<'_> {
        let tables =
            Tables { fat: &self.fat, fats: &self.fats, difats: &self.difats, frees: &self.frees, marks: &self.marks };
        Look { state: &self.state.words, image: &self.bytes, tables }
    }

    fn hand(&mut self) -> Hand<'_> {
        let tables = TablesMut {
            fat: &mut self.fat,
            fats: &mut self.fats,
            difats: &mut self.difats,
            frees: &mut self.frees,
            marks: &mut self.marks,
        };
        Hand { state: &mut self.state.words, image: &mut self.bytes, tables }
    }

    /// A list of ids with the room that a call asks for.
    fn list(&self) -> Vec<u32> {
        vec![0; self.room()]
    }

    fn chain_of(&self, ids: Vec<u32>, told: Told) -> Chain {
        Chain::of(ids, told.ids, self.sector_len())
    }

    /// Asks for a change by which a chain has at least `length` bytes, and where there is no room for it makes some, as
    /// long as the growth allows. A change that stays refused leaves the room as it was too.
    fn change(
        &mut self,
        length: u64,
        call: impl Fn(Hand<'_>, &mut [u32]) -> Result<Told, Refusal>,
    ) -> Result<Chain, Refusal> {
        let before = self.room();
        loop {
            let mut ids = self.list();
            match call(self.hand(), &mut ids) {
                Ok(told) => return Ok(self.chain_of(ids, told)),
                Err(Refusal::NoRoom) if self.grow(length) => {}
                Err(refusal) => {
                    self.set_room(before);
                    return Err(refusal);
                }
            }
        }
    }

    /// Doubles the room, as far as the growth allows. Not where a chain of so many bytes could not be had then either.
    fn grow(&mut self, length: u64) -> bool {
        let (room, limit) = (self.room(), self.growth.limit());
        let asked = length.div_ceil(self.sector_len() as u64);
        if room >= limit || asked > limit as u64 {
            return false;
        }
        self.set_room(room.saturating_mul(2).max(2).min(limit));
        true
    }

    /// Makes the buffer and every table as long as so many sectors ask for, and never shorter than the used part.
    fn set_room(&mut self, sectors: usize) {
        let sectors = sectors.clamp(self.num_sectors().min(MAX_SECTORS), MAX_SECTORS);
        self.bytes.resize((sectors + 1) * self.sector_len(), 0);
        for table in [&mut self.fat, &mut self.fats, &mut self.difats, &mut self.frees] {
            table.resize(sectors, 0);
        }
        self.marks.resize(sectors, 0);
    }
}

/// Two images are the same where their bytes, states and free lists are: spare room and growth are not looked at.
impl PartialEq for Image {
    fn eq(&self, other: &Image) -> bool {
        let same = self.state == other.state && self.bytes() == other.bytes();
        same && self.view().free_sectors() == other.view().free_sectors()
    }
}

impl Eq for Image {}

impl fmt::Debug for Image {
    fn fmt(&self, out: &mut fmt::Formatter<'_>) -> fmt::Result {
        out.debug_struct("Image")
            .field("state", &self.state)
            .field("room", &self.room())
            .field("growth", &self.growth)
            .finish_non_exhaustive()
    }
}
