//! The module that the four files expect to stand in: they themselves, and stand-ins for what they use.
//!
//! What alloc.rs keeps private is seen from outside, without a change to the file; `image.rs` does it:
//!
//! - The FAT in memory, permissive repairs too, by `Allocator::next` for each sector. An entry that is no
//!   link stands in the words of the error, and so does the number of entries.
//! - The FAT, the lists and the counts on disk, from the bytes behind `Allocator::inner`.
//! - The free list by taking every sector of it and giving them back in the opposite order, which leaves
//!   the list as it was. `SectorInit::Keep`, which only our stand-in has, makes this leave the sectors'
//!   bytes alone, and each FAT entry is FREE again afterwards.

mod sector;
mod version;

include!(concat!(env!("OUT_DIR"), "/internal.rs"));

pub use self::alloc::Allocator;
pub use self::chain::Chain;
pub use self::header::Header;
pub use self::sector::{Sector, SectorInit, Sectors};
pub use self::version::{Validation, Version};
