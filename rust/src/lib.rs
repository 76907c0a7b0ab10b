#![doc = include_str!("../README.md")]
#![deny(missing_docs)]
#![deny(unsafe_code)]
#![deny(rustdoc::broken_intra_doc_links)]
#![warn(clippy::indexing_slicing, clippy::unwrap_used, clippy::expect_used, clippy::panic)]

mod chain;
mod consts;
#[allow(unsafe_code)]
mod ffi;
mod header;
mod image;
mod lent;
mod refusal;
mod state;
mod view;

pub use chain::Chain;
pub use consts::{kind_of, prettify, Kind, Sector};
pub use consts::{DIFAT_SECTOR, END_OF_CHAIN, FAT_SECTOR, FREE_SECTOR, INVALID_SECTOR, MAX_REGULAR_SECTOR};
pub use consts::{HEADER_LEN, MAX_SECTORS, NUM_DIFAT_ENTRIES_IN_HEADER};
pub use header::{Header, Validation, Version};
pub use image::{Growth, Image};
pub use lent::{room_for, Lent, Memory};
pub use refusal::Refusal;
pub use state::State;
pub use view::View;

/// The Rust in docs/MOVING-FROM-CFB.md, run as a test.
#[cfg(doctest)]
#[doc = include_str!("../../docs/MOVING-FROM-CFB.md")]
struct Moving;
