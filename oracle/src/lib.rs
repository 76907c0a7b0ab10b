//! The Rust of cfb 0.15.0, unchanged, beside the compiled library and a model of the specification.
//!
//! - `internal` (only where the Rust is at hand, `cfg(oracle)`): the four files over stand-ins of ours.
//! - `asked`: what the four files answer, in the numbers of the specification.
//! - `abi`: the functions of the archive, or of the model with the feature `model`.
//! - `model`: the same functions, written from the specification alone.
//! - `held`: one opening, asked of the library and of the model; `against` (`cfg(oracle)`): of the Rust too.
//! - `called`: one call on a chain, asked of the library and of the model; `chained` (`cfg(oracle)`): of the Rust too.
//! - `changed`: one call that changes a chain, asked of the library and of the model; `edited` (`cfg(oracle)`): a list of
//!   them, asked of the Rust too, which keeps its own tables and bytes from one to the next.
//! - `replay` (`cfg(oracle)`): the fixed list of answers for a program that has no Rust at hand.
//! - `inputs`, `random`: headers and lists to compare on, the same at every run.
//! - `layout`, `damage`, `openings`, `lengths`: images to open, whole and damaged, and how they are lent.
//! - `calls`, `tamper`: calls on the chains of opened images; states and tables that no opening gave.
//! - `edits`: images with room after them, and random changes of their chains.
//! - `meant`: where the Rust's reader of headers may differ.

#[cfg(oracle)]
#[macro_use]
mod stops;
#[cfg(oracle)]
mod numbers;
#[cfg(oracle)]
mod set;

#[cfg(oracle)]
pub mod against;
#[cfg(oracle)]
pub mod asked;
#[cfg(oracle)]
pub mod chained;
#[cfg(oracle)]
pub mod edited;
#[cfg(oracle)]
pub mod image;
#[cfg(oracle)]
pub mod internal;
#[cfg(oracle)]
pub mod replay;

pub mod abi;
pub mod called;
pub mod calls;
pub mod changed;
pub mod damage;
pub mod edits;
pub mod held;
pub mod inputs;
pub mod layout;
pub mod lengths;
pub mod meant;
pub mod model;
pub mod openings;
pub mod random;
pub mod tamper;

// The four files ask for `fnv::FnvHashSet` and, from the crate's root, for the two traits.
#[cfg(oracle)]
extern crate self as fnv;
#[cfg(oracle)]
pub use numbers::{ReadLeNumber, WriteLeNumber};
#[cfg(oracle)]
pub use set::FnvHashSet;
