//! Stands in for plank-core's `lib.rs`: the modules that are at hand, and the names they are used by.

pub mod const_print;
pub mod index;
pub mod index_vec;
pub mod span;

pub use index::Idx;
pub use index_vec::{IndexSlice, IndexVec};
pub use span::Span;
