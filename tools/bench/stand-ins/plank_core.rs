//! Stand-in for the root file of `plank_core`: only the modules that the sources have.

pub mod const_print;
pub mod index;
pub mod index_vec;
pub mod span;

pub use index::Idx;
pub use index_vec::{IndexSlice, IndexVec};
pub use span::Span;
