//! Stands in for plank-core's `index_vec/idx_slice.rs`, which the assembler never uses.

pub struct IndexSlice<I, T>(std::marker::PhantomData<I>, [T]);

impl<I, T> IndexSlice<I, T> {
    pub fn from_raw(_: &[T]) -> &Self {
        unimplemented!("a stand-in")
    }
}
