//! Stand-in for the parts of `allocator_api2` that `index_vec/mod.rs` and the assembler use: the
//! standard `Vec` with an allocator beside it that nothing uses. Every function is inlined.

pub mod alloc {
    pub trait Allocator {}
    #[derive(Clone, Copy, Default, Debug)]
    pub struct Global;
    impl Allocator for Global {}
}

pub mod vec {
    use super::alloc::{Allocator, Global};
    use std::ops::{Deref, DerefMut};
    use std::vec::Vec as StdVec;

    #[derive(Debug)]
    pub struct Vec<T, A: Allocator = Global> {
        items: StdVec<T>,
        alloc: A,
    }

    impl<T> Vec<T, Global> {
        #[inline]
        pub const fn new() -> Self {
            Vec { items: StdVec::new(), alloc: Global }
        }

        #[inline]
        pub fn with_capacity(capacity: usize) -> Self {
            Vec { items: StdVec::with_capacity(capacity), alloc: Global }
        }
    }

    impl<T, A: Allocator> Vec<T, A> {
        #[inline]
        pub fn new_in(alloc: A) -> Self {
            Vec { items: StdVec::new(), alloc }
        }

        #[inline]
        pub fn with_capacity_in(capacity: usize, alloc: A) -> Self {
            Vec { items: StdVec::with_capacity(capacity), alloc }
        }

        #[inline]
        pub fn len(&self) -> usize {
            self.items.len()
        }

        #[inline]
        pub fn push(&mut self, item: T) {
            self.items.push(item)
        }

        #[inline]
        pub fn clear(&mut self) {
            self.items.clear()
        }

        #[inline]
        pub fn reserve(&mut self, additional: usize) {
            self.items.reserve(additional)
        }

        #[inline]
        pub fn capacity(&self) -> usize {
            self.items.capacity()
        }

        #[inline]
        pub fn resize(&mut self, len: usize, item: T)
        where
            T: Clone,
        {
            self.items.resize(len, item)
        }

        #[inline]
        pub fn extend_from_slice(&mut self, more: &[T])
        where
            T: Clone,
        {
            self.items.extend_from_slice(more)
        }

        #[inline]
        pub fn as_slice(&self) -> &[T] {
            &self.items
        }

        #[inline]
        pub fn as_mut_slice(&mut self) -> &mut [T] {
            &mut self.items
        }
    }

    impl<T, A: Allocator> Deref for Vec<T, A> {
        type Target = [T];
        #[inline]
        fn deref(&self) -> &[T] {
            &self.items
        }
    }

    impl<T, A: Allocator> DerefMut for Vec<T, A> {
        #[inline]
        fn deref_mut(&mut self) -> &mut [T] {
            &mut self.items
        }
    }

    impl<T: Clone, A: Allocator + Clone> Clone for Vec<T, A> {
        fn clone(&self) -> Self {
            Vec { items: self.items.clone(), alloc: self.alloc.clone() }
        }
    }

    impl<T> FromIterator<T> for Vec<T, Global> {
        fn from_iter<I: IntoIterator<Item = T>>(iter: I) -> Self {
            Vec { items: StdVec::from_iter(iter), alloc: Global }
        }
    }
}
