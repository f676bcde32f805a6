//! Stands in for `allocator_api2`: its `Vec` is the standard one, and the allocator is a name only.

pub mod alloc {
    pub trait Allocator {}

    #[derive(Clone)]
    pub struct Global;

    impl Allocator for Global {}
}

pub mod vec {
    use super::alloc::{Allocator, Global};
    use std::marker::PhantomData;
    use std::ops::{Deref, DerefMut};

    #[derive(Clone)]
    pub struct Vec<T, A: Allocator = Global>(std::vec::Vec<T>, PhantomData<A>);

    impl<T> Vec<T, Global> {
        pub const fn new() -> Self {
            Self(std::vec::Vec::new(), PhantomData)
        }

        pub fn with_capacity(capacity: usize) -> Self {
            Self(std::vec::Vec::with_capacity(capacity), PhantomData)
        }
    }

    impl<T, A: Allocator> Vec<T, A> {
        pub fn new_in(_: A) -> Self {
            Self(std::vec::Vec::new(), PhantomData)
        }

        pub fn with_capacity_in(capacity: usize, _: A) -> Self {
            Self(std::vec::Vec::with_capacity(capacity), PhantomData)
        }
    }

    impl<T> FromIterator<T> for Vec<T, Global> {
        fn from_iter<I: IntoIterator<Item = T>>(items: I) -> Self {
            Self(std::vec::Vec::from_iter(items), PhantomData)
        }
    }

    impl<T, A: Allocator> Deref for Vec<T, A> {
        type Target = std::vec::Vec<T>;

        fn deref(&self) -> &Self::Target {
            &self.0
        }
    }

    impl<T, A: Allocator> DerefMut for Vec<T, A> {
        fn deref_mut(&mut self) -> &mut Self::Target {
            &mut self.0
        }
    }

    impl<T: std::fmt::Debug, A: Allocator> std::fmt::Debug for Vec<T, A> {
        fn fmt(&self, f: &mut std::fmt::Formatter<'_>) -> std::fmt::Result {
            self.0.fmt(f)
        }
    }
}
