//! The original's types of marks and references.

use std::fmt;
use std::num::NonZero;
use std::ops::{Add, AddAssign, Index, Sub};

/// The number of a mark. A store takes 0 to 1,048,575.
#[derive(Clone, Copy, PartialEq, Eq, PartialOrd, Ord, Hash)]
#[repr(transparent)]
pub struct MarkId(NonZero<u32>);

impl MarkId {
    pub const ZERO: Self = Self::new(0);
    pub const MAX: Self = Self(NonZero::<u32>::MAX);
    pub const MAX_USIZE: usize = u32::MAX as usize - 1;

    pub const fn new(x: u32) -> Self {
        Self::try_new(x).expect("Index overflow: value exceeds maximum representable index")
    }

    pub const fn try_new(x: u32) -> Option<Self> {
        match NonZero::new(x.wrapping_add(1)) {
            Some(raw) => Some(Self(raw)),
            None => None,
        }
    }

    pub const fn const_get(self) -> u32 {
        self.0.get() - 1
    }

    pub fn get(self) -> u32 {
        self.const_get()
    }

    pub fn idx(self) -> usize {
        self.get() as usize
    }
}

impl Default for MarkId {
    fn default() -> Self {
        Self::ZERO
    }
}

impl Add<u32> for MarkId {
    type Output = Self;

    fn add(self, rhs: u32) -> Self {
        Self::new(self.get() + rhs)
    }
}

impl AddAssign<u32> for MarkId {
    fn add_assign(&mut self, rhs: u32) {
        *self = *self + rhs;
    }
}

impl Sub<u32> for MarkId {
    type Output = Self;

    fn sub(self, rhs: u32) -> Self {
        Self::new(self.get() - rhs)
    }
}

impl Sub for MarkId {
    type Output = u32;

    fn sub(self, rhs: Self) -> u32 {
        self.get() - rhs.get()
    }
}

impl TryFrom<usize> for MarkId {
    type Error = ();

    fn try_from(value: usize) -> Result<Self, ()> {
        u32::try_from(value).ok().and_then(Self::try_new).ok_or(())
    }
}

impl fmt::Debug for MarkId {
    fn fmt(&self, f: &mut fmt::Formatter<'_>) -> fmt::Result {
        write!(f, "MarkId({})", self.get())
    }
}

impl fmt::Display for MarkId {
    fn fmt(&self, f: &mut fmt::Formatter<'_>) -> fmt::Result {
        write!(f, "{}", self.get())
    }
}

#[derive(Debug, Clone, Copy, PartialEq, Eq, Hash)]
pub struct Span<T> {
    pub start: T,
    pub end: T,
}

impl<T> Span<T> {
    pub const fn new(start: T, end: T) -> Self {
        Self { start, end }
    }
}

#[repr(u8)]
#[derive(Debug, Clone, Copy, PartialEq, Eq, PartialOrd, Ord)]
pub enum RefSize {
    S1 = 1,
    S2 = 2,
    S3 = 3,
    S4 = 4,
}

#[derive(Debug, Clone, Copy)]
pub enum MarkReference {
    Direct(MarkId),
    Delta(Span<MarkId>),
}

#[derive(Debug, Clone, Copy)]
pub struct AsmReference {
    pub mark_ref: MarkReference,
    pub set_size: Option<RefSize>,
    pub pushed: bool,
}

impl AsmReference {
    pub fn new_direct(id: MarkId) -> Self {
        Self::pushed(MarkReference::Direct(id))
    }

    pub fn new_delta(start: MarkId, end: MarkId) -> Self {
        Self::pushed(MarkReference::Delta(Span { start, end }))
    }

    pub fn pushed(mark_ref: MarkReference) -> Self {
        Self {
            mark_ref,
            set_size: None,
            pushed: true,
        }
    }

    /// Set size plus 8 if pushed.
    pub(crate) fn form(self) -> u32 {
        self.set_size.map_or(0, |size| size as u32) + if self.pushed { 8 } else { 0 }
    }
}

/// A word of 32 bytes, highest first.
#[derive(Debug, Clone, Copy, PartialEq, Eq, Hash)]
pub struct U256(pub [u8; 32]);

impl U256 {
    pub const fn from_be_bytes(bytes: [u8; 32]) -> Self {
        Self(bytes)
    }
}

impl From<u64> for U256 {
    fn from(value: u64) -> Self {
        let mut word = [0; 32];
        word[24..].copy_from_slice(&value.to_be_bytes());
        Self(word)
    }
}

impl From<u32> for U256 {
    fn from(value: u32) -> Self {
        Self::from(u64::from(value))
    }
}

/// The original's `IndexVec<MarkId, u32>`: the offset of each placed mark, 0 for the others.
#[derive(Debug, Clone, PartialEq, Eq)]
pub struct MarkOffsets(pub Vec<u32>);

impl MarkOffsets {
    pub fn len(&self) -> usize {
        self.0.len()
    }

    pub fn is_empty(&self) -> bool {
        self.0.is_empty()
    }
}

impl Index<MarkId> for MarkOffsets {
    type Output = u32;

    fn index(&self, id: MarkId) -> &u32 {
        &self.0[id.idx()]
    }
}
