//! Stands in for `alloy_primitives`: what the assembler uses of its `U256`.

#[derive(Clone, Copy)]
pub struct U256 {
    high: u128,
    low: u128,
}

impl U256 {
    /// From 32 bytes, highest first.
    pub fn from_be_bytes(word: [u8; 32]) -> Self {
        let (high, low) = word.split_at(16);
        Self {
            high: u128::from_be_bytes(high.try_into().unwrap()),
            low: u128::from_be_bytes(low.try_into().unwrap()),
        }
    }

    pub fn is_zero(&self) -> bool {
        self.high == 0 && self.low == 0
    }

    /// Zero bits above the highest set bit.
    pub fn leading_zeros(&self) -> usize {
        match self.high {
            0 => 128 + self.low.leading_zeros() as usize,
            high => high.leading_zeros() as usize,
        }
    }

    /// The number's 32 bytes, lowest first.
    pub fn to_le_bytes<const N: usize>(&self) -> [u8; N] {
        [self.low.to_le_bytes(), self.high.to_le_bytes()].concat().try_into().unwrap()
    }
}

impl From<u64> for U256 {
    fn from(value: u64) -> Self {
        Self { high: 0, low: value.into() }
    }
}

impl From<u32> for U256 {
    fn from(value: u32) -> Self {
        Self { high: 0, low: value.into() }
    }
}
