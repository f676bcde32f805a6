//! Stand-in for the parts of `alloy_primitives::U256` that the assembler uses: four limbs, lowest
//! first, as the original has them.

#[derive(Clone, Copy, PartialEq, Eq, Debug)]
pub struct U256([u64; 4]);

impl U256 {
    #[inline]
    pub const fn from_limbs(limbs: [u64; 4]) -> Self {
        U256(limbs)
    }

    #[inline]
    pub fn is_zero(&self) -> bool {
        self.0 == [0; 4]
    }

    /// Zero bits above the highest set bit; 256 for zero.
    #[inline]
    pub fn leading_zeros(&self) -> usize {
        for (i, limb) in self.0.iter().rev().enumerate() {
            if *limb != 0 {
                return 64 * i + limb.leading_zeros() as usize;
            }
        }
        256
    }

    #[inline]
    pub fn to_le_bytes<const N: usize>(&self) -> [u8; N] {
        assert!(N == 32);
        let mut out = [0u8; N];
        for (i, limb) in self.0.iter().enumerate() {
            out[8 * i..8 * i + 8].copy_from_slice(&limb.to_le_bytes());
        }
        out
    }
}

impl From<u64> for U256 {
    #[inline]
    fn from(value: u64) -> Self {
        U256([value, 0, 0, 0])
    }
}

impl From<u32> for U256 {
    #[inline]
    fn from(value: u32) -> Self {
        U256::from(value as u64)
    }
}
