//! `name` and `push_size` of the original's op.rs, and small calls that it doesn't have. Its constants aren't here: they are the
//! opcodes' numbers.

use crate::calls;
use std::sync::OnceLock;

pub fn name(opcode: u8) -> &'static str {
    static NAMES: OnceLock<Vec<String>> = OnceLock::new();
    &NAMES.get_or_init(|| (0..=255).map(written).collect())[usize::from(opcode)]
}

fn written(opcode: u8) -> String {
    let mut name = vec![0; 14];
    let answer = calls::op_name(opcode, &mut name);
    name.truncate(answer.low());
    String::from_utf8(name).unwrap()
}

pub fn push_size(opcode: u8) -> Option<u8> {
    Some(calls::push_size(opcode) as u8).filter(|size| *size != 0)
}

/// Whether a jump may land at an offset of a code.
pub fn lands(code: &[u8], offset: usize) -> bool {
    calls::lands(code, offset) == 1
}

/// What a scan for the first byte that isn't 0 finds: the zeros before it, all the bytes if there is none, and the bytes looked
/// at, up to and with that byte.
#[derive(Debug, Clone, Copy, PartialEq, Eq)]
pub struct Scan {
    pub zeros: usize,
    pub looked: usize,
}

/// The scan of a word's bytes, highest first, or of any others: bytes are counted, not bits. Both counts come added, and the second is the first or one more.
pub fn leading_zeros(bytes: &[u8]) -> Scan {
    let both = calls::leading_zeros(bytes) as usize;
    Scan {
        zeros: both / 2,
        looked: both - both / 2,
    }
}
