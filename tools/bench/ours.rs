//! The proved assembler, by the functions that the archive exports. The slices are large enough.

use crate::calls::{Call, DATA};

unsafe extern "C" {
    fn sadrokki_push_mark(s: u64, b: *const u8, bn: usize, w: *mut u32, wn: usize, mark: u32) -> u64;
    fn sadrokki_push_op_byte(s: u64, b: *mut u8, bn: usize, w: *mut u32, wn: usize, byte: u8) -> u64;
    fn sadrokki_push_op_bytes(s: u64, b: *mut u8, bn: usize, w: *mut u32, wn: usize, d: *const u8, dn: usize) -> u64;
    fn sadrokki_push_swap(s: u64, b: *mut u8, bn: usize, w: *mut u32, wn: usize, depth: u8) -> u64;
    fn sadrokki_push_dup(s: u64, b: *mut u8, bn: usize, w: *mut u32, wn: usize, depth: u8) -> u64;
    fn sadrokki_push_exchange(s: u64, b: *mut u8, bn: usize, w: *mut u32, wn: usize, n: u8, m: u8) -> u64;
    fn sadrokki_push_minimal_u256(s: u64, b: *mut u8, bn: usize, w: *mut u32, wn: usize, d: *const u8, dn: usize) -> u64;
    fn sadrokki_push_minimal_u64(s: u64, b: *mut u8, bn: usize, w: *mut u32, wn: usize, value: u64) -> u64;
    fn sadrokki_push_minimal_u32(s: u64, b: *mut u8, bn: usize, w: *mut u32, wn: usize, value: u32) -> u64;
    fn sadrokki_push_data(s: u64, b: *mut u8, bn: usize, w: *mut u32, wn: usize, d: *const u8, dn: usize) -> u64;
    fn sadrokki_push_direct(s: u64, b: *const u8, bn: usize, w: *mut u32, wn: usize, mark: u32, form: u32) -> u64;
    fn sadrokki_push_delta(s: u64, b: *const u8, bn: usize, w: *mut u32, wn: usize, start: u32, end: u32, form: u32) -> u64;
    fn sadrokki_assemble(s: u64, b: *const u8, bn: usize, w: *const u32, wn: usize, t: *mut u32, tn: usize, r: *mut u8, rn: usize, position: usize) -> u64;
    fn sadrokki_settle(s: u64, b: *const u8, bn: usize, w: *const u32, wn: usize, t: *mut u32, tn: usize) -> u64;
    fn sadrokki_write(s: u64, b: *const u8, bn: usize, w: *const u32, wn: usize, t: *const u32, tn: usize, r: *mut u8, rn: usize, position: usize) -> u64;
    fn sadrokki_write_asm(s: u64, b: *const u8, bn: usize, w: *const u32, wn: usize, t: *mut u8, tn: usize) -> u64;
}

/// The store's state, with the memory that is lent to it.
pub struct Ours {
    pub state: u64,
    bytes: Vec<u8>,
    words: Vec<u32>,
    pub table: Vec<u32>,
    pub result: Vec<u8>,
    pub text: Vec<u8>,
}

impl Ours {
    pub fn new(bytes: usize, sections: usize, marks: usize, text: usize) -> Self {
        Ours {
            state: 0,
            bytes: vec![0; bytes],
            words: vec![0; 3 * sections],
            table: vec![0; marks],
            result: vec![0; bytes + 5 * sections],
            text: vec![0; text],
        }
    }

    pub fn clear(&mut self) {
        self.state = 0;
    }

    #[inline]
    pub fn call(&mut self, call: &Call) {
        let s = self.state;
        let (b, bn) = (self.bytes.as_mut_ptr(), self.bytes.len());
        let (w, wn) = (self.words.as_mut_ptr(), self.words.len());
        // Safety: each pointer is that of a live slice, with its length.
        let next = unsafe {
            match *call {
                Call::Mark(m) => sadrokki_push_mark(s, b, bn, w, wn, m),
                Call::Op(o) => sadrokki_push_op_byte(s, b, bn, w, wn, o),
                Call::Run(n) => sadrokki_push_op_bytes(s, b, bn, w, wn, DATA.as_ptr(), n),
                Call::Swap(d) => sadrokki_push_swap(s, b, bn, w, wn, d),
                Call::Dup(d) => sadrokki_push_dup(s, b, bn, w, wn, d),
                Call::Exchange(n, m) => sadrokki_push_exchange(s, b, bn, w, wn, n, m),
                Call::U256(limbs) => {
                    let mut word = [0u8; 32];
                    for i in 0..4 {
                        word[8 * i..8 * i + 8].copy_from_slice(&limbs[3 - i].to_be_bytes());
                    }
                    sadrokki_push_minimal_u256(s, b, bn, w, wn, word.as_ptr(), 32)
                }
                Call::U64(v) => sadrokki_push_minimal_u64(s, b, bn, w, wn, v),
                Call::U32(v) => sadrokki_push_minimal_u32(s, b, bn, w, wn, v),
                Call::Data(n) => sadrokki_push_data(s, b, bn, w, wn, DATA.as_ptr(), n),
                Call::Direct(m, form) => sadrokki_push_direct(s, b, bn, w, wn, m, form),
                Call::Delta(m, e, form) => sadrokki_push_delta(s, b, bn, w, wn, m, e, form),
            }
        };
        assert!(next >> 56 == 0, "refused: {}", next >> 56);
        self.state = next;
    }

    /// The code's length and the passes; the code stands in `result`, from its start on.
    pub fn assemble(&mut self) -> (usize, u32) {
        // Safety: as above.
        let answer = unsafe {
            sadrokki_assemble(
                self.state,
                self.bytes.as_ptr(),
                self.bytes.len(),
                self.words.as_ptr(),
                self.words.len(),
                self.table.as_mut_ptr(),
                self.table.len(),
                self.result.as_mut_ptr(),
                self.result.len(),
                0,
            )
        };
        assert!(answer >> 56 == 0, "refused: {} at {}", answer >> 56, answer as u32);
        (answer as u32 as usize, (answer >> 32) as u32)
    }

    /// The code's length and the passes; the offsets stand in `table`.
    pub fn settle(&mut self) -> (usize, u32) {
        // Safety: as above.
        let answer = unsafe {
            sadrokki_settle(
                self.state,
                self.bytes.as_ptr(),
                self.bytes.len(),
                self.words.as_ptr(),
                self.words.len(),
                self.table.as_mut_ptr(),
                self.table.len(),
            )
        };
        assert!(answer >> 56 == 0, "refused: {} at {}", answer >> 56, answer as u32);
        (answer as u32 as usize, (answer >> 32) as u32)
    }

    /// The code's length, by the offsets in `table`; the code stands in `result`, from its start on.
    pub fn write(&mut self) -> usize {
        // Safety: as above.
        let answer = unsafe {
            sadrokki_write(
                self.state,
                self.bytes.as_ptr(),
                self.bytes.len(),
                self.words.as_ptr(),
                self.words.len(),
                self.table.as_ptr(),
                self.table.len(),
                self.result.as_mut_ptr(),
                self.result.len(),
                0,
            )
        };
        assert!(answer >> 32 == 0, "refused: {} at {}", answer >> 56, answer as u32);
        answer as usize
    }

    /// The text's length; it stands in `text`, from its start on.
    pub fn write_asm(&mut self) -> usize {
        // Safety: as above.
        let answer = unsafe {
            sadrokki_write_asm(
                self.state,
                self.bytes.as_ptr(),
                self.bytes.len(),
                self.words.as_ptr(),
                self.words.len(),
                self.text.as_mut_ptr(),
                self.text.len(),
            )
        };
        assert!(answer >> 56 == 0, "refused: {}", answer >> 56);
        answer as usize
    }
}
