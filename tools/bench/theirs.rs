//! The original, unchanged. Its lists have their capacity from the start.

use crate::calls::{Call, DATA};
use alloy_primitives::U256;
use assembler::{AsmReference, Assembler, MarkId, MarkReference, RefSize};
use plank_core::Span;

pub struct Theirs {
    asm: Assembler,
    marks: usize,
    pub table: Vec<u32>,
    pub result: Vec<u8>,
    pub text: String,
}

fn set_size(form: u32) -> Option<RefSize> {
    match form % 8 {
        0 => None,
        1 => Some(RefSize::S1),
        2 => Some(RefSize::S2),
        3 => Some(RefSize::S3),
        _ => Some(RefSize::S4),
    }
}

impl Theirs {
    pub fn new(bytes: usize, sections: usize, marks: usize, text: usize) -> Self {
        Theirs {
            asm: Assembler::with_capacity(bytes, sections),
            marks,
            table: Vec::new(),
            result: Vec::with_capacity(bytes + 5 * sections),
            text: String::with_capacity(text),
        }
    }

    pub fn clear(&mut self) {
        self.asm.clear();
    }

    #[inline]
    pub fn call(&mut self, call: &Call) {
        let asm = &mut self.asm;
        match *call {
            Call::Mark(m) => asm.push_mark(MarkId::new(m)),
            Call::Op(o) => asm.push_op_byte(o),
            Call::Run(n) => {
                for &byte in &DATA[..n] {
                    asm.push_op_byte(byte);
                }
            }
            Call::Swap(d) => asm.push_swap(d),
            Call::Dup(d) => asm.push_dup(d),
            Call::Exchange(n, m) => asm.push_exchange(n, m),
            Call::U256(limbs) => asm.push_minimal_u256(U256::from_limbs(limbs)),
            Call::U64(v) => asm.push_minimal_u64(v),
            Call::U32(v) => asm.push_minimal_u32(v),
            Call::Data(n) => asm.push_data(&DATA[..n]),
            Call::Direct(m, form) => asm.push_reference(AsmReference {
                mark_ref: MarkReference::Direct(MarkId::new(m)),
                set_size: set_size(form),
                pushed: form >= 8,
            }),
            Call::Delta(m, e, form) => asm.push_reference(AsmReference {
                mark_ref: MarkReference::Delta(Span { start: MarkId::new(m), end: MarkId::new(e) }),
                set_size: set_size(form),
                pushed: form >= 8,
            }),
        }
    }

    /// The code's length. With a hint as large as the table, so that the table doesn't grow.
    pub fn assemble(&mut self) -> usize {
        self.result.clear();
        let table = self.asm.assemble(&mut self.result, Some(self.marks)).expect("assembled");
        std::hint::black_box(&table);
        self.result.len()
    }

    /// The table, once more and untimed.
    pub fn keep_table(&mut self) {
        self.result.clear();
        let table = self.asm.assemble(&mut self.result, Some(self.marks)).expect("assembled");
        self.table = table.as_raw_slice().to_vec();
    }

    pub fn write_asm(&mut self) -> usize {
        self.text.clear();
        self.asm.write_asm(&mut self.text).expect("written");
        self.text.len()
    }
}
