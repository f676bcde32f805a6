//! Offsets and deltas around 2^24 through the wrapper and through the original: code, offsets and the section of a too small
//! set size are compared, the wrapper's also by settling and then writing. far.sh compiles it with both.
//!
//! A list is: a reference to mark 0; op 5b; mark 1; the same reference; data; mark 0; the same reference again. It is made
//! direct and as a delta from mark 1, in each of the ten forms, with 2^24 - 8 to 2^24 bytes stored in all.

/// A delta or direct, a set size (0 for none), pushed.
type Form = (bool, usize, bool);

/// What both come to: code and the two offsets, or the section.
type Answer = Result<(Vec<u8>, [u32; 2]), usize>;

macro_rules! answer {
    ($from:ident, $others:ident, $form:expr, $data:expr, $assembled:expr, $error:ident => $section:expr) => {{
        use $from::{AsmReference, Assembler, MarkId, MarkReference, RefSize::*};
        let (delta, size, pushed) = $form;
        let [target, start] = [0, 1].map(MarkId::new);
        let reference = AsmReference {
            mark_ref: if delta {
                MarkReference::Delta($others::Span::new(start, target))
            } else {
                MarkReference::Direct(target)
            },
            set_size: [None, Some(S1), Some(S2), Some(S3), Some(S4)][size],
            pushed,
        };
        let mut asm = Assembler::with_capacity(0, 0);
        asm.push_reference(reference);
        asm.push_op_byte(0x5b);
        asm.push_mark(start);
        asm.push_reference(reference);
        asm.push_data($data);
        asm.push_mark(target);
        asm.push_reference(reference);
        let mut code = Vec::new();
        match $assembled(&asm, &mut code) {
            Ok(table) => Ok((code, [table[target], table[start]])),
            Err($error) => Err($section),
        }
    }};
}

/// The wrapper's assembly, which settling and writing must come to as well.
fn assembled(asm: &sadrokki::Assembler, code: &mut Vec<u8>) -> Result<sadrokki::MarkOffsets, sadrokki::AssembleError> {
    let answer = asm.assemble(code, None);
    let mut written = Vec::new();
    let pair = asm.settle(None).and_then(|settled| asm.write(&mut written, &settled.offsets).map(|()| settled.offsets));
    assert!(pair == answer && written == *code, "settling and writing differ from assembly");
    answer
}

fn ours(form: Form, data: &[u8]) -> Answer {
    answer!(sadrokki, sadrokki, form, data, assembled, error => match error {
        sadrokki::AssembleError::RefHasTooSmallSetSize(section) => section,
        other => panic!("{other:?}"),
    })
}

fn originals(form: Form, data: &[u8]) -> Answer {
    answer!(assembler, plank_core, form, data, |asm: &assembler::Assembler, code| asm.assemble(code, None), error => {
        let assembler::AssembleError::RefHasTooSmallSetSize(section) = error;
        section
    })
}

fn main() {
    let data: Vec<u8> = (0..1 << 24).map(|i: u32| (i ^ i >> 8 ^ i >> 16) as u8).collect();
    let (mut lists, mut coded, mut past) = (0, 0, 0);
    for stored in (1 << 24) - 8..=1 << 24 {
        for form in 0..20 {
            let form: Form = (form >= 10, form % 5, form / 5 % 2 == 1);
            // The op byte is stored too.
            let (ours, original) = (ours(form, &data[1..stored]), originals(form, &data[1..stored]));
            if ours != original {
                println!("{stored} bytes stored, delta, set size, pushed {form:?}: differs");
                std::process::exit(1);
            }
            lists += 1;
            if let Ok((_, [target, _])) = ours {
                coded += 1;
                past += (target >= 1 << 24) as usize;
            }
        }
    }
    println!("{lists} lists, 0 differ: {coded} code, {} a too small set size; mark 0 at 2^24 or past it in {past}", lists - coded);
}
