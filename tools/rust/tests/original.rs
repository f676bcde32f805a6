//! Random call lists through the wrapper and through the original: code, offsets, error section and listing are compared, the
//! wrapper's code by assembly and by settling and writing. test.sh compiles it with the original's libraries. LISTS and SEED
//! set how many lists, and from which seed.

use std::panic::{AssertUnwindSafe, catch_unwind};

/// Splitmix64.
struct Random(u64);

impl Random {
    fn next(&mut self) -> u64 {
        self.0 = self.0.wrapping_add(0x9e37_79b9_7f4a_7c15);
        let mut x = self.0;
        x = (x ^ (x >> 30)).wrapping_mul(0xbf58_476d_1ce4_e5b9);
        x = (x ^ (x >> 27)).wrapping_mul(0x94d0_49bb_1331_11eb);
        x ^ (x >> 31)
    }

    fn below(&mut self, n: u64) -> u64 {
        self.next() % n
    }

    fn one_of<T: Copy>(&mut self, values: &[T]) -> T {
        values[self.below(values.len() as u64) as usize]
    }
}

#[derive(Debug, Clone)]
enum Call {
    Clear,
    Mark(u32),
    Op(u8),
    Run(Vec<u8>),
    Swap(u8),
    Dup(u8),
    Exchange(u8, u8),
    U256([u8; 32]),
    U64(u64),
    U32(u32),
    Data(Vec<u8>),
    /// A start, or none if the reference is direct; the mark; a set size, 0 for none; pushed.
    Reference(Option<u32>, u32, u8, bool),
}

fn reference(random: &mut Random, marks: u64) -> Call {
    let start = (random.below(3) == 0).then(|| random.below(marks) as u32);
    let size = random.one_of(&[0, 0, 0, 0, 1, 2, 2, 3, 4]);
    Call::Reference(
        start,
        random.below(marks) as u32,
        size,
        random.below(4) != 0,
    )
}

fn data(random: &mut Random) -> Call {
    let most = random.one_of(&[1, 4, 40, 300, 300, 70_000]);
    let byte = random.next() as u8;
    Call::Data(vec![byte; random.below(most) as usize])
}

fn run(random: &mut Random) -> Call {
    let most = random.one_of(&[0, 3, 40, 40]);
    let length = random.below(most + 1);
    Call::Run((0..length).map(|_| random.next() as u8).collect())
}

fn any_call(random: &mut Random, marks: u64) -> Call {
    match random.below(26) {
        0..=8 => reference(random, marks),
        9..=11 => data(random),
        12..=14 => Call::Op(random.next() as u8),
        15 => Call::Swap(random.below(17) as u8),
        16 => Call::Dup(random.below(16) as u8),
        17 => Call::Exchange(random.below(18) as u8, random.below(17) as u8),
        18 => {
            let mut word = [0; 32];
            let zeros = random.below(33) as usize;
            word[zeros..].fill_with(|| random.next() as u8);
            Call::U256(word)
        }
        19 => {
            let bits = random.below(64);
            Call::U64(random.next() >> bits)
        }
        20 => {
            let bits = random.below(32) + 32;
            Call::U32((random.next() >> bits) as u32)
        }
        21 if random.below(20) == 0 => Call::Clear,
        22..=23 => run(random),
        _ => Call::Mark(random.below(marks) as u32),
    }
}

/// Calls in any order; in most lists each mark is then placed once, and deltas go forward.
fn call_list(random: &mut Random) -> Vec<Call> {
    let marks = random.one_of(&[1, 2, 4, 9, 150]);
    let length = random.one_of(&[3, 8, 30, 120]);
    let mut calls: Vec<Call> = (0..random.below(length))
        .map(|_| any_call(random, marks))
        .collect();
    if random.below(8) == 0 {
        return calls;
    }
    calls.retain(|call| !matches!(call, Call::Mark(_) | Call::Clear));
    let mut at: Vec<usize> = (0..marks)
        .map(|_| random.below(calls.len() as u64 + 1) as usize)
        .collect();
    at.sort();
    for (mark, at) in at.into_iter().enumerate().rev() {
        calls.insert(at, Call::Mark(mark as u32));
    }
    for call in &mut calls {
        if let Call::Reference(Some(start), end, _, _) = call {
            if start > end && random.below(20) != 0 {
                std::mem::swap(start, end);
            }
        }
    }
    calls
}

/// A run of op bytes, for which the original has no call.
trait Runs {
    fn push_run(&mut self, ops: &[u8]);
}

impl Runs for sadrokki::Assembler {
    fn push_run(&mut self, ops: &[u8]) {
        self.push_op_bytes(ops);
    }
}

impl Runs for assembler::Assembler {
    fn push_run(&mut self, ops: &[u8]) {
        ops.iter().for_each(|byte| self.push_op_byte(*byte));
    }
}

/// The same calls on either assembler; the others have the same names.
macro_rules! make {
    ($asm:ident, $call:ident, $from:ident, $word:ty, $others:ident) => {{
        let mark = |mark| $from::MarkId::new(mark);
        match $call {
            Call::Clear => $asm.clear(),
            Call::Mark(id) => $asm.push_mark(mark(*id)),
            Call::Op(byte) => $asm.push_op_byte(*byte),
            Call::Run(ops) => $asm.push_run(ops),
            Call::Swap(depth) => $asm.push_swap(*depth),
            Call::Dup(depth) => $asm.push_dup(*depth),
            Call::Exchange(n, m) => $asm.push_exchange(*n, *m),
            Call::U256(word) => $asm.push_minimal_u256(<$word>::from_be_bytes(*word)),
            Call::U64(value) => $asm.push_minimal_u64(*value),
            Call::U32(value) => $asm.push_minimal_u32(*value),
            Call::Data(data) => $asm.push_data(data),
            Call::Reference(start, end, size, pushed) => {
                use $from::RefSize::*;
                $asm.push_reference($from::AsmReference {
                    mark_ref: match start {
                        None => $from::MarkReference::Direct(mark(*end)),
                        Some(start) => $from::MarkReference::Delta($others::Span::new(
                            mark(*start),
                            mark(*end),
                        )),
                    },
                    set_size: [None, Some(S1), Some(S2), Some(S3), Some(S4)][*size as usize],
                    pushed: *pushed,
                })
            }
        }
    }};
}

/// What assembly came to: code and the placed marks' offsets; the section of a reference that is too narrow; our other
/// refusal's number; or that the original panicked.
#[derive(Debug, PartialEq)]
enum Outcome {
    Code(Vec<u8>, Vec<u32>),
    Narrow(usize),
    Refused(u32),
    Panicked,
}

fn placed(calls: &[Call]) -> Vec<u32> {
    let from = calls
        .iter()
        .rposition(|call| matches!(call, Call::Clear))
        .unwrap_or(0);
    let marks = calls[from..].iter();
    marks
        .filter_map(|call| {
            if let Call::Mark(mark) = call {
                Some(*mark)
            } else {
                None
            }
        })
        .collect()
}

/// What the wrapper appended to 1, 2, 3 with this answer.
fn outcome(
    calls: &[Call],
    result: Vec<u8>,
    answer: Result<sadrokki::MarkOffsets, sadrokki::AssembleError>,
) -> Outcome {
    match answer {
        Ok(table) => {
            let offsets = placed(calls)
                .into_iter()
                .map(|m| table[sadrokki::MarkId::new(m)])
                .collect();
            Outcome::Code(result, offsets)
        }
        Err(error) => {
            assert_eq!(result, [1, 2, 3]);
            match error {
                sadrokki::AssembleError::RefHasTooSmallSetSize(section) => Outcome::Narrow(section),
                _ => Outcome::Refused(error.number()),
            }
        }
    }
}

/// The wrapper's outcomes, of assembly and of settling and writing, and listing; none if a call is refused.
fn ours(calls: &[Call], hint: Option<usize>) -> Option<([Outcome; 2], String)> {
    let mut asm = sadrokki::Assembler::with_capacity(0, 0);
    let built = catch_unwind(AssertUnwindSafe(|| {
        calls
            .iter()
            .for_each(|call| make!(asm, call, sadrokki, sadrokki::U256, sadrokki));
    }));
    built.ok()?;
    let mut result = vec![1, 2, 3];
    let answer = asm.assemble(&mut result, hint);
    let assembled = outcome(calls, result, answer);
    let mut result = vec![1, 2, 3];
    let answer = asm.settle(hint).and_then(|settled| {
        asm.write(&mut result, &settled.offsets)?;
        assert_eq!(result.len(), 3 + settled.length);
        Ok(settled.offsets)
    });
    let written = outcome(calls, result, answer);
    Some(([assembled, written], asm.to_string()))
}

/// The original's.
fn originals(calls: &[Call], hint: Option<usize>) -> Option<(Outcome, String)> {
    let mut asm = assembler::Assembler::with_capacity(0, 0);
    let built = catch_unwind(AssertUnwindSafe(|| {
        calls
            .iter()
            .for_each(|call| make!(asm, call, assembler, alloy_primitives::U256, plank_core));
    }));
    built.ok()?;
    let mut result = vec![1, 2, 3];
    let outcome = match catch_unwind(AssertUnwindSafe(|| asm.assemble(&mut result, hint))) {
        Ok(Ok(table)) => {
            let offsets = placed(calls)
                .into_iter()
                .map(|m| table[assembler::MarkId::new(m)])
                .collect();
            Outcome::Code(result, offsets)
        }
        Ok(Err(assembler::AssembleError::RefHasTooSmallSetSize(section))) => {
            Outcome::Narrow(section)
        }
        Err(_) => Outcome::Panicked,
    };
    Some((outcome, asm.to_string()))
}

/// May the original answer this, where we answer that?
fn agree(ours: &Outcome, original: &Outcome) -> bool {
    match ours {
        Outcome::Code(..) | Outcome::Narrow(_) => ours == original,
        // Unplaced: an entry that is 0 or isn't there.
        Outcome::Refused(8 | 17 | 18) => true,
        // Placed apart: never settled, unless a reference is too narrow before.
        Outcome::Refused(9) => !matches!(original, Outcome::Code(..)),
        // Unsettled, backward: a panic.
        Outcome::Refused(11 | 12) => *original == Outcome::Panicked,
        _ => false,
    }
}

fn setting(name: &str, default: u64) -> u64 {
    std::env::var(name).map_or(default, |text| text.parse().unwrap())
}

#[test]
fn same_as_the_original() {
    std::panic::set_hook(Box::new(|_| {}));
    let mut random = Random(setting("SEED", 2026));
    let mut seen = std::collections::BTreeMap::new();
    for list in 0..setting("LISTS", 20_000) {
        let calls = call_list(&mut random);
        let hint = random.one_of(&[None, Some(0), Some(7)]);
        let kind = match (ours(&calls, hint), originals(&calls, hint)) {
            (None, None) => "a call refused, and a panic".to_string(),
            (Some(ours), Some(original)) => {
                let [assembled, written] = &ours.0;
                if !agree(assembled, &original.0) || written != assembled || ours.1 != original.1 {
                    let _ = std::panic::take_hook();
                    panic!("list {list} differs: {calls:?}\nours {ours:?}\noriginal {original:?}");
                }
                match assembled {
                    Outcome::Code(..) => "code".to_string(),
                    Outcome::Narrow(_) => "number 10".to_string(),
                    Outcome::Refused(number) => format!("number {number}"),
                    Outcome::Panicked => unreachable!(),
                }
            }
            (ours, original) => {
                let _ = std::panic::take_hook();
                panic!("list {list} differs: {calls:?}\nours {ours:?}\noriginal {original:?}")
            }
        };
        *seen.entry(kind).or_insert(0) += 1;
    }
    let _ = std::panic::take_hook();
    println!("{seen:?}");
    for kind in [
        "code",
        "number 8",
        "number 9",
        "number 10",
        "number 12",
        "number 17",
        "number 18",
        "a call refused, and a panic",
    ] {
        assert!(seen.contains_key(kind), "no list came to: {kind}");
    }
}
