//! Makes the calls of a replay script (docs/REPLAY.md) on the original `Assembler`: driver [HINT] < SCRIPT, where HINT is
//! the hint for `assemble` (none by default). A line for each step, as replay prints it; `?` stands for what the original
//! doesn't answer, and a panic is the line `panic: ` with its message.

use alloy_primitives::U256;
use assembler::{AsmReference, AssembleError, Assembler, MarkId, MarkReference, RefSize};
use plank_core::{IndexVec, Span};
use std::io::{Read, Write};
use std::panic::{AssertUnwindSafe, catch_unwind};

/// A text that takes no more than so many bytes, as the lent listing buffer.
struct Text {
    text: String,
    most: usize,
}

impl std::fmt::Write for Text {
    fn write_str(&mut self, more: &str) -> std::fmt::Result {
        if more.len() > self.most - self.text.len() {
            return Err(std::fmt::Error);
        }
        self.text.push_str(more);
        Ok(())
    }
}

struct Run {
    asm: Assembler,
    table: Option<IndexVec<MarkId, u32>>,
    result: Vec<u8>,
    listing: Text,
}

impl Run {
    fn new(most: usize) -> Self {
        let listing = Text { text: String::new(), most };
        Run { asm: Assembler::with_capacity(0, 0), table: None, result: Vec::new(), listing }
    }
}

/// The names of `StoredAsmSection`, in its order.
const KINDS: [&str; 14] = [
    "Mark",
    "Ops",
    "Data",
    "DirectMarkRef",
    "UnsizedPushedDeltaRef",
    "Size1PushedDeltaRef",
    "Size2PushedDeltaRef",
    "Size3PushedDeltaRef",
    "Size4PushedDeltaRef",
    "UnsizedRawDeltaRef",
    "Size1RawDeltaRef",
    "Size2RawDeltaRef",
    "Size3RawDeltaRef",
    "Size4RawDeltaRef",
];

fn numbers(text: &str) -> Vec<u32> {
    text.split(|c: char| !c.is_ascii_digit()).filter(|digits| !digits.is_empty()).map(|digits| digits.parse().unwrap()).collect()
}

/// The stored bytes and the sections, three words each. Both are private, so they are read from the `Debug` text.
fn stored(asm: &Assembler) -> (Vec<u32>, Vec<u32>) {
    let text = format!("{asm:?}");
    let (bytes, sections) = text.split_once("sections: [").unwrap();
    let mut words = Vec::new();
    // A section's text ends at its only `))` or `})`.
    for section in sections.replace("))", "})").split("})") {
        let Some((name, fields)) = section.split_once('(') else { break };
        let kind = KINDS.iter().position(|kind| *kind == name.trim_start_matches(", ")).unwrap();
        let numbers = numbers(fields);
        let pushed = if fields.contains("pushed: true") { 8 } else { 0 };
        words.extend([kind as u32, numbers[0], numbers.get(1).unwrap_or(&0) + pushed]);
    }
    (numbers(bytes), words)
}

/// What a call answers, or its panic's line.
fn caught<T>(call: impl FnOnce() -> T) -> Result<T, String> {
    catch_unwind(AssertUnwindSafe(call)).map_err(|panic| {
        let fixed = panic.downcast_ref::<&str>().map(|text| text.to_string());
        format!("panic: {}", fixed.or(panic.downcast_ref::<String>().cloned()).unwrap_or_default())
    })
}

fn building(asm: &mut Assembler, call: impl FnOnce(&mut Assembler)) -> String {
    caught(|| call(asm)).map_or_else(
        |panic| panic,
        |()| {
            let (bytes, words) = stored(asm);
            format!("stored {} {}", bytes.len(), words.len() / 3)
        },
    )
}

fn reference(asm: &mut Assembler, mark_ref: impl FnOnce() -> MarkReference, form: u32) -> String {
    let set_size = [None, Some(RefSize::S1), Some(RefSize::S2), Some(RefSize::S3), Some(RefSize::S4)][form as usize % 8];
    building(asm, |asm| asm.push_reference(AsmReference { mark_ref: mark_ref(), set_size, pushed: form >= 8 }))
}

fn assemble(run: &mut Run, position: usize, hint: Option<usize>) -> String {
    run.table = None;
    run.result.resize(position, 0xa5); // the original appends
    match caught(|| run.asm.assemble(&mut run.result, hint)) {
        Ok(Ok(table)) => {
            run.table = Some(table);
            format!("length {} passes ?", run.result.len() - position)
        }
        Ok(Err(AssembleError::RefHasTooSmallSetSize(section))) => format!("refused 10 at {section} passes ?"),
        Err(panic) => panic,
    }
}

/// The original has no call that settles: it assembles, and the code is dropped.
fn settle(run: &mut Run, hint: Option<usize>) -> String {
    let kept = std::mem::take(&mut run.result);
    let line = assemble(run, 0, hint);
    run.result = kept;
    line
}

fn list(run: &mut Run) -> String {
    run.listing.text.clear();
    match caught(|| run.asm.write_asm(&mut run.listing)) {
        Ok(Ok(())) => format!("listing {}", run.listing.text.len()),
        Ok(Err(error)) => format!("error: {error}"),
        Err(panic) => panic,
    }
}

/// The items from a to b in hex, with `?` for those that aren't there.
fn hex(name: &str, a: usize, b: usize, digits: usize, item: impl Fn(usize) -> Option<u32>) -> String {
    let one = |i| item(i).map_or("?".repeat(digits), |x| format!("{x:0digits$x}"));
    format!("{name} {}", (a..b).map(one).collect::<String>())
}

fn step(run: &mut Run, pool: &[u8], hint: Option<usize>, kind: u8, a: u32, b: u32) -> String {
    let (from, to) = (a as usize, b as usize);
    let asm = &mut run.asm;
    match kind {
        0 => {
            *run = Run::new(run.listing.most);
            "new".into()
        }
        1 => building(asm, |asm| asm.push_mark(MarkId::new(a))),
        2 => building(asm, |asm| asm.push_op_byte(a as u8)),
        3 => building(asm, |asm| asm.push_data(&pool[from..to])),
        4 => reference(asm, || MarkReference::Direct(MarkId::new(a)), b),
        5 => building(asm, |asm| asm.push_swap(a as u8)),
        6 => building(asm, |asm| asm.push_dup(a as u8)),
        7 => building(asm, |asm| asm.push_exchange(a as u8, b as u8)),
        8 => match pool[from..to].try_into() {
            Ok(word) => building(asm, |asm| asm.push_minimal_u256(U256::from_be_bytes(word))),
            Err(_) => "?".into(),
        },
        9 => building(asm, |asm| asm.push_minimal_u64((a as u64) << 32 | b as u64)),
        10 => building(asm, |asm| asm.push_minimal_u32(a)),
        11 => building(asm, |asm| asm.clear()),
        // The original has no call for a run.
        12 => building(asm, |asm| pool[from..to].iter().for_each(|&byte| asm.push_op_byte(byte))),
        20 => assemble(run, from, hint),
        21 => list(run),
        23 => settle(run, hint),
        24 => {
            let bytes = stored(asm).0;
            hex("bytes", from, to, 2, |i| bytes.get(i).copied())
        }
        25 => {
            let words = stored(asm).1;
            hex("words", from, to, 8, |i| words.get(i).copied())
        }
        26 => hex("table", from, to, 8, |i| run.table.as_ref()?.get(MarkId::new(i as u32)).copied()),
        27 => hex("result", from, to, 2, |i| run.result.get(i).map(|&byte| byte.into())),
        28 => (from..to).map(|i| *run.listing.text.as_bytes().get(i).unwrap_or(&b'?') as char).collect(),
        // Nor has it one that writes from a table: it makes its own.
        29 => assemble(run, from, hint),
        32.. => reference(asm, || MarkReference::Delta(Span::new(MarkId::new(a), MarkId::new(b))), kind as u32 - 32),
        _ => "?".into(),
    }
}

fn main() {
    std::panic::set_hook(Box::new(|_| {}));
    let hint = std::env::args().nth(1).map(|text| text.parse().unwrap());
    let mut script = Vec::new();
    std::io::stdin().read_to_end(&mut script).unwrap();
    let number = |bytes: &[u8]| u32::from_be_bytes(bytes.try_into().unwrap());
    let (pool, steps) = script[24..].split_at(number(&script[20..24]) as usize);
    let mut out = std::io::BufWriter::new(std::io::stdout().lock());
    let mut run = Run::new(number(&script[16..20]) as usize);
    for bytes in steps.chunks(9) {
        let line = step(&mut run, pool, hint, bytes[0], number(&bytes[1..5]), number(&bytes[5..9]));
        let end = if bytes[0] == 28 { "" } else { "\n" };
        write!(out, "{line}{end}").unwrap();
    }
}
