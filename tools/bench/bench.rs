//! Times the proved assembler and, where it is built in (`--cfg original`), the original, on the
//! same calls in one run: the least of several interleaved turns. Checks that both gave the same
//! bytes, and prints a table whose last column is ours to original.

mod calls;
mod ours;
#[cfg(original)]
mod theirs;

#[cfg(not(original))]
mod theirs {
    //! No original: every method does nothing, and its column is left empty.
    pub struct Theirs {
        pub table: Vec<u32>,
        pub result: Vec<u8>,
        pub text: String,
    }
    impl Theirs {
        pub fn new(_: usize, _: usize, _: usize, _: usize) -> Self {
            Theirs { table: Vec::new(), result: Vec::new(), text: String::new() }
        }
        pub fn clear(&mut self) {}
        pub fn call(&mut self, _: &crate::calls::Call) {}
        pub fn assemble(&mut self) -> usize {
            0
        }
        pub fn keep_table(&mut self) {}
        pub fn write_asm(&mut self) -> usize {
            0
        }
    }
}

use calls::{Call, Random};
use ours::Ours;
use std::time::{Duration, Instant};
use theirs::Theirs;

const ORIGINAL: bool = cfg!(original);

/// Both sides with memory for the same calls, and the calls made.
struct Pair {
    ours: Ours,
    theirs: Theirs,
    calls: Vec<Call>,
}

impl Pair {
    fn new(calls: Vec<Call>, text: usize) -> Self {
        let bytes = calls.iter().map(|c| if let Call::Data(n) | Call::Run(n) = c { *n } else { 33 }).sum();
        let marks = 1 + calls.iter().map(|c| if let Call::Mark(m) = c { *m as usize } else { 0 }).max().unwrap_or(0);
        let mut pair = Pair {
            ours: Ours::new(bytes, calls.len(), marks, text),
            theirs: Theirs::new(bytes, calls.len(), marks, text),
            calls,
        };
        for call in &pair.calls {
            pair.ours.call(call);
            pair.theirs.call(call);
        }
        pair
    }

    fn sections(&self) -> u64 {
        self.ours.state >> 32
    }
}

/// The least time of either side over so many turns, one turn of each after the other.
fn least(turns: u32, pair: &mut Pair, ours: fn(&mut Pair), theirs: fn(&mut Pair)) -> (Duration, Duration) {
    let mut best = (Duration::MAX, Duration::MAX);
    for _ in 0..turns {
        let start = Instant::now();
        ours(pair);
        best.0 = best.0.min(start.elapsed());
        if ORIGINAL {
            let start = Instant::now();
            theirs(pair);
            best.1 = best.1.min(start.elapsed());
        }
    }
    best
}

fn shown(ns: f64) -> String {
    match ns {
        0.0..100.0 => format!("{ns:.2} ns"),
        100.0..1e4 => format!("{ns:.0} ns"),
        1e4..1e6 => format!("{:.1} us", ns / 1e3),
        _ => format!("{:.2} ms", ns / 1e6),
    }
}

/// A row as it is kept: the name, ours and the original's nanoseconds, divided by a number; NaN if the original wasn't timed.
fn row(name: &str, best: (Duration, Duration), by: f64) {
    let theirs = if best.1 == Duration::MAX { f64::NAN } else { best.1.as_nanos() as f64 / by };
    println!("{name}\t{}\t{theirs}", best.0.as_nanos() as f64 / by);
}

/// The rows of several links of this program as one table: the least of each.
fn table(kept: &str) {
    let mut rows: Vec<(&str, f64, f64)> = Vec::new();
    for line in kept.lines() {
        let mut parts = line.split('\t');
        let name = parts.next().expect("a name");
        let mut time = || parts.next().and_then(|t| t.parse::<f64>().ok()).expect("a time");
        let (ours, theirs) = (time(), time());
        match rows.iter_mut().find(|row| row.0 == name) {
            Some(row) => *row = (name, row.1.min(ours), row.2.min(theirs)),
            None => rows.push((name, ours, theirs)),
        }
    }
    println!("| row | ours | original | ratio |\n|---|---|---|---|");
    for (name, ours, theirs) in rows {
        if theirs.is_nan() {
            println!("| {name} | {} | | |", shown(ours));
        } else {
            println!("| {name} | {} | {} | {:.2} |", shown(ours), shown(theirs), ours / theirs);
        }
    }
}

/// The rows whose name has this text, all if there is none.
fn wanted(name: &str) -> bool {
    std::env::args().nth(1).is_none_or(|part| name.contains(&part))
}

fn building(name: &str, calls: Vec<Call>) {
    if !wanted(name) {
        return;
    }
    let name = format!("{name}, {} calls", calls.len());
    let mut pair = Pair::new(calls, 1);
    let best = least(
        200,
        &mut pair,
        |p| {
            p.ours.clear();
            for call in &p.calls {
                p.ours.call(call);
            }
        },
        |p| {
            p.theirs.clear();
            for call in &p.calls {
                p.theirs.call(call);
            }
        },
    );
    row(&name, best, 1.0);
    compare_code(&mut pair);
}

fn compare_code(pair: &mut Pair) -> u32 {
    let (length, passes) = pair.ours.assemble();
    compare_original(pair, length);
    passes
}

/// Ours are the original's code and table.
fn compare_original(pair: &mut Pair, length: usize) {
    if ORIGINAL {
        pair.theirs.keep_table();
        assert!(pair.ours.result[..length] == pair.theirs.result[..], "different code");
        let placed = &pair.theirs.table[..pair.ours.table.len()];
        assert!(pair.ours.table == placed, "different tables");
    }
}

fn time_assemble(turns: u32, pair: &mut Pair) -> (Duration, Duration) {
    least(
        turns,
        pair,
        |p| {
            std::hint::black_box(p.ours.assemble());
        },
        |p| {
            std::hint::black_box(p.theirs.assemble());
        },
    )
}

fn assembling(name: &str, turns: u32, calls: Vec<Call>) {
    if !wanted(&format!("`assemble`, {name}")) {
        return;
    }
    let mut pair = Pair::new(calls, 1);
    let passes = compare_code(&mut pair);
    let (length, _) = pair.ours.assemble();
    let best = time_assemble(turns, &mut pair);
    row(&format!("`assemble`, {name}: {} sections, {length} bytes, {passes} passes", pair.sections()), best, 1.0);
}

/// Assembly in two calls, beside the original's one.
fn settling(name: &str, turns: u32, calls: Vec<Call>) {
    let name = format!("`settle`, then `write`, {name}");
    if !wanted(&name) {
        return;
    }
    let mut pair = Pair::new(calls, 1);
    pair.ours.table.fill(0xee);
    let (length, passes) = pair.ours.settle();
    assert!(pair.ours.write() == length, "another length written");
    compare_original(&mut pair, length);
    let best = least(
        turns,
        &mut pair,
        |p| {
            std::hint::black_box(p.ours.settle());
            std::hint::black_box(p.ours.write());
        },
        |p| {
            std::hint::black_box(p.theirs.assemble());
        },
    );
    row(&format!("{name}: {} sections, {length} bytes, {passes} passes", pair.sections()), best, 1.0);
}

/// What a write costs beside its sections. Ours alone: a thousand in a turn.
fn writing_nothing() {
    let name = "`write`, an empty store";
    if !wanted(name) {
        return;
    }
    let mut pair = Pair::new(Vec::new(), 1);
    let write = |p: &mut Pair| {
        for _ in 0..1000 {
            std::hint::black_box(p.ours.write());
        }
    };
    let (best, _) = least(200, &mut pair, write, |_| {});
    row(name, (best, Duration::MAX), 1000.0);
}

fn listing(name: &str, turns: u32, calls: Vec<Call>) {
    if !wanted(&format!("`write_asm`, {name}")) {
        return;
    }
    let text = 48 * calls.len() + 70000;
    let mut pair = Pair::new(calls, text);
    let length = pair.ours.write_asm();
    pair.theirs.write_asm();
    assert!(!ORIGINAL || pair.ours.text[..length] == *pair.theirs.text.as_bytes(), "different text");
    let best = least(
        turns,
        &mut pair,
        |p| {
            std::hint::black_box(p.ours.write_asm());
        },
        |p| {
            std::hint::black_box(p.theirs.write_asm());
        },
    );
    row(&format!("`write_asm`, {name}: {} sections, {length} bytes of text", pair.sections()), best, 1.0);
}

fn growth(sections: u32, turns: u32) {
    if !wanted("growth") {
        return;
    }
    let mut pair = Pair::new(calls::blocks(sections, 11), 1);
    let passes = compare_code(&mut pair);
    let best = time_assemble(turns, &mut pair);
    row(&format!("`assemble`, each section and pass: {sections} sections, {passes} passes"), best, sections as f64 * passes as f64);
}

/// So many bytes before the code that is linked after this file: where a loop comes to lie moves its
/// time by up to a third, for both sides.
#[cfg(shift)]
mod shift {
    core::arch::global_asm!(
        ".pushsection .text.shift,\"ax\",@progbits\n.globl bench_shift\nbench_shift: .skip {}\n.popsection",
        const include!(concat!(env!("SHIFT"), "/shift")),
    );
    unsafe extern "C" {
        fn bench_shift();
    }
    #[used]
    static SHIFT: unsafe extern "C" fn() = bench_shift;
}

fn main() {
    if std::env::args().nth(1).is_some_and(|word| word == "--table") {
        let file = std::env::args().nth(2).expect("a file of rows");
        table(&std::fs::read_to_string(file).expect("readable"));
        return;
    }
    let many = 100_000;
    let mut r = Random(7);
    building("building, mix", calls::contract(6000, 3));
    building("`push_op_byte`", vec![Call::Op(0x01); many]);
    building("`push_op_bytes` (32)", vec![Call::Run(32); many]);
    building("mark+run 8, `push_op_bytes` (8)", (0..many as u32).flat_map(|m| [Call::Mark(m), Call::Run(8)]).collect());
    building("`push_swap`", vec![Call::Swap(3); many]);
    building("`push_dup`", vec![Call::Dup(3); many]);
    building("`push_exchange`", vec![Call::Exchange(3, 5); many]);
    building("`push_minimal_u32`", (0..many).map(|_| Call::U32(r.below(70000))).collect());
    building("`push_minimal_u64`", (0..many).map(|_| Call::U64(r.below(1 << 31) as u64 * 12345)).collect());
    for zeros in [0, 12, 31] {
        building(&format!("`push_minimal_u256`, {zeros} leading zeros"), (0..many).map(|_| Call::U256(calls::word(zeros, &mut r))).collect());
    }
    building("`push_data`, 32 bytes", vec![Call::Data(32); many]);
    building("`push_mark`", (0..many as u32).map(Call::Mark).collect());
    let marks = (0..many as u32).map(Call::Mark);
    building("`push_mark`, then `push_reference` direct", marks.clone().chain((0..many as u32).map(|m| Call::Direct(m, 8))).collect());
    building("`push_mark`, then `push_reference` delta", marks.chain((0..many as u32).map(|m| Call::Delta(0, m, 8))).collect());
    assembling("a contract with 700 marks", 2000, calls::contract(700, 5));
    assembling("200,000 marks in blocks", 40, calls::blocks(800_000, 11));
    assembling("200,000 marks, mixed kinds", 40, calls::mixed(800_000, 13));
    assembling("line 11", 40, calls::line_11(1022, 61449));
    settling("a contract with 700 marks", 2000, calls::contract(700, 5));
    settling("200,000 marks in blocks", 40, calls::blocks(800_000, 11));
    settling("200,000 marks, mixed kinds", 40, calls::mixed(800_000, 13));
    writing_nothing();
    listing("blocks", 20, calls::blocks(800_000, 11));
    listing("mixed kinds", 20, calls::mixed(800_000, 13));
    listing("a contract with 700 marks", 200, calls::contract(700, 5));
    for (sections, turns) in [(10_000, 1000), (100_000, 100), (1_000_000, 30)] {
        growth(sections, turns);
    }
}
