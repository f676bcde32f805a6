//! The calls that both sides are given, and the lists of them that the rows are made of.

/// A building call. A form is a set size, 0 for unsized, plus 8 if pushed.
#[derive(Clone, Copy)]
pub enum Call {
    Mark(u32),
    Op(u8),
    /// So many op bytes in one call; the original has none for it, and is given them one by one.
    Run(usize),
    Swap(u8),
    Dup(u8),
    Exchange(u8, u8),
    U256([u64; 4]),
    U64(u64),
    U32(u32),
    /// So many data bytes.
    Data(usize),
    Direct(u32, u32),
    Delta(u32, u32, u32),
}

pub static DATA: [u8; 65536] = {
    let mut data = [0u8; 65536];
    let mut i = 0;
    while i < data.len() {
        data[i] = (i * 7 % 251) as u8;
        i += 1;
    }
    data
};

/// The same numbers in every run (xorshift).
pub struct Random(pub u64);

impl Random {
    pub fn below(&mut self, n: u32) -> u32 {
        self.0 ^= self.0 << 13;
        self.0 ^= self.0 >> 7;
        self.0 ^= self.0 << 17;
        ((self.0 >> 32) % n as u64) as u32
    }
}

const OPS: [u8; 16] = [
    0x01, 0x02, 0x03, 0x10, 0x14, 0x15, 0x16, 0x1b, 0x50, 0x51, 0x52, 0x54, 0x55, 0x56, 0x57, 0x5b,
];

/// A word, lowest limb first, with so many leading zero bytes; the byte after them isn't 0, the others are any.
pub fn word(zeros: usize, r: &mut Random) -> [u64; 4] {
    let mut bytes = [0u8; 32];
    for byte in &mut bytes[zeros..] {
        *byte = r.below(256) as u8;
    }
    bytes[zeros] |= 1;
    std::array::from_fn(|i| u64::from_be_bytes(bytes[24 - 8 * i..32 - 8 * i].try_into().expect("eight bytes")))
}

/// One of the calls between two jumps: of 20, 8 op bytes, 3 DUP, 3 SWAP, 3 small numbers, and one
/// each of a u64, a u256 and an exchange.
fn straight(r: &mut Random) -> Call {
    match r.below(20) {
        0..=7 => Call::Op(OPS[r.below(16) as usize]),
        8..=10 => Call::Dup(r.below(16) as u8),
        11..=13 => Call::Swap(1 + r.below(16) as u8),
        14..=16 => Call::U32(r.below(300)),
        17 => Call::U64(r.0 >> r.below(64)),
        18 => Call::U256([r.0, r.0 >> 7, r.below(2) as u64, 0]),
        _ => Call::Exchange(r.below(8) as u8, 8 + r.below(9) as u8),
    }
}

/// What a code generator calls: blocks of a mark, JUMPDEST, some twelve calls, a pushed reference to
/// a mark near by (each sixteenth a delta) and JUMPI; after every 64 blocks 32 bytes of data.
pub fn contract(marks: u32, seed: u64) -> Vec<Call> {
    let mut r = Random(seed);
    let mut calls = Vec::new();
    for m in 0..marks {
        calls.push(Call::Mark(m));
        calls.push(Call::Op(0x5b));
        for _ in 0..6 + r.below(13) {
            calls.push(straight(&mut r));
        }
        if r.below(16) == 0 {
            calls.push(Call::Delta(m / 2, m, 8));
        } else {
            calls.push(Call::Direct((m + r.below(64)).min(marks - 1), 8));
        }
        calls.push(Call::Op(0x57));
        if m % 64 == 63 {
            calls.push(Call::Data(32));
        }
    }
    calls
}

/// Four sections a mark: the mark, an op, a pushed reference to any mark, an op.
pub fn blocks(sections: u32, seed: u64) -> Vec<Call> {
    let mut r = Random(seed);
    let marks = sections / 4;
    let mut calls = Vec::new();
    for m in 0..marks {
        calls.push(Call::Mark(m));
        calls.push(Call::Op(0x5b));
        calls.push(Call::Direct(r.below(marks), 8));
        calls.push(Call::Op(0x57));
    }
    calls
}

/// As many marks, in an order of kinds that no branch predictor knows: references of every kind
/// and size that is wide enough, Ops and Data sections of 1 to 8 bytes.
pub fn mixed(sections: u32, seed: u64) -> Vec<Call> {
    let mut r = Random(seed);
    let marks = sections / 4;
    let mut calls = Vec::new();
    let mut next = 0;
    let mut before = 0;
    for i in 0..sections {
        let left = sections - i;
        if marks - next == left || (next < marks && r.below(left) < marks - next) {
            calls.push(Call::Mark(next));
            next += 1;
            before = 0;
            continue;
        }
        let kind = 1 + r.below(4);
        match kind {
            1 if before != 1 => calls.push(Call::Op(OPS[r.below(16) as usize])),
            2 if before != 2 => calls.push(Call::Data(1 + r.below(8) as usize)),
            4 if next > 1 => {
                let a = r.below(next);
                calls.push(Call::Delta(a, a + r.below(next - a), [0, 3, 4, 8, 11, 12][r.below(6) as usize]));
            }
            _ => calls.push(Call::Direct(r.below(marks), [0, 3, 4, 8, 11, 12][r.below(6) as usize])),
        }
        before = kind;
    }
    calls
}

/// Document 01, line 11: n pushed references to marks n down to 1, p data bytes, then marks n down
/// to 1 with one data byte between neighbours.
pub fn line_11(n: u32, p: usize) -> Vec<Call> {
    let mut calls: Vec<Call> = (1..=n).rev().map(|m| Call::Direct(m, 8)).collect();
    calls.push(Call::Data(p));
    for m in (1..=n).rev() {
        calls.push(Call::Mark(m));
        if m > 1 {
            calls.push(Call::Data(1));
        }
    }
    calls
}
