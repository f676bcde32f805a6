//! A safe wrapper of libsadrokki.a with the names and signatures of the original `assembler`. It is test and example code,
//! outside the proved crates: what the calls below it answer is proved, what this file makes of it is not.
//!
//! The wrapper owns the slices: it lends them, and grows them and calls again where an answer says that they are too short
//! (4, 5, 7, 13, 14); the offsets that `write` is given aren't its own and stay as they are. Every other refusal of a
//! building call is a panic with its number, as the original's methods return nothing; one of `assemble`, `settle` or
//! `write` is an `AssembleError`. README.md says where the original does otherwise.

mod calls;
mod marks;
pub mod op;

use calls::Answer;
pub use marks::{AsmReference, MarkId, MarkOffsets, MarkReference, RefSize, Span, U256};
use std::fmt;

const MAX_BYTES: usize = 1 << 24;
const MAX_WORDS: usize = 3 << 20;
const MAX_MARKS: usize = 1 << 20;
const ASSUMED_MARK_COUNT_WITHOUT_HINT: usize = 128;

/// The sections and bytes pushed so far. `state` is their two counts; what stands behind them in the vectors doesn't count.
#[derive(Debug, Clone)]
pub struct Assembler {
    state: u64,
    bytes: Vec<u8>,
    words: Vec<u32>,
}

#[derive(Debug, Clone, PartialEq, Eq)]
pub enum AssembleError {
    /// Number 10: the section of the reference.
    RefHasTooSmallSetSize(usize),
    /// Numbers 8, 17 and 18: the section of the first reference to a mark that is nowhere placed, which of its marks that is, and
    /// the mark.
    Unplaced {
        section: usize,
        missing: Missing,
        mark: MarkId,
    },
    /// Every other refusal: of `assemble` and `settle` 9, 11 or 12; of `write` 7, 9, 12 or 16.
    Refused {
        number: u32,
        section: usize,
        passes: u32,
    },
}

/// Which mark of a reference is missing. Where both ends of a delta are, it is the start.
#[derive(Debug, Clone, Copy, PartialEq, Eq)]
pub enum Missing {
    /// Number 8: a direct reference's mark.
    DirectMark,
    /// Number 17: a delta's start, be its end placed or not.
    DeltaStart,
    /// Number 18: a delta's end, its start being placed.
    DeltaEnd,
}

impl AssembleError {
    /// The refusal's number.
    pub fn number(&self) -> u32 {
        match self {
            Self::RefHasTooSmallSetSize(_) => 10,
            Self::Unplaced { missing, .. } => match missing {
                Missing::DirectMark => 8,
                Missing::DeltaStart => 17,
                Missing::DeltaEnd => 18,
            },
            Self::Refused { number, .. } => *number,
        }
    }
}

/// What settling answers: where the marks will be, how long the code will be, and the passes it took.
#[derive(Debug, Clone, PartialEq, Eq)]
pub struct Settled {
    pub offsets: MarkOffsets,
    pub length: usize,
    pub passes: u32,
}

/// Twice as long, at least 64 and at most `most`.
fn grow<T: Clone + Default>(slice: &mut Vec<T>, most: usize) {
    slice.resize((2 * slice.len()).clamp(64, most), T::default());
}

impl Assembler {
    pub fn with_capacity(bytes_capacity: usize, sections_capacity: usize) -> Self {
        Self {
            state: calls::new(),
            bytes: vec![0; bytes_capacity.min(MAX_BYTES)],
            words: vec![0; sections_capacity.min(MAX_WORDS / 3) * 3],
        }
    }

    pub fn clear(&mut self) {
        self.state = calls::clear(self.state);
    }

    fn stored_bytes(&self) -> usize {
        self.state as u32 as usize
    }

    fn sections(&self) -> usize {
        (self.state >> 32) as usize
    }

    /// A building call, made again with a longer slice as long as that is what it lacks.
    #[track_caller]
    fn build(&mut self, call: impl Fn(u64, &mut [u8], &mut [u32]) -> Answer) {
        loop {
            let answer = call(self.state, &mut self.bytes, &mut self.words);
            match answer.number() {
                0 => return self.state = answer.0,
                4 if self.bytes.len() < MAX_BYTES => grow(&mut self.bytes, MAX_BYTES),
                5 if self.words.len() < MAX_WORDS => grow(&mut self.words, MAX_WORDS),
                number => panic!("refused with number {number}: {}", answer.name()),
            }
        }
    }

    #[track_caller]
    pub fn push_mark(&mut self, mark: MarkId) {
        self.build(|state, bytes, words| calls::push_mark(state, bytes, words, mark.get()));
    }

    #[track_caller]
    pub fn push_op_byte(&mut self, byte: u8) {
        self.build(|state, bytes, words| calls::push_op_byte(state, bytes, words, byte));
    }

    /// The same as `push_op_byte` of each in turn, or nothing at all if one is refused. The original has no such method.
    #[track_caller]
    pub fn push_op_bytes(&mut self, ops: &[u8]) {
        self.build(|state, bytes, words| calls::push_op_bytes(state, bytes, words, ops));
    }

    #[track_caller]
    pub fn push_swap(&mut self, depth: u8) {
        self.build(|state, bytes, words| calls::push_swap(state, bytes, words, depth));
    }

    #[track_caller]
    pub fn push_dup(&mut self, depth: u8) {
        self.build(|state, bytes, words| calls::push_dup(state, bytes, words, depth));
    }

    #[track_caller]
    pub fn push_exchange(&mut self, n: u8, m: u8) {
        self.build(|state, bytes, words| calls::push_exchange(state, bytes, words, n, m));
    }

    #[track_caller]
    pub fn push_minimal_u256(&mut self, value: U256) {
        self.build(|state, bytes, words| calls::push_minimal_u256(state, bytes, words, &value.0));
    }

    #[track_caller]
    pub fn push_minimal_u64(&mut self, value: u64) {
        self.build(|state, bytes, words| calls::push_minimal_u64(state, bytes, words, value));
    }

    #[track_caller]
    pub fn push_minimal_u32(&mut self, value: u32) {
        self.build(|state, bytes, words| calls::push_minimal_u32(state, bytes, words, value));
    }

    #[track_caller]
    pub fn push_data(&mut self, data: &[u8]) {
        self.build(|state, bytes, words| calls::push_data(state, bytes, words, data));
    }

    #[track_caller]
    pub fn push_reference(&mut self, asm_ref: AsmReference) {
        let form = asm_ref.form();
        self.build(|state, bytes, words| match asm_ref.mark_ref {
            MarkReference::Direct(id) => calls::push_direct(state, bytes, words, id.get(), form),
            MarkReference::Delta(span) => {
                calls::push_delta(state, bytes, words, span.start.get(), span.end.get(), form)
            }
        });
    }

    /// Appends the code to `result`, which is as it was if there is an error, and answers the marks' offsets. The table has
    /// as many entries as hinted (128 without a hint), or more if a mark needs it.
    pub fn assemble(
        &self,
        result: &mut Vec<u8>,
        mark_id_count_hint: Option<usize>,
    ) -> Result<MarkOffsets, AssembleError> {
        let mut table = self.table(mark_id_count_hint);
        loop {
            let answer = self.append(result, |result, position| {
                calls::assemble(
                    self.state,
                    &self.bytes,
                    &self.words,
                    &mut table,
                    result,
                    position,
                )
            });
            match answer.number() {
                0 => return Ok(MarkOffsets(table)),
                7 if table.len() < MAX_MARKS => grow(&mut table, MAX_MARKS),
                _ => return Err(self.error(answer)),
            }
        }
    }

    /// The first half of `assemble`: offsets, length and passes, with no code made. The table is as long as there. The
    /// original has no such method.
    pub fn settle(&self, mark_id_count_hint: Option<usize>) -> Result<Settled, AssembleError> {
        let mut table = self.table(mark_id_count_hint);
        loop {
            let answer = calls::settle(self.state, &self.bytes, &self.words, &mut table);
            match answer.number() {
                0 => {
                    return Ok(Settled {
                        offsets: MarkOffsets(table),
                        length: answer.low(),
                        passes: answer.mid(),
                    });
                }
                7 if table.len() < MAX_MARKS => grow(&mut table, MAX_MARKS),
                _ => return Err(self.error(answer)),
            }
        }
    }

    /// The second half: appends the code by these offsets, `settle`'s or any others in which each placed mark is at the sum
    /// of sizes, by them, before it. The shortest code is promised of `settle`'s alone. `result` is as it was if there is an
    /// error: 7 (too few offsets), 8, 17 or 18, 9, 16 or 10, 12. Takes about 130 KiB of stack. The original has no such method.
    pub fn write(&self, result: &mut Vec<u8>, offsets: &MarkOffsets) -> Result<(), AssembleError> {
        let answer = self.append(result, |result, position| {
            calls::write(
                self.state,
                &self.bytes,
                &self.words,
                &offsets.0,
                result,
                position,
            )
        });
        match answer.number() {
            0 => Ok(()),
            _ => Err(self.error(answer)),
        }
    }

    /// A refusal of `assemble`, `settle` or `write`. The mark that a reference misses is read from its section: a direct
    /// reference's mark and a delta's start are its second word, a delta's end its third.
    fn error(&self, answer: Answer) -> AssembleError {
        let section = answer.low();
        let unplaced = |missing, word: usize| AssembleError::Unplaced {
            section,
            missing,
            mark: MarkId::new(self.words[3 * section + word]),
        };
        match answer.number() {
            8 => unplaced(Missing::DirectMark, 1),
            10 => AssembleError::RefHasTooSmallSetSize(section),
            17 => unplaced(Missing::DeltaStart, 1),
            18 => unplaced(Missing::DeltaEnd, 2),
            number => AssembleError::Refused {
                number,
                section,
                passes: answer.mid(),
            },
        }
    }

    fn table(&self, mark_id_count_hint: Option<usize>) -> Vec<u32> {
        vec![0; mark_id_count_hint.unwrap_or(ASSUMED_MARK_COUNT_WITHOUT_HINT)]
    }

    /// A call that appends a code, made again with the longest room where the first is too short.
    fn append(
        &self,
        result: &mut Vec<u8>,
        mut call: impl FnMut(&mut [u8], usize) -> Answer,
    ) -> Answer {
        let position = result.len();
        // A reference has 5 bytes at most, and most sections are none.
        let most = self.stored_bytes() + 5 * self.sections();
        let mut room = self.stored_bytes() + 2 * self.sections();
        loop {
            result.resize(position + room, 0);
            let answer = call(result, position);
            match answer.number() {
                0 => result.truncate(position + answer.low()),
                13 if room < most => {
                    room = most;
                    continue;
                }
                _ => result.truncate(position),
            }
            return answer;
        }
    }

    /// The listing, handed on in one piece.
    pub fn write_asm(&self, f: &mut impl fmt::Write) -> fmt::Result {
        let mut text = vec![0; 16 * self.sections() + 12 * self.stored_bytes()];
        loop {
            let answer = calls::write_asm(self.state, &self.bytes, &self.words, &mut text);
            match answer.number() {
                0 => {
                    text.truncate(answer.0 as usize);
                    return f.write_str(&String::from_utf8(text).unwrap());
                }
                14 => grow(&mut text, usize::MAX),
                number => unreachable!("refused with number {number}: {}", answer.name()),
            }
        }
    }
}

impl fmt::Display for Assembler {
    fn fmt(&self, f: &mut fmt::Formatter<'_>) -> fmt::Result {
        self.write_asm(f)
    }
}
