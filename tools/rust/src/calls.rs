//! The exported functions with slices: the only `unsafe` code. Every function takes every argument, so that each is safe with
//! slices as Rust has them.

/// number * 2^56 + mid * 2^32 + low
#[derive(Clone, Copy)]
pub struct Answer(pub u64);

impl Answer {
    pub fn number(self) -> u32 {
        (self.0 >> 56) as u32
    }

    pub fn low(self) -> usize {
        self.0 as u32 as usize
    }

    pub fn mid(self) -> u32 {
        (self.0 >> 32) as u32 & 0xff_ffff
    }

    /// The name in document 01's table of replies, or what document 02 says of its number.
    pub fn name(self) -> &'static str {
        const NAMES: [&str; 19] = [
            "accepted",
            "bad depth",
            "bad word",
            "large mark",
            "bytes full",
            "sections full",
            "damaged",
            "short table",
            "unplaced",
            "placed apart",
            "too narrow",
            "unsettled",
            "backward",
            "result full",
            "listing full",
            "no job",
            "entry differs",
            "start unplaced",
            "end unplaced",
        ];
        NAMES
            .get(self.number() as usize)
            .copied()
            .unwrap_or("an argument names nothing")
    }
}

// The functions that the wrapper uses, as tools/c/sadrokki.h has them.
unsafe extern "C" {
    fn sadrokki_new() -> u64;
    fn sadrokki_clear(state: u64) -> u64;
    fn sadrokki_push_mark(
        state: u64,
        bytes: *const u8,
        bytes_len: usize,
        words: *mut u32,
        words_len: usize,
        mark: u32,
    ) -> u64;
    fn sadrokki_push_op_byte(
        state: u64,
        bytes: *mut u8,
        bytes_len: usize,
        words: *mut u32,
        words_len: usize,
        byte: u8,
    ) -> u64;
    fn sadrokki_push_op_bytes(
        state: u64,
        bytes: *mut u8,
        bytes_len: usize,
        words: *mut u32,
        words_len: usize,
        run: *const u8,
        run_len: usize,
    ) -> u64;
    fn sadrokki_push_swap(
        state: u64,
        bytes: *mut u8,
        bytes_len: usize,
        words: *mut u32,
        words_len: usize,
        depth: u8,
    ) -> u64;
    fn sadrokki_push_dup(
        state: u64,
        bytes: *mut u8,
        bytes_len: usize,
        words: *mut u32,
        words_len: usize,
        depth: u8,
    ) -> u64;
    fn sadrokki_push_exchange(
        state: u64,
        bytes: *mut u8,
        bytes_len: usize,
        words: *mut u32,
        words_len: usize,
        n: u8,
        m: u8,
    ) -> u64;
    fn sadrokki_push_minimal_u256(
        state: u64,
        bytes: *mut u8,
        bytes_len: usize,
        words: *mut u32,
        words_len: usize,
        word: *const u8,
        word_len: usize,
    ) -> u64;
    fn sadrokki_push_minimal_u64(
        state: u64,
        bytes: *mut u8,
        bytes_len: usize,
        words: *mut u32,
        words_len: usize,
        value: u64,
    ) -> u64;
    fn sadrokki_push_minimal_u32(
        state: u64,
        bytes: *mut u8,
        bytes_len: usize,
        words: *mut u32,
        words_len: usize,
        value: u32,
    ) -> u64;
    fn sadrokki_push_data(
        state: u64,
        bytes: *mut u8,
        bytes_len: usize,
        words: *mut u32,
        words_len: usize,
        data: *const u8,
        data_len: usize,
    ) -> u64;
    fn sadrokki_push_direct(
        state: u64,
        bytes: *const u8,
        bytes_len: usize,
        words: *mut u32,
        words_len: usize,
        mark: u32,
        form: u32,
    ) -> u64;
    fn sadrokki_push_delta(
        state: u64,
        bytes: *const u8,
        bytes_len: usize,
        words: *mut u32,
        words_len: usize,
        start: u32,
        end: u32,
        form: u32,
    ) -> u64;
    fn sadrokki_assemble(
        state: u64,
        bytes: *const u8,
        bytes_len: usize,
        words: *const u32,
        words_len: usize,
        table: *mut u32,
        table_len: usize,
        result: *mut u8,
        result_len: usize,
        position: usize,
    ) -> u64;
    fn sadrokki_settle(
        state: u64,
        bytes: *const u8,
        bytes_len: usize,
        words: *const u32,
        words_len: usize,
        table: *mut u32,
        table_len: usize,
    ) -> u64;
    fn sadrokki_write(
        state: u64,
        bytes: *const u8,
        bytes_len: usize,
        words: *const u32,
        words_len: usize,
        table: *const u32,
        table_len: usize,
        result: *mut u8,
        result_len: usize,
        position: usize,
    ) -> u64;
    fn sadrokki_write_asm(
        state: u64,
        bytes: *const u8,
        bytes_len: usize,
        words: *const u32,
        words_len: usize,
        text: *mut u8,
        text_len: usize,
    ) -> u64;
    fn sadrokki_lands(code: *const u8, code_len: usize, offset: usize) -> u32;
    fn sadrokki_op_name(byte: u8, name: *mut u8, name_len: usize) -> u64;
    fn sadrokki_push_size(byte: u8) -> u32;
    fn sadrokki_leading_zeros(bytes: *const u8, bytes_len: usize) -> u64;
}

pub fn new() -> u64 {
    unsafe { sadrokki_new() }
}

pub fn clear(state: u64) -> u64 {
    unsafe { sadrokki_clear(state) }
}

pub fn push_mark(state: u64, bytes: &[u8], words: &mut [u32], mark: u32) -> Answer {
    Answer(unsafe {
        sadrokki_push_mark(
            state,
            bytes.as_ptr(),
            bytes.len(),
            words.as_mut_ptr(),
            words.len(),
            mark,
        )
    })
}

pub fn push_op_byte(state: u64, bytes: &mut [u8], words: &mut [u32], byte: u8) -> Answer {
    Answer(unsafe {
        sadrokki_push_op_byte(
            state,
            bytes.as_mut_ptr(),
            bytes.len(),
            words.as_mut_ptr(),
            words.len(),
            byte,
        )
    })
}

pub fn push_op_bytes(state: u64, bytes: &mut [u8], words: &mut [u32], run: &[u8]) -> Answer {
    Answer(unsafe {
        sadrokki_push_op_bytes(
            state,
            bytes.as_mut_ptr(),
            bytes.len(),
            words.as_mut_ptr(),
            words.len(),
            run.as_ptr(),
            run.len(),
        )
    })
}

pub fn push_swap(state: u64, bytes: &mut [u8], words: &mut [u32], depth: u8) -> Answer {
    Answer(unsafe {
        sadrokki_push_swap(
            state,
            bytes.as_mut_ptr(),
            bytes.len(),
            words.as_mut_ptr(),
            words.len(),
            depth,
        )
    })
}

pub fn push_dup(state: u64, bytes: &mut [u8], words: &mut [u32], depth: u8) -> Answer {
    Answer(unsafe {
        sadrokki_push_dup(
            state,
            bytes.as_mut_ptr(),
            bytes.len(),
            words.as_mut_ptr(),
            words.len(),
            depth,
        )
    })
}

pub fn push_exchange(state: u64, bytes: &mut [u8], words: &mut [u32], n: u8, m: u8) -> Answer {
    Answer(unsafe {
        sadrokki_push_exchange(
            state,
            bytes.as_mut_ptr(),
            bytes.len(),
            words.as_mut_ptr(),
            words.len(),
            n,
            m,
        )
    })
}

pub fn push_minimal_u256(state: u64, bytes: &mut [u8], words: &mut [u32], word: &[u8]) -> Answer {
    Answer(unsafe {
        sadrokki_push_minimal_u256(
            state,
            bytes.as_mut_ptr(),
            bytes.len(),
            words.as_mut_ptr(),
            words.len(),
            word.as_ptr(),
            word.len(),
        )
    })
}

pub fn push_minimal_u64(state: u64, bytes: &mut [u8], words: &mut [u32], value: u64) -> Answer {
    Answer(unsafe {
        sadrokki_push_minimal_u64(
            state,
            bytes.as_mut_ptr(),
            bytes.len(),
            words.as_mut_ptr(),
            words.len(),
            value,
        )
    })
}

pub fn push_minimal_u32(state: u64, bytes: &mut [u8], words: &mut [u32], value: u32) -> Answer {
    Answer(unsafe {
        sadrokki_push_minimal_u32(
            state,
            bytes.as_mut_ptr(),
            bytes.len(),
            words.as_mut_ptr(),
            words.len(),
            value,
        )
    })
}

pub fn push_data(state: u64, bytes: &mut [u8], words: &mut [u32], data: &[u8]) -> Answer {
    Answer(unsafe {
        sadrokki_push_data(
            state,
            bytes.as_mut_ptr(),
            bytes.len(),
            words.as_mut_ptr(),
            words.len(),
            data.as_ptr(),
            data.len(),
        )
    })
}

pub fn push_direct(state: u64, bytes: &[u8], words: &mut [u32], mark: u32, form: u32) -> Answer {
    Answer(unsafe {
        sadrokki_push_direct(
            state,
            bytes.as_ptr(),
            bytes.len(),
            words.as_mut_ptr(),
            words.len(),
            mark,
            form,
        )
    })
}

pub fn push_delta(
    state: u64,
    bytes: &[u8],
    words: &mut [u32],
    start: u32,
    end: u32,
    form: u32,
) -> Answer {
    Answer(unsafe {
        sadrokki_push_delta(
            state,
            bytes.as_ptr(),
            bytes.len(),
            words.as_mut_ptr(),
            words.len(),
            start,
            end,
            form,
        )
    })
}

pub fn assemble(
    state: u64,
    bytes: &[u8],
    words: &[u32],
    table: &mut [u32],
    result: &mut [u8],
    position: usize,
) -> Answer {
    Answer(unsafe {
        sadrokki_assemble(
            state,
            bytes.as_ptr(),
            bytes.len(),
            words.as_ptr(),
            words.len(),
            table.as_mut_ptr(),
            table.len(),
            result.as_mut_ptr(),
            result.len(),
            position,
        )
    })
}

pub fn settle(state: u64, bytes: &[u8], words: &[u32], table: &mut [u32]) -> Answer {
    Answer(unsafe {
        sadrokki_settle(
            state,
            bytes.as_ptr(),
            bytes.len(),
            words.as_ptr(),
            words.len(),
            table.as_mut_ptr(),
            table.len(),
        )
    })
}

pub fn write(
    state: u64,
    bytes: &[u8],
    words: &[u32],
    table: &[u32],
    result: &mut [u8],
    position: usize,
) -> Answer {
    Answer(unsafe {
        sadrokki_write(
            state,
            bytes.as_ptr(),
            bytes.len(),
            words.as_ptr(),
            words.len(),
            table.as_ptr(),
            table.len(),
            result.as_mut_ptr(),
            result.len(),
            position,
        )
    })
}

pub fn write_asm(state: u64, bytes: &[u8], words: &[u32], text: &mut [u8]) -> Answer {
    Answer(unsafe {
        sadrokki_write_asm(
            state,
            bytes.as_ptr(),
            bytes.len(),
            words.as_ptr(),
            words.len(),
            text.as_mut_ptr(),
            text.len(),
        )
    })
}

pub fn lands(code: &[u8], offset: usize) -> u32 {
    unsafe { sadrokki_lands(code.as_ptr(), code.len(), offset) }
}

pub fn op_name(byte: u8, name: &mut [u8]) -> Answer {
    Answer(unsafe { sadrokki_op_name(byte, name.as_mut_ptr(), name.len()) })
}

pub fn push_size(byte: u8) -> u32 {
    unsafe { sadrokki_push_size(byte) }
}

pub fn leading_zeros(bytes: &[u8]) -> u64 {
    unsafe { sadrokki_leading_zeros(bytes.as_ptr(), bytes.len()) }
}
