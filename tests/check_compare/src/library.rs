//! The exported check, and its answer as one number.

use comparing::packed::{self, bits, put};
pub use comparing::packed::{number, SHORT};
use pqm::lengths::CHECK;
use program_files::{Refusal, Type};
use std::rc::Rc;

/// The least length of the output buffer.
pub const LEAST_OUT: usize = CHECK[0].1;
/// The least length of the working memory.
pub const LEAST_WORK: usize = CHECK[1].1;

/// The lengths of the output buffer and of the working memory.
pub type Lengths = [usize; 2];

/// Whether one of the buffers is too short.
pub fn is_short([out, work]: Lengths) -> bool {
    out < LEAST_OUT || work < LEAST_WORK
}

extern "C" {
    fn gawipsol_check(
        file_ptr: *const u8,
        file_len: usize,
        out_ptr: *mut u8,
        out_len: usize,
        work_ptr: *mut u8,
        work_len: usize,
    ) -> u64;
}

/// Accepted: bits 6 to 21 the length of the type.
pub fn answer(file: &[u8], out: &mut [u8], work: &mut [u8]) -> u64 {
    // Each pointer and length are those of one slice, and no two overlap.
    unsafe {
        gawipsol_check(
            file.as_ptr(),
            file.len(),
            out.as_mut_ptr(),
            out.len(),
            work.as_mut_ptr(),
            work.len(),
        )
    }
}

/// The same number from a check of this workspace.
pub fn pack(answer: &Result<Rc<Type>, Refusal>) -> u64 {
    match answer {
        Ok(of) => put(of.size() as u64, 6, 16),
        Err(refusal) => packed::refused(refusal),
    }
}

/// The length of the type in an answer that accepts.
pub fn length(answer: u64) -> usize {
    bits(answer, 6, 16) as usize
}

/// The answer in words.
pub fn in_words(answer: u64) -> String {
    packed::in_words(answer, || format!("accepted, length {}", length(answer)))
}
