//! The exported reader, and its answer as one number.

use comparing::packed::{self, bits, put};
use program_files::{Refusal, Sizes};

extern "C" {
    fn gawipsol_read(file_ptr: *const u8, file_len: usize) -> u64;
}

/// Accepted: bits 6 to 12 the labels, 13 to 22 the types, 23 to 34 the terms.
pub fn answer(file: &[u8]) -> u64 {
    // The pointer and the length are those of one slice, which is only read.
    unsafe { gawipsol_read(file.as_ptr(), file.len()) }
}

/// The same number from a reader of this workspace.
pub fn pack(answer: Result<Sizes, Refusal>) -> u64 {
    match answer {
        Ok(sizes) => {
            put(sizes.labels as u64, 6, 7)
                + put(sizes.types as u64, 13, 10)
                + put(sizes.terms as u64, 23, 12)
        }
        Err(refusal) => packed::refused(&refusal),
    }
}

/// The answer in words.
pub fn in_words(answer: u64) -> String {
    packed::in_words(answer, || {
        let [labels, types, terms] =
            [(6, 7), (13, 10), (23, 12)].map(|(from, count)| bits(answer, from, count));
        format!("accepted, L {labels}, P {types}, N {terms}")
    })
}
