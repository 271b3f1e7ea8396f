//! What a check of a listing answers, and that as one number.

use crate::sizes::Sizes;
use comparing::packed::{self, bits, put};
use program_files::Refusal;

/// The sizes of an accepted listing.
pub type Answer = Result<Sizes, Refusal>;

/// Accepted: bits 6 to 12 the inputs, 13 to 24 the gates, 25 to 33 the outputs.
pub fn pack(answer: &Answer) -> u64 {
    match answer {
        Ok(sizes) => {
            put(sizes.inputs as u64, 6, 7)
                + put(sizes.gates as u64, 13, 12)
                + put(sizes.outputs as u64, 25, 9)
        }
        Err(refusal) => packed::refused(refusal),
    }
}

/// The answer in words.
pub fn in_words(answer: u64) -> String {
    packed::in_words(answer, || {
        let [inputs, gates, outputs] =
            [(6, 7), (13, 12), (25, 9)].map(|(from, count)| bits(answer, from, count));
        format!("accepted, L {inputs}, G {gates}, O {outputs}")
    })
}

/// The line that `listcheck` prints.
pub fn line(answer: &Answer) -> String {
    match answer {
        Ok(_) => String::from("accepted\n"),
        Err(Refusal { number, place }) => format!("refused {number} {place}\n"),
    }
}
