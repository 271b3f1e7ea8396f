//! What a run is lent, and its answer as one number.

pub use comparing::packed::number;
use comparing::packed::{self, bits, put};
use evaluator::Answer;
use pqm::lengths::{lengths, RUN};

/// The output buffer and the working memories, in the order in which they are lent.
pub const BUFFERS: usize = RUN.len();

/// What is lent: a file, the output buffer and the working memories.
pub type Lent = comparing::Lent<BUFFERS>;

/// The lengths of the output buffer and of the working memories.
pub type Lengths = [usize; BUFFERS];

/// The least length of the output buffer.
pub const LEAST_OUT: usize = RUN[0].1;

pub const LEAST: Lengths = lengths(RUN);

/// The name of a buffer by its number.
pub fn name(buffer: usize) -> &'static str {
    RUN[buffer].0
}

/// Whether one of the buffers is too short.
pub fn is_short(lengths: &Lengths) -> bool {
    lengths
        .iter()
        .zip(&LEAST)
        .any(|(length, least)| length < least)
}

/// The answer to a buffer shorter than its least length.
pub const SHORT: Answer = Answer::Refused(packed::SHORT);

/// Finished: bits 6 to 17 the gates, 18 to 31 the length of the listing, 32 to
/// 63 the steps.
pub fn pack(answer: &Answer) -> u64 {
    match answer {
        Answer::Finished {
            steps,
            gates,
            listing,
        } => pack_finished(*steps, *gates, listing.len()),
        Answer::Refused(refusal) => packed::refused(refusal),
    }
}

pub fn pack_finished(steps: u32, gates: usize, length: usize) -> u64 {
    put(gates as u64, 6, 12) + put(length as u64, 18, 14) + put(u64::from(steps), 32, 32)
}

/// The answer that was packed, with the listing that stands at the start of the
/// output buffer.
pub fn unpack(answer: u64, out: &[u8]) -> Answer {
    match number(answer) {
        0 => Answer::Finished {
            steps: bits(answer, 32, 32) as u32,
            gates: bits(answer, 6, 12) as usize,
            listing: out[..bits(answer, 18, 14) as usize].to_vec(),
        },
        _ => Answer::Refused(packed::refusal(answer)),
    }
}

/// The answer in words.
pub fn in_words(answer: u64) -> String {
    packed::in_words(answer, || {
        let [gates, length, steps] =
            [(6, 12), (18, 14), (32, 32)].map(|(from, count)| bits(answer, from, count));
        format!("finished, steps {steps}, gates {gates}, length {length}")
    })
}
