//! What a run answers.

use program_files::Refusal;

#[derive(Clone, PartialEq, Eq, Debug)]
pub enum Answer {
    Finished {
        steps: u32,
        /// The gates of the listing.
        gates: usize,
        listing: Vec<u8>,
    },
    Refused(Refusal),
}

/// A refusal whose place is 0.
pub fn refused(number: u8) -> Answer {
    Answer::Refused(Refusal { number, place: 0 })
}
