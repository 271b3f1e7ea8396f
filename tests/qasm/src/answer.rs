//! What an export and an import answer, and that as one number.

use crate::{parse, print};
use comparing::packed::{self, bits, put};
use listings::{counting, Listing};
use program_files::Refusal;

/// The bytes that are written: a text or a listing.
pub type Answer = Result<Vec<u8>, Refusal>;

/// The numbers of gates.
const INIT: u8 = 9;
const DISCARD: u8 = 10;

/// A text that is the export of no listing.
pub const NO_EXPORT: Refusal = Refusal {
    number: 27,
    place: 0,
};

/// The text of a listing that the check accepts, if there is a word for each of
/// its gates.
pub fn export(listing: &[u8]) -> Answer {
    let sizes = counting::check(listing)?;
    let listing = Listing::of_bytes(&sizes, listing);
    match first_helper(&listing) {
        Some(place) => Err(Refusal { number: 28, place }),
        None => Ok(print(&listing)),
    }
}

/// The first entry that is Init or Discard, for which there is no word.
pub fn first_helper(listing: &Listing) -> Option<usize> {
    let mut gates = listing.gates.iter();
    let gate = gates.position(|entry| matches!(entry.kind, INIT | DISCARD))?;
    Some(listing.inputs.len() + gate)
}

/// The listing whose text this is.
pub fn import(text: &[u8]) -> Answer {
    let listing = parse(text).ok_or(NO_EXPORT)?;
    Ok(listing.bytes())
}

/// Written: bits 6 to 21 the length.
pub fn pack(answer: &Answer) -> u64 {
    match answer {
        Ok(written) => put(written.len() as u64, 6, 16),
        Err(refusal) => packed::refused(refusal),
    }
}

/// The answer in words.
pub fn in_words(answer: u64) -> String {
    packed::in_words(answer, || format!("{} bytes written", bits(answer, 6, 16)))
}

/// What `qasmout` and `qasmin` write.
pub fn output(answer: &Answer) -> Vec<u8> {
    match answer {
        Ok(written) => written.clone(),
        Err(Refusal { number, place }) => format!("refused {number} {place}\n").into_bytes(),
    }
}
