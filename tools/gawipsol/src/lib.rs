//! The cabinet's operations for Rust, on buffers of their least lengths. The operations
//! are proved and linked from the static library; this interface to them is not proved.

mod raw;

use pqm::entries::Sizes;
use pqm::lengths::{lengths, CHECK, EXPORT, IMPORT, LISTING, RUN};
use pqm::{listing, Refusal};

/// The step limit of `wirelist`.
pub const LIMIT: u32 = 1_000_000;

/// A finished run.
#[derive(Clone, PartialEq, Eq, Debug)]
pub struct Finished {
    pub steps: u32,
    pub gates: usize,
    pub listing: Vec<u8>,
}

/// So many bits of an answer, from this one on.
fn bits(answer: u64, from: u32, count: u32) -> usize {
    (answer >> from & ((1 << count) - 1)) as usize
}

/// The answer, if it refuses nothing.
fn accepted(answer: u64) -> Result<u64, Refusal> {
    match bits(answer, 0, 6) {
        0 => Ok(answer),
        number => Err(Refusal {
            number: number as u8,
            place: bits(answer, 6, 16),
        }),
    }
}

fn buffers<const N: usize>(lengths: [usize; N]) -> [Vec<u8>; N] {
    lengths.map(|length| vec![0; length])
}

pub fn read(file: &[u8]) -> Result<Sizes, Refusal> {
    let answer = accepted(raw::read(file))?;
    Ok(Sizes {
        labels: bits(answer, 6, 7),
        types: bits(answer, 13, 10),
        terms: bits(answer, 23, 12),
    })
}

/// The program's type in preorder, one kind byte an entry.
pub fn check(file: &[u8]) -> Result<Vec<u8>, Refusal> {
    check_with(file, lengths(CHECK))
}

/// The same with an output buffer and a working memory of these lengths.
pub fn check_with(file: &[u8], lengths: [usize; 2]) -> Result<Vec<u8>, Refusal> {
    let [mut out, mut work] = buffers(lengths);
    let answer = accepted(raw::check(file, &mut out, &mut work))?;
    out.truncate(bits(answer, 6, 16));
    Ok(out)
}

pub fn run(file: &[u8], limit: u32) -> Result<Finished, Refusal> {
    let mut lent = buffers(lengths(RUN));
    let answer = accepted(raw::run(file, limit, &mut lent))?;
    let [mut listing, ..] = lent;
    listing.truncate(bits(answer, 18, 14));
    Ok(Finished {
        steps: (answer >> 32) as u32,
        gates: bits(answer, 6, 12),
        listing,
    })
}

pub fn check_listing(listing: &[u8]) -> Result<listing::Sizes, Refusal> {
    let [mut work] = buffers(lengths(LISTING));
    let answer = accepted(raw::check_listing(listing, &mut work))?;
    Ok(listing::Sizes {
        inputs: bits(answer, 6, 7),
        gates: bits(answer, 13, 12),
        outputs: bits(answer, 25, 9),
    })
}

/// The text of a listing in OpenQASM 2.0.
pub fn export(listing: &[u8]) -> Result<Vec<u8>, Refusal> {
    let [mut text, mut work] = buffers(lengths(EXPORT));
    let answer = accepted(raw::export(listing, &mut text, &mut work))?;
    text.truncate(bits(answer, 6, 16));
    Ok(text)
}

/// The listing of which a text is the export.
pub fn import(text: &[u8]) -> Result<Vec<u8>, Refusal> {
    let mut lent = buffers(lengths(IMPORT));
    let answer = accepted(raw::import(text, &mut lent))?;
    let [mut listing, ..] = lent;
    listing.truncate(bits(answer, 6, 16));
    Ok(listing)
}
