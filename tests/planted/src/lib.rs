//! Copies of the evaluator, and of the printer and the parser of OpenQASM, with
//! one fault each. A comparison must tell every one of them from what follows
//! the rules or the layout.

use evaluator::Answer;
use listings::Listing;

/// The answer for a program file and a step limit.
pub type Run = fn(&[u8], u32) -> Answer;

/// The text of a listing, and the listing of a text.
pub type Print = fn(&Listing) -> Vec<u8>;
pub type Parse = fn(&[u8]) -> Option<Listing>;

pub use copies::{BOXING, PARSERS, PLANTED, PRINTERS};

/// Written when the crate is built.
#[allow(dead_code, unused, clippy::all)]
mod copies {
    use super::{Parse, Print, Run};
    include!(concat!(env!("OUT_DIR"), "/planted.rs"));
}
