//! What an operation answers where it refuses.

use std::fmt;

/// The number, and the place: an entry number where named, else 0.
#[derive(Clone, Copy, PartialEq, Eq, Debug)]
pub struct Refusal {
    pub number: u8,
    pub place: usize,
}

/// The line that `wirelist` prints.
impl fmt::Display for Refusal {
    fn fmt(&self, to: &mut fmt::Formatter) -> fmt::Result {
        write!(to, "refused {} {}", self.number, self.place)
    }
}
