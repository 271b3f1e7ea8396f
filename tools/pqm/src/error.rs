//! Why there is no file of a program.

use crate::entries::{MOST_LABELS, MOST_TERMS, MOST_TYPES};
use crate::gates::GATES;
use std::fmt;
use std::panic::Location;

/// A place in the source of the Rust program that builds.
pub type Source = &'static Location<'static>;

/// What the cabinet would refuse in the file, found before there is one.
#[derive(Clone, PartialEq, Eq, Debug)]
pub enum Error {
    /// So many labels.
    TooManyLabels(usize),
    /// So many entries of types, shared ones counted once.
    TooManyTypeEntries(usize),
    /// So many entries of the term.
    TooManyTermEntries(usize),
    /// A label with this number, of a program with so many.
    NoLabel(usize, usize, Source),
    /// A variable that was bound here is used where it is not bound.
    NoBinder(Source),
    /// A box at a type, as it is written, that is no wire type.
    BoxAtNoWireType(String, Source),
    /// A Circ, as it is written, with a part that is no wire type, in the type of
    /// this abstraction.
    CircOfNoWireType(String, Source),
    /// No gate has this name.
    NoGate(String, Source),
}

impl std::error::Error for Error {}

impl fmt::Display for Error {
    fn fmt(&self, to: &mut fmt::Formatter) -> fmt::Result {
        let too_many = |to: &mut fmt::Formatter, what: &str, count: usize, most: usize| {
            write!(to, "{what}: {count}, and a file holds at most {most}")
        };
        match self {
            Error::TooManyLabels(count) => too_many(to, "too many labels", *count, MOST_LABELS),
            Error::TooManyTypeEntries(count) => too_many(
                to,
                "too many entries in the types of abstractions and boxes",
                *count,
                MOST_TYPES,
            ),
            Error::TooManyTermEntries(count) => {
                too_many(to, "too many entries in the term", *count, MOST_TERMS)
            }
            Error::NoLabel(number, 0, at) => {
                write!(to, "{at}: label {number} is used, and the program has none")
            }
            Error::NoLabel(number, labels, at) => write!(
                to,
                "{at}: label {number} is used, and the program has labels 0 to {}",
                labels - 1
            ),
            Error::NoBinder(bound) => write!(
                to,
                "{bound}: the variable bound here is used outside of what binds it"
            ),
            Error::BoxAtNoWireType(of, at) => {
                write!(to, "{at}: a box at {of}, which is no wire type")
            }
            Error::CircOfNoWireType(of, at) => write!(
                to,
                "{at}: an abstraction over a type with {of} inside, whose parts must be wire types"
            ),
            Error::NoGate(name, at) => {
                let names: Vec<&str> = GATES.iter().map(|gate| gate.name).collect();
                let names = names.join(", ");
                write!(to, "{at}: no gate has the name {name}; there are {names}")
            }
        }
    }
}
