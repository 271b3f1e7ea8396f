//! Programs written by hand.

use program_files::kinds::{ABSTRACTION, APPLICATION, FUNCTION, REUSABLE, VARIABLE};
use program_files::read::types_at;
use program_files::{Entries, Type};
use std::rc::Rc;

/// The kinds of the labels, those of the types, and the term with arguments.
pub type Written = (&'static [u8], &'static [u8], &'static [(u8, u16)]);

pub const ABS: u8 = ABSTRACTION;
pub const APP: u8 = APPLICATION;
pub const VAR: u8 = VARIABLE;
pub const FUN: u8 = FUNCTION;
pub const REU: u8 = REUSABLE;

pub fn entries((labels, types, terms): Written) -> Entries {
    Entries::new(labels, types, terms)
}

pub fn file(written: Written) -> Vec<u8> {
    entries(written).bytes()
}

/// The type that these kinds are in preorder.
pub fn type_of(kinds: &'static [u8]) -> Rc<Type> {
    types_at(&entries((&[], kinds, &[])))[0].clone()
}
