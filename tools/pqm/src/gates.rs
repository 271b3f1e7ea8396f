//! The gates, with their wires and types.

use crate::trees::{Type, Wire};
use std::rc::Rc;

/// The most gates of a run, and so of a listing.
pub const MOST_GATES: usize = 2_048;

/// A gate: its name, the wires it takes and the wires it makes.
#[derive(Clone, Copy, PartialEq, Eq, Debug)]
pub struct Gate {
    pub name: &'static str,
    pub takes: &'static [Wire],
    pub makes: &'static [Wire],
}

const NONE: &[Wire] = &[];
const BIT: &[Wire] = &[Wire::Bit];
const ONE: &[Wire] = &[Wire::Qubit];
const TWO: &[Wire] = &[Wire::Qubit, Wire::Qubit];
const THREE: &[Wire] = &[Wire::Qubit, Wire::Qubit, Wire::Qubit];
const UNDER: &[Wire] = &[Wire::Bit, Wire::Qubit];

const fn gate(name: &'static str, takes: &'static [Wire], makes: &'static [Wire]) -> Gate {
    Gate { name, takes, makes }
}

/// A gate's number is its place here.
pub const GATES: [Gate; 12] = [
    gate("H", ONE, ONE),
    gate("X", ONE, ONE),
    gate("Z", ONE, ONE),
    gate("S", ONE, ONE),
    gate("T", ONE, ONE),
    gate("CNOT", TWO, TWO),
    gate("Meas", ONE, BIT),
    gate("BX", UNDER, UNDER),
    gate("BZ", UNDER, UNDER),
    gate("Init", NONE, ONE),
    gate("Discard", BIT, NONE),
    gate("CCX", THREE, THREE),
];

pub const H: &Gate = &GATES[0];
pub const X: &Gate = &GATES[1];
pub const Z: &Gate = &GATES[2];
pub const S: &Gate = &GATES[3];
pub const T: &Gate = &GATES[4];
pub const CNOT: &Gate = &GATES[5];
pub const MEAS: &Gate = &GATES[6];
pub const BX: &Gate = &GATES[7];
pub const BZ: &Gate = &GATES[8];
pub const INIT: &Gate = &GATES[9];
pub const DISCARD: &Gate = &GATES[10];
pub const CCX: &Gate = &GATES[11];

impl Gate {
    /// Whether wires come or go in it: it makes more than it takes, or fewer.
    pub fn is_helper(&self) -> bool {
        self.takes.len() != self.makes.len()
    }

    /// Circ from the wires taken to the wires made.
    pub fn circuit_type(&self) -> Rc<Type> {
        Rc::new(Type::Circuit(
            wires_type(self.takes),
            wires_type(self.makes),
        ))
    }
}

/// The type of no wire, that of one, or the pairs of more, nested to the right.
fn wires_type(wires: &[Wire]) -> Rc<Type> {
    match wires {
        [] => Rc::new(Type::Unit),
        [one] => one.as_type(),
        [first, others @ ..] => Rc::new(Type::Pair(first.as_type(), wires_type(others))),
    }
}
