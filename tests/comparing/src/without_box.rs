//! The cases of 02's ticket 10, which are those of the proved table: a program with a
//! box, and the same without it.

use crate::cases::{Finishing, Listing};
use crate::helpers::{bound, CNOT, DISCARD, INIT, MEAS};
use crate::three_wires::CCX;
use program_files::kinds::{PAIR_TYPE, QUBIT};
use program_files::Term;
use program_files::Wire::Qubit;
use programs::terms::{
    abstraction, application, apply, boxed, force, gate, label, let_in, lift, pair, unit_value,
    variable,
};
use programs::types::{self, qubits, unit};
use std::rc::Rc;

/// CNOT, and CCX with a helper that comes and goes, twice.
const HELPED: Listing = Listing {
    gates: 10,
    bytes: &[
        2, 0, 10, 0, 2, 0, 0x81, 0x81, 5, 9, 11, 6, 10, 5, 9, 11, 6, 10, 255, 255, 255, 255, 255,
        255, 255, 255, 255, 255, 255, 255, 0, 0, 1, 0, 255, 255, 255, 255, 255, 255, 255, 255, 2,
        0, 3, 0, 4, 0, 7, 0, 255, 255, 255, 255, 8, 0, 255, 255, 255, 255, 5, 0, 6, 0, 255, 255,
        255, 255, 255, 255, 255, 255, 9, 0, 10, 0, 11, 0, 14, 0, 255, 255, 255, 255, 15, 0, 255,
        255, 255, 255, 12, 0, 13, 0,
    ],
    lines: "in 0 Qubit\nin 1 Qubit\n\
            gate CNOT 0 1 : 2 3\ngate Init : 4\ngate CCX 2 3 4 : 5 6 7\n\
            gate Meas 7 : 8\ngate Discard 8 :\n\
            gate CNOT 5 6 : 9 10\ngate Init : 11\ngate CCX 9 10 11 : 12 13 14\n\
            gate Meas 14 : 15\ngate Discard 15 :\nout 12 13\n",
};

/// A helper comes, CCX takes it as the last of three, and it is measured and goes.
fn helped() -> Rc<Term> {
    let helper = apply(gate(INIT), unit_value());
    let argument = pair(variable(1), pair(variable(0), helper));
    let gone = apply(gate(DISCARD), apply(gate(MEAS), variable(0)));
    let result = bound(gone, unit(), pair(variable(4), variable(2)));
    let behind = let_in(apply(gate(CCX), argument), let_in(variable(0), result));
    abstraction(qubits(2), let_in(variable(0), behind))
}

/// The function with this body on two Qubits, lifted, and forced twice.
fn forced_twice(body: Rc<Term>) -> Rc<Term> {
    let function = types::function(qubits(2), qubits(2));
    let call = |argument| application(force(variable(0)), argument);
    bound(
        lift(abstraction(qubits(2), body)),
        types::reusable(function),
        call(call(pair(label(0), label(1)))),
    )
}

/// With the box, and without it.
pub fn accepted() -> Vec<Finishing> {
    let case = |name, body, steps| Finishing {
        name,
        labels: vec![Qubit; 2],
        term: forced_twice(body),
        of: &[PAIR_TYPE, QUBIT, QUBIT],
        steps,
        listing: &HELPED,
    };
    let argument = || apply(gate(CNOT), variable(0));
    let circuit = boxed(qubits(2), lift(helped()));
    vec![
        case("b1", apply(circuit, argument()), 31),
        case("b2", application(helped(), argument()), 25),
    ]
}
