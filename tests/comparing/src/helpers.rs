//! The cases of 02's ticket 5: unit, and wires that come and go. They are those of
//! the proved table.

use crate::cases::{Finishing, Listing, ONE_WIRE};
use crate::first_faults::Faulty;
use program_files::kinds::{PAIR_TYPE, QUBIT, UNIT};
use program_files::Wire::{self, Bit, Qubit};
use program_files::{Term, Type};
use programs::terms::{
    abstraction, application, apply, boxed, force, gate, label, let_in, lift, pair, unit_value,
    variable,
};
use programs::types::{self, circuit, qubit, unit};
use std::rc::Rc;

const H: usize = 0;
pub(crate) const CNOT: usize = 5;
pub(crate) const MEAS: usize = 6;
pub(crate) const INIT: usize = 9;
pub(crate) const DISCARD: usize = 10;

const NOTHING: Listing = Listing {
    gates: 0,
    bytes: &[0, 0, 0, 0, 0, 0],
    lines: "out\n",
};

const ONE_INIT: Listing = Listing {
    gates: 1,
    bytes: &[0, 0, 1, 0, 1, 0, 9, 255, 255, 255, 255, 255, 255, 0, 0],
    lines: "gate Init : 0\nout 0\n",
};

const ONE_DISCARD: Listing = Listing {
    gates: 1,
    bytes: &[
        1, 0, 1, 0, 0, 0, 0x80, 10, 255, 255, 255, 255, 255, 255, 0, 0, 255, 255, 255, 255,
    ],
    lines: "in 0 Bit\ngate Discard 0 :\nout\n",
};

/// An H on each of two labels.
const TWO_WIRES: Listing = Listing {
    gates: 2,
    bytes: &[
        2, 0, 2, 0, 2, 0, 0x81, 0x81, 0, 0, 255, 255, 255, 255, 255, 255, 255, 255, 255, 255, 255,
        255, 0, 0, 255, 255, 255, 255, 1, 0, 255, 255, 255, 255, 2, 0, 3, 0,
    ],
    lines: "in 0 Qubit\nin 1 Qubit\ngate H 0 : 2\ngate H 1 : 3\nout 2 3\n",
};

/// A CNOT on the second label and the first.
const ONE_CNOT: Listing = Listing {
    gates: 1,
    bytes: &[
        2, 0, 1, 0, 2, 0, 0x81, 0x81, 5, 255, 255, 255, 255, 255, 255, 255, 255, 255, 255, 255,
        255, 1, 0, 0, 0, 255, 255, 2, 0, 3, 0,
    ],
    lines: "in 0 Qubit\nin 1 Qubit\ngate CNOT 1 0 : 2 3\nout 2 3\n",
};

/// A Qubit comes, is measured and goes, twice.
const COME_AND_GONE: Listing = Listing {
    gates: 6,
    bytes: &[
        0, 0, 6, 0, 0, 0, 9, 6, 10, 9, 6, 10, 255, 255, 255, 255, 255, 255, 0, 0, 255, 255, 255,
        255, 1, 0, 255, 255, 255, 255, 255, 255, 255, 255, 255, 255, 2, 0, 255, 255, 255, 255, 3,
        0, 255, 255, 255, 255,
    ],
    lines: "gate Init : 0\ngate Meas 0 : 1\ngate Discard 1 :\n\
            gate Init : 2\ngate Meas 2 : 3\ngate Discard 3 :\nout\n",
};

/// The box at this type of a function with this body.
pub fn box_of(at: Rc<Type>, body: Rc<Term>) -> Rc<Term> {
    boxed(at.clone(), lift(abstraction(at, body)))
}

/// The circuit, bound to a variable that the body applies.
pub fn bound(circuit: Rc<Term>, of: Rc<Type>, body: Rc<Term>) -> Rc<Term> {
    application(abstraction(of, body), circuit)
}

/// Variable 0 applied to each of two arguments, as a pair.
fn applied_twice(one: Rc<Term>, other: Rc<Term>) -> Rc<Term> {
    pair(apply(variable(0), one), apply(variable(0), other))
}

/// The accepted ones.
pub fn accepted() -> Vec<Finishing> {
    let case = |name, labels: &[Wire], term, of, steps, listing| Finishing {
        name,
        labels: labels.to_vec(),
        term,
        of,
        steps,
        listing,
    };
    let init = |argument| apply(gate(INIT), argument);
    let come_and_gone = |argument| apply(gate(DISCARD), apply(gate(MEAS), init(argument)));
    let with_unit = pair(unit_value(), apply(gate(H), variable(0)));
    let unit_between = || types::pair(qubit(), types::pair(unit(), qubit()));
    let of_unit = |body| application(abstraction(unit(), body), unit_value());
    vec![
        case("u1", &[], unit_value(), &[UNIT], 0, &NOTHING),
        case("u2", &[], init(unit_value()), &[QUBIT], 1, &ONE_INIT),
        case(
            "u3",
            &[Bit],
            apply(gate(DISCARD), label(0)),
            &[UNIT],
            1,
            &ONE_DISCARD,
        ),
        // A box at unit.
        case(
            "u4",
            &[],
            apply(box_of(unit(), init(variable(0))), unit_value()),
            &[QUBIT],
            5,
            &ONE_INIT,
        ),
        // A box whose result is a pair of unit and a wire, applied twice.
        case(
            "u5",
            &[Qubit, Qubit],
            bound(
                box_of(qubit(), with_unit),
                circuit(qubit(), types::pair(unit(), qubit())),
                applied_twice(label(0), label(1)),
            ),
            &[PAIR_TYPE, PAIR_TYPE, UNIT, QUBIT, PAIR_TYPE, UNIT, QUBIT],
            7,
            &TWO_WIRES,
        ),
        // A variable of unit copied, and one dropped.
        case(
            "u6",
            &[],
            of_unit(pair(variable(0), variable(0))),
            &[PAIR_TYPE, UNIT, UNIT],
            1,
            &NOTHING,
        ),
        case("u7", &[Qubit], of_unit(label(0)), &[QUBIT], 1, &ONE_WIRE),
        // A Qubit that comes and goes, boxed and applied twice.
        case(
            "u8",
            &[],
            bound(
                box_of(unit(), come_and_gone(variable(0))),
                circuit(unit(), unit()),
                applied_twice(unit_value(), unit_value()),
            ),
            &[PAIR_TYPE, UNIT, UNIT],
            9,
            &COME_AND_GONE,
        ),
        case(
            "a box at a type with unit between its wires",
            &[Qubit, Qubit],
            apply(
                box_of(
                    unit_between(),
                    let_in(
                        variable(0),
                        let_in(
                            variable(0),
                            pair(
                                variable(1),
                                apply(gate(CNOT), pair(variable(3), variable(0))),
                            ),
                        ),
                    ),
                ),
                pair(label(1), pair(unit_value(), label(0))),
            ),
            &[PAIR_TYPE, UNIT, PAIR_TYPE, QUBIT, QUBIT],
            7,
            &ONE_CNOT,
        ),
        case(
            "a variable of unit used inside a lift",
            &[],
            of_unit(force(lift(variable(0)))),
            &[UNIT],
            2,
            &NOTHING,
        ),
    ]
}

/// The function from unit to unit, which is no wire type.
pub fn no_wires() -> Rc<Term> {
    abstraction(unit(), variable(0))
}

/// The refused ones: Discard takes no Qubit, Init no wire; label 0 is not used; a
/// pair of unit and a wire may be neither copied nor dropped nor used inside a lift.
pub fn refused() -> Vec<Faulty> {
    let over_both = |body| abstraction(types::pair(unit(), qubit()), body);
    let all: [(&str, usize, Rc<Term>, u8, usize); 6] = [
        (
            "Discard of a Qubit",
            1,
            apply(gate(DISCARD), label(0)),
            16,
            1,
        ),
        ("Init of a Qubit", 1, apply(gate(INIT), label(0)), 16, 1),
        ("unit's value beside a label", 1, unit_value(), 17, 0),
        (
            "a pair of unit and a wire used twice",
            0,
            over_both(pair(variable(0), variable(0))),
            17,
            3,
        ),
        (
            "a pair of unit and a wire dropped",
            0,
            over_both(unit_value()),
            17,
            3,
        ),
        (
            "a pair of unit and a wire used inside a lift",
            0,
            over_both(lift(variable(0))),
            18,
            5,
        ),
    ];
    let case = |(name, labels, term, number, place): (&str, usize, Rc<Term>, u8, usize)| Faulty {
        name: name.to_string(),
        labels: vec![Qubit; labels],
        term,
        number,
        place,
    };
    all.into_iter().map(case).collect()
}
