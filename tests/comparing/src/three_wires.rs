//! The cases of 02's ticket 6, a gate on three wires, which are those of the proved
//! table; and CCX applied to tuples of every small wire type.

use crate::cases::{Finishing, Listing};
use crate::first_faults::Faulty;
use crate::helpers::{bound, box_of};
use crate::known::Known;
use program_files::kinds::{PAIR_TYPE, QUBIT};
use program_files::Wire::{self, Bit, Qubit};
use program_files::{Entries, Program, Term, Type, GATES};
use programs::nested::in_a_row;
use programs::terms::{
    abstraction, apply, boxed, gate, label, let_in, lift, pair, unit_value, variable,
};
use programs::types::{self, circuit, function, qubits, unit};
use std::rc::Rc;

const H: usize = 0;
pub(crate) const CCX: usize = 11;

/// The type of three Qubits as CCX takes them, in preorder.
const THREE: &[u8] = &[PAIR_TYPE, QUBIT, PAIR_TYPE, QUBIT, QUBIT];

/// CCX on the labels in order.
const IN_ORDER: Listing = Listing {
    gates: 1,
    bytes: &[
        3, 0, 1, 0, 3, 0, 0x81, 0x81, 0x81, 11, 255, 255, 255, 255, 255, 255, 255, 255, 255, 255,
        255, 255, 255, 255, 255, 255, 255, 255, 0, 0, 1, 0, 2, 0, 3, 0, 4, 0, 5, 0,
    ],
    lines: "in 0 Qubit\nin 1 Qubit\nin 2 Qubit\ngate CCX 0 1 2 : 3 4 5\nout 3 4 5\n",
};

/// CCX on the last label and the first two.
const LAST_FIRST: Listing = Listing {
    gates: 1,
    bytes: &[
        3, 0, 1, 0, 3, 0, 0x81, 0x81, 0x81, 11, 255, 255, 255, 255, 255, 255, 255, 255, 255, 255,
        255, 255, 255, 255, 255, 255, 255, 255, 2, 0, 0, 0, 1, 0, 3, 0, 4, 0, 5, 0,
    ],
    lines: "in 0 Qubit\nin 1 Qubit\nin 2 Qubit\ngate CCX 2 0 1 : 3 4 5\nout 3 4 5\n",
};

/// CCX on the labels, and on what it makes, the last wire first.
const TWICE: Listing = Listing {
    gates: 2,
    bytes: &[
        3, 0, 2, 0, 3, 0, 0x81, 0x81, 0x81, 11, 11, 255, 255, 255, 255, 255, 255, 255, 255, 255,
        255, 255, 255, 255, 255, 255, 255, 255, 255, 0, 0, 1, 0, 2, 0, 5, 0, 3, 0, 4, 0, 6, 0, 7,
        0, 8, 0,
    ],
    lines: "in 0 Qubit\nin 1 Qubit\nin 2 Qubit\n\
            gate CCX 0 1 2 : 3 4 5\ngate CCX 5 3 4 : 6 7 8\nout 6 7 8\n",
};

/// A tuple of these, nested to the right.
fn row<const N: usize>(parts: [Rc<Term>; N]) -> Rc<Term> {
    in_a_row(&parts, pair)
}

/// The labels of these numbers in such a tuple.
fn labels<const N: usize>(numbers: [usize; N]) -> Rc<Term> {
    row(numbers.map(label))
}

fn ccx(argument: Rc<Term>) -> Rc<Term> {
    apply(gate(CCX), argument)
}

/// The box at three Qubits of a function with this body.
fn boxed_three(body: Rc<Term>) -> Rc<Term> {
    box_of(qubits(3), body)
}

/// The accepted ones.
pub fn accepted() -> Vec<Finishing> {
    let case = |name, term, steps, listing| Finishing {
        name,
        labels: vec![Qubit; 3],
        term,
        of: THREE,
        steps,
        listing,
    };
    // The circuit is variable 4 under the lets, what it makes 3, 1 and 0.
    let again = apply(variable(4), row([variable(0), variable(3), variable(1)]));
    let once = apply(variable(0), labels([0, 1, 2]));
    vec![
        case("t1", ccx(labels([0, 1, 2])), 1, &IN_ORDER),
        case("t2", ccx(labels([2, 0, 1])), 1, &LAST_FIRST),
        // In a box.
        case(
            "t3",
            apply(boxed_three(ccx(variable(0))), labels([0, 1, 2])),
            5,
            &IN_ORDER,
        ),
        // In a box inside a box, applied twice, the second time to crossed wires.
        case(
            "t4",
            bound(
                boxed_three(apply(boxed_three(ccx(variable(0))), variable(0))),
                circuit(qubits(3), qubits(3)),
                let_in(once, let_in(variable(0), again)),
            ),
            13,
            &TWICE,
        ),
    ]
}

/// The refused ones: three wires nested to the left, two, a Bit in the place of each
/// wire, H on the two that are left of what CCX makes, and the last of them dropped.
pub fn refused() -> Vec<Faulty> {
    let case = |name: &str, labels: &[Wire], term, number, place| Faulty {
        name: name.to_string(),
        labels: labels.to_vec(),
        term,
        number,
        place,
    };
    let three = [Qubit; 3];
    let mut all = vec![
        case(
            "CCX of three wires nested to the left",
            &three,
            ccx(pair(labels([0, 1]), label(2))),
            16,
            3,
        ),
        case("CCX of two wires", &three[..2], ccx(labels([0, 1])), 16, 2),
    ];
    for (at, place) in ["first", "second", "third"].into_iter().enumerate() {
        let mut wires = three;
        wires[at] = Bit;
        let name = format!("CCX with a Bit for its {place} wire");
        all.push(case(&name, &wires, ccx(labels([0, 1, 2])), 16, 3));
    }
    let made = || ccx(labels([0, 1, 2]));
    all.push(case(
        "H of two of the wires that CCX makes",
        &three,
        let_in(made(), pair(variable(1), apply(gate(H), variable(0)))),
        16,
        13,
    ));
    all.push(case(
        "the third wire that CCX makes dropped",
        &three,
        let_in(made(), let_in(variable(0), pair(variable(3), variable(1)))),
        17,
        11,
    ));
    all
}

/// A program that applies CCX to an argument of some wire type.
pub struct Applied {
    pub program: Program,
    /// Its type, if CCX takes that wire type.
    of: Rc<Type>,
    /// The node of the apply, if CCX does not.
    refused: Option<usize>,
}

impl Applied {
    /// What is known of a file of the program.
    pub fn known(&self, entries: &Entries) -> Known {
        match self.refused {
            Some(node) => Known::Refused(16, entries.sizes().first_term() + node),
            None => Known::Type(self.of.clone()),
        }
    }
}

/// The most leaves of an argument.
const MOST_LEAVES: usize = 4;

/// All wire types of so many leaves.
fn wire_types(leaves: usize) -> Vec<Rc<Type>> {
    if leaves == 1 {
        return vec![Bit.as_type(), Qubit.as_type(), unit()];
    }
    let mut all = Vec::new();
    for first in 1..leaves {
        for one in wire_types(first) {
            let others = wire_types(leaves - first).into_iter();
            all.extend(others.map(|other| types::pair(one.clone(), other)));
        }
    }
    all
}

/// CCX applied in several ways to arguments of all small wire types.
pub fn applied() -> Vec<Applied> {
    let all = (1..=MOST_LEAVES).flat_map(wire_types);
    all.flat_map(|of| applied_to(&of)).collect()
}

/// A tuple of this wire type from labels, which are put behind those that there are.
fn tuple(of: &Type, labels: &mut Vec<Wire>) -> Rc<Term> {
    let wire = match of {
        Type::Pair(first, second) => {
            let first = tuple(first, labels);
            return pair(first, tuple(second, labels));
        }
        Type::Unit => return unit_value(),
        Type::Bit => Bit,
        _ => Qubit,
    };
    labels.push(wire);
    label(labels.len() - 1)
}

/// CCX applied to labels, to a variable, inside a box, as a variable, in a box, and to
/// the halves that a let takes apart.
fn applied_to(of: &Rc<Type>) -> Vec<Applied> {
    let (three, own) = (qubits(3), GATES[CCX].circuit_type());
    let mut wires = Vec::new();
    let argument = tuple(of, &mut wires);
    let over = |of: &Rc<Type>| abstraction(of.clone(), ccx(variable(0)));
    let bound_to = |body| bound(gate(CCX), own.clone(), body);
    let mut all = vec![
        (&wires[..], ccx(argument.clone()), three.clone(), 0),
        (&[], over(of), function(of.clone(), three.clone()), 1),
        (
            &[],
            boxed(of.clone(), lift(over(of))),
            circuit(of.clone(), three.clone()),
            3,
        ),
        (
            &wires,
            bound_to(apply(variable(0), argument.clone())),
            three.clone(),
            2,
        ),
        (
            &wires,
            apply(boxed_three(ccx(variable(0))), argument.clone()),
            three.clone(),
            0,
        ),
    ];
    if let Type::Pair(..) = **of {
        let both = ccx(pair(variable(1), variable(0)));
        let node = 1 + argument.size();
        all.push((&wires, let_in(argument, both), three.clone(), node));
    }
    let program = |(labels, term, of_whole, node): (&[Wire], Rc<Term>, Rc<Type>, usize)| Applied {
        program: Program::new(labels.to_vec(), term),
        of: of_whole,
        refused: (*of != three).then_some(node),
    };
    all.into_iter().map(program).collect()
}
