//! The cases of 02's ticket 2: programs that use a pair twice, inside a lift or
//! not at all. They are accepted where both halves may be copied, and refused
//! where a half may not. They are those of the proved table.

use crate::cases::{Listing, ONE_WIRE};
use crate::first_faults::Faulty;
use program_files::{Term, Type, Wire};
use programs::terms::{
    abstraction, application, apply, force, gate, label, let_in, lift, pair, variable,
};
use programs::types::{self, circuit, function, qubit};
use std::rc::Rc;

/// A program with label 0, a Qubit, that gives a Qubit.
pub struct Copied {
    pub name: &'static str,
    pub term: Rc<Term>,
    pub steps: u32,
    pub listing: &'static Listing,
}

/// X on the label and then H.
const X_THEN_H: Listing = Listing {
    gates: 2,
    bytes: &[
        1, 0, 2, 0, 1, 0, 0x81, 1, 0, 255, 255, 255, 255, 255, 255, 0, 0, 255, 255, 255, 255, 1, 0,
        255, 255, 255, 255, 2, 0,
    ],
    lines: "in 0 Qubit\ngate X 0 : 1\ngate H 1 : 2\nout 2\n",
};

const H: usize = 0;
const X: usize = 1;

/// The type of the gates H and X.
fn one_gate() -> Rc<Type> {
    circuit(qubit(), qubit())
}

fn two_gates() -> Rc<Type> {
    types::pair(one_gate(), one_gate())
}

fn h_and_x() -> Rc<Term> {
    pair(gate(H), gate(X))
}

/// The abstraction of the body over this type, applied to the argument.
fn with_variable(over: Rc<Type>, body: Rc<Term>, argument: Rc<Term>) -> Rc<Term> {
    application(abstraction(over, body), argument)
}

/// The circuit, forced out of a lift, is applied.
fn apply_lifted(circuit: Rc<Term>, argument: Rc<Term>) -> Rc<Term> {
    apply(force(lift(circuit)), argument)
}

/// The accepted ones.
pub fn accepted() -> Vec<Copied> {
    let second_applied = || apply(variable(0), label(0));
    let both_applied = || apply(variable(3), second_applied());
    let first_in_a_lift = |of: usize| let_in(variable(of), variable(1));
    let second_in_a_lift = |of: usize| let_in(variable(of), variable(0));
    let copied = |name, term, steps, listing| Copied {
        name,
        term,
        steps,
        listing,
    };
    vec![
        // Taken apart twice: the first half of one and the second of the other
        // are applied, the others dropped.
        copied(
            "a pair used twice",
            with_variable(
                two_gates(),
                let_in(variable(0), let_in(variable(2), both_applied())),
                h_and_x(),
            ),
            5,
            &X_THEN_H,
        ),
        copied(
            "a pair bound by a let used twice",
            let_in(
                pair(h_and_x(), gate(H)),
                let_in(variable(1), let_in(variable(3), both_applied())),
            ),
            5,
            &X_THEN_H,
        ),
        copied(
            "a pair dropped",
            with_variable(two_gates(), label(0), h_and_x()),
            1,
            &ONE_WIRE,
        ),
        copied(
            "a pair used inside a lift and outside",
            with_variable(
                two_gates(),
                let_in(
                    variable(0),
                    apply_lifted(first_in_a_lift(2), second_applied()),
                ),
                h_and_x(),
            ),
            6,
            &X_THEN_H,
        ),
        // Taken apart twice; each time one half, itself a pair, is dropped and
        // the other used inside a lift.
        copied(
            "a pair of pairs used twice",
            with_variable(
                types::pair(two_gates(), two_gates()),
                let_in(
                    variable(0),
                    let_in(
                        variable(2),
                        apply_lifted(
                            first_in_a_lift(3),
                            apply_lifted(second_in_a_lift(0), label(0)),
                        ),
                    ),
                ),
                pair(h_and_x(), h_and_x()),
            ),
            9,
            &X_THEN_H,
        ),
    ]
}

/// The refused ones: a pair with a half that may be neither copied nor dropped.
/// Used twice or dropped it is 17 at the abstraction, inside a lift 18 at the
/// variable.
pub fn refused() -> Vec<Faulty> {
    let mut all = Vec::new();
    for (with, of, argument, first_term) in linear_pairs() {
        let twice = pair(variable(0), variable(0));
        let uses = [
            ("used twice", twice, 17, 1),
            ("dropped", gate(H), 17, 1),
            ("used inside a lift", lift(variable(0)), 18, 3),
        ];
        for (how, body, number, node) in uses {
            all.push(Faulty {
                name: format!("a pair with {with} {how}"),
                labels: vec![Wire::Qubit],
                term: with_variable(of.clone(), body, argument.clone()),
                number,
                place: first_term + node,
            });
        }
    }
    all
}

/// What the pair has, its type, a term of it that uses label 0, and the entry
/// of the first term: behind the label and the types of the abstractions.
fn linear_pairs() -> [(&'static str, Rc<Type>, Rc<Term>, usize); 5] {
    let over_gate = || abstraction(one_gate(), apply(variable(0), label(0)));
    [
        (
            "a wire first",
            types::pair(qubit(), one_gate()),
            pair(label(0), gate(H)),
            6,
        ),
        (
            "a wire second",
            types::pair(one_gate(), qubit()),
            pair(gate(H), label(0)),
            6,
        ),
        (
            "a wire first in its second half",
            types::pair(one_gate(), types::pair(qubit(), one_gate())),
            pair(gate(H), pair(label(0), gate(X))),
            10,
        ),
        (
            "a wire second in its first half",
            types::pair(types::pair(one_gate(), qubit()), one_gate()),
            pair(pair(gate(H), label(0)), gate(X)),
            10,
        ),
        (
            "a function second",
            types::pair(one_gate(), function(one_gate(), qubit())),
            pair(gate(H), over_gate()),
            13,
        ),
    ]
}
