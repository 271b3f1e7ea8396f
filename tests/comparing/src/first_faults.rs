//! The cases of 02's ticket 1: programs with two faults of one number, of which
//! the first in the file is answered. They are those of the proved table.

use program_files::{Term, Wire};
use programs::terms::{
    abstraction, application, apply, force, gate, label, let_in, lift, pair, variable,
};
use programs::types::circuit;
use std::rc::Rc;

/// A program with these labels, and its refusal.
pub struct Faulty {
    pub name: String,
    pub labels: Vec<Wire>,
    pub term: Rc<Term>,
    pub number: u8,
    pub place: usize,
}

/// A term with one fault, which uses one label, once.
type Fault = fn(usize) -> Rc<Term>;

/// 16 at its first node: a Qubit is not reusable.
fn forced_qubit(number: usize) -> Rc<Term> {
    force(label(number))
}

/// 17 at its first node: the let does not use its first half, a Qubit.
fn half_unused(number: usize) -> Rc<Term> {
    let_in(pair(label(number), gate(0)), variable(0))
}

/// 18 at its fourth node: the label is used inside a lift.
fn used_in_lift(number: usize) -> Rc<Term> {
    let_in(pair(lift(label(number)), gate(0)), variable(0))
}

/// Number and term, and how far the place is behind the term's first node.
const FAULTS: [(u8, Fault, usize); 3] = [
    (16, forced_qubit, 0),
    (17, half_unused, 0),
    (18, used_in_lift, 3),
];

/// A node with one term in its first part and one in its second.
type Node = fn(Rc<Term>, Rc<Term>) -> Rc<Term>;

fn in_let(first: Rc<Term>, second: Rc<Term>) -> Rc<Term> {
    let_in(pair(first, gate(0)), second)
}

fn in_application(first: Rc<Term>, second: Rc<Term>) -> Rc<Term> {
    let qubit = || Wire::Qubit.as_type();
    application(abstraction(circuit(qubit(), qubit()), first), second)
}

/// It takes label 2 for a wire to apply to.
fn in_apply(first: Rc<Term>, second: Rc<Term>) -> Rc<Term> {
    apply(first, let_in(pair(second, label(2)), variable(0)))
}

/// Both terms in one.
fn both(first: Rc<Term>, second: Rc<Term>) -> Rc<Term> {
    let_in(pair(first, second), variable(0))
}

/// The node, its labels, and the entry of the first fault: with one in each
/// part, with both in the first part, with both in the second.
const NODES: [(&str, Node, usize, [usize; 3]); 4] = [
    ("pair", pair, 2, [3, 5, 6]),
    ("let", in_let, 2, [4, 6, 8]),
    ("application", in_application, 2, [7, 9, 10]),
    ("apply", in_apply, 3, [4, 6, 9]),
];

/// The node, and the entry of the first of two faults behind a 17.
const BEHIND: [(&str, Node, usize); 3] = [
    ("pair", pair, 11),
    ("let", in_let, 13),
    ("application", in_application, 15),
];

/// The table.
pub fn all() -> Vec<Faulty> {
    let mut all = Vec::new();
    let mut add = |name: String, labels, term, number, place| {
        all.push(Faulty {
            name,
            labels: vec![Wire::Qubit; labels],
            term,
            number,
            place,
        });
    };
    for (node, made, labels, [each, first, second]) in NODES {
        for (number, fault, behind) in FAULTS {
            let (one, other) = (|| fault(1), || fault(0));
            let mut of = |parts: &str, term, at| {
                let name = format!("two of {number} in {parts} of the {node}");
                add(name, labels, term, number, at + behind);
            };
            of("the parts", made(one(), other()), each);
            let part = || both(one(), other());
            of("the first part", made(part(), gate(0)), first);
            of("the second part", made(gate(0), part()), second);
        }
    }
    for (node, made, at) in BEHIND {
        let orders: [(u8, Fault, u8, Fault, usize); 3] = [
            (17, half_unused, 16, forced_qubit, 0),
            (18, used_in_lift, 16, forced_qubit, 1),
            (18, used_in_lift, 17, half_unused, 1),
        ];
        for (later, before, number, fault, further) in orders {
            let name = format!("{later} before two of {number} in the {node}");
            let term = made(before(2), both(fault(1), fault(0)));
            add(name, 3, term, number, at + further);
        }
    }
    let qubit = || Wire::Qubit.as_type();
    let inner = || abstraction(qubit(), gate(0));
    let nested = [
        (
            "let of no pair",
            2,
            let_in(label(1), forced_qubit(0)),
            16,
            2,
        ),
        ("force of a force", 1, force(forced_qubit(0)), 16, 2),
        ("labels", 3, label(0), 17, 1),
        ("label and let", 2, half_unused(0), 17, 1),
        (
            "let and its first part",
            2,
            let_in(pair(half_unused(1), label(0)), variable(1)),
            17,
            2,
        ),
        (
            "let and its second part",
            2,
            let_in(pair(label(1), gate(0)), half_unused(0)),
            17,
            2,
        ),
        (
            "abstraction in an abstraction",
            0,
            abstraction(qubit(), inner()),
            17,
            2,
        ),
    ];
    for (name, labels, term, number, place) in nested {
        add(format!("two faults, {name}"), labels, term, number, place);
    }
    all
}
