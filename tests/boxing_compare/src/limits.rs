//! Pairs of which one program may be too large: a box is counted among those closed,
//! its gates once more, its function in a frame of its own, and its circuit, while the
//! argument is evaluated, as one node in the place of the abstraction.

use crate::compare::Comparison;
use crate::spots::Applied;
use evaluator::configurations::{MOST_BOXES, MOST_GATES, MOST_NODES};
use program_files::{Program, Term, Wire};
use programs::extremes::forced_lifts;
use programs::terms::{abstraction, application, apply, gate, label, let_in, lift, pair, variable};
use programs::typed::Typed;
use programs::types::{qubit, reusable};
use std::rc::Rc;

pub fn compare(comparison: &mut Comparison) {
    boxes(comparison);
    gates(comparison);
    nodes(comparison);
    nodes_of_arguments(comparison);
}

/// A spot on one Qubit.
fn spot(body: Rc<Term>, argument: Rc<Term>) -> Rc<Term> {
    let over = qubit();
    Applied {
        over,
        body,
        argument,
    }
    .boxed()
}

fn on_one_qubit(comparison: &mut Comparison, term: Rc<Term>) {
    comparison.program(&Typed {
        program: Program::new(vec![Wire::Qubit], term),
        of: qubit(),
    });
}

/// So many gates on a wire.
fn row(count: usize, wire: Rc<Term>) -> Rc<Term> {
    (0..count).fold(wire, |wire, at| apply(gate(at % 5), wire))
}

/// So many abstractions that give their wire back.
fn same(count: usize, wire: Rc<Term>) -> Rc<Term> {
    let same = abstraction(qubit(), variable(0));
    (0..count).fold(wire, |wire, _| application(same.clone(), wire))
}

/// Spots in each other, so many around the innermost one's body.
fn nested(depth: usize, body: Rc<Term>) -> Rc<Term> {
    let inside = (1..depth).fold(body, |body, _| spot(body, variable(0)));
    spot(inside, label(0))
}

/// One box after the other.
fn boxes(comparison: &mut Comparison) {
    comparison.group("with boxes near 256");
    for count in MOST_BOXES - 16..MOST_BOXES + 64 {
        let term = (0..count).fold(label(0), |wire, at| {
            let gates = usize::from(at % 7 == 0);
            spot(row(gates, variable(0)), wire)
        });
        on_one_qubit(comparison, term);
    }
}

/// The gates of a body are counted once more for each box around it.
fn gates(comparison: &mut Comparison) {
    comparison.group("with gates near 2,048");
    for depth in 2..=7 {
        let most = MOST_GATES / (depth + 1);
        for count in most - 2..most + 6 {
            on_one_qubit(comparison, nested(depth, row(count, variable(0))));
        }
    }
}

/// The nodes of a body stand in the frame of each box around it.
fn nodes(comparison: &mut Comparison) {
    comparison.group("with nodes near 4,096");
    for depth in 3..=8 {
        let most = MOST_NODES / (depth + 1) / 3;
        for count in most - 8..most + 8 {
            on_one_qubit(comparison, nested(depth, same(count, variable(0))));
        }
    }
}

/// An argument that grows while it is evaluated, beside an abstraction of many nodes.
fn nodes_of_arguments(comparison: &mut Comparison) {
    comparison.group("with nodes near 4,096 in the argument");
    // A lift is copied twice by each of these lets.
    const LETS: usize = 8;
    for copied in (MOST_NODES / (2 * LETS) - 48..MOST_NODES / (2 * LETS)).filter(|at| at % 2 == 1) {
        for count in [20, 100, 200] {
            let uses = (0..LETS).rev().fold(label(0), |rest, lets| {
                let both = pair(variable(2 * lets), variable(2 * lets));
                let_in(both, rest)
            });
            let large = forced_lifts(copied);
            let over = reusable(large.of);
            let argument = application(abstraction(over, uses), lift(large.program.term));
            on_one_qubit(comparison, spot(same(count, variable(0)), argument));
        }
    }
}
