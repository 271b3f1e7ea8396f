//! Pairs written by hand, with the lines of `wirelist` for each.

use crate::compare::Comparison;
use crate::spots::Applied;
use program_files::{Program, Term, Type, Wire};
use programs::terms::{apply, gate, label, let_in, pair, unit_value, variable};
use programs::typed::Typed;
use programs::types::{self, qubit, qubits, unit};
use std::rc::Rc;

const H: usize = 0;
const X: usize = 1;
const S: usize = 3;
const MEAS: usize = 6;
const INIT: usize = 9;
const DISCARD: usize = 10;
const CCX: usize = 11;

/// A program whose spots are all boxed, on so many Qubits, with its type, its lines
/// and its steps with all boxes and with none.
struct Written {
    qubits: usize,
    term: Rc<Term>,
    of: Rc<Type>,
    lines: &'static str,
    steps: [u32; 2],
}

fn spot(over: Rc<Type>, body: Rc<Term>, argument: Rc<Term>) -> Rc<Term> {
    Applied {
        over,
        body,
        argument,
    }
    .boxed()
}

fn written() -> Vec<Written> {
    let on = |number: usize, wire: Rc<Term>| apply(gate(number), wire);
    let inner = spot(qubit(), on(S, variable(0)), variable(1));
    let bit = Wire::Bit.as_type();
    vec![
        // A gate in the argument stands before the one in the body.
        Written {
            qubits: 1,
            term: spot(qubit(), on(X, variable(0)), on(H, label(0))),
            of: qubit(),
            lines: "in 0 Qubit\ngate H 0 : 1\ngate X 1 : 2\nout 2\n",
            steps: [6, 3],
        },
        // A Qubit that comes at unit, and a Bit that goes.
        Written {
            qubits: 0,
            term: spot(unit(), on(INIT, variable(0)), unit_value()),
            of: qubit(),
            lines: "gate Init : 0\nout 0\n",
            steps: [5, 2],
        },
        Written {
            qubits: 1,
            term: spot(bit, on(DISCARD, variable(0)), on(MEAS, label(0))),
            of: unit(),
            lines: "in 0 Qubit\ngate Meas 0 : 1\ngate Discard 1 :\nout\n",
            steps: [6, 3],
        },
        // Three wires in another order.
        Written {
            qubits: 3,
            term: spot(
                qubits(3),
                let_in(
                    variable(0),
                    let_in(
                        variable(0),
                        on(CCX, pair(variable(0), pair(variable(3), variable(1)))),
                    ),
                ),
                pair(label(0), pair(on(H, label(1)), label(2))),
            ),
            of: qubits(3),
            lines: "in 0 Qubit\nin 1 Qubit\nin 2 Qubit\n\
                    gate H 1 : 3\ngate CCX 2 0 3 : 4 5 6\nout 4 5 6\n",
            steps: [8, 5],
        },
        // A box within a box: one wire goes through it, the other one passes, and they
        // are exchanged.
        Written {
            qubits: 2,
            term: spot(
                qubits(2),
                let_in(variable(0), pair(variable(0), inner)),
                pair(label(0), label(1)),
            ),
            of: types::pair(qubit(), qubit()),
            lines: "in 0 Qubit\nin 1 Qubit\ngate S 0 : 2\nout 1 2\n",
            steps: [10, 4],
        },
    ]
}

pub fn compare(comparison: &mut Comparison) {
    comparison.group("written by hand");
    for written in written() {
        let typed = Typed {
            program: Program::new(vec![Wire::Qubit; written.qubits], written.term),
            of: written.of,
        };
        comparison.known(&typed, written.lines, written.steps);
        comparison.program(&typed);
    }
}
