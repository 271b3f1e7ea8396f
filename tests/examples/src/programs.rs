//! The example programs.

use pqm::types::{bit, circuit, pair as pair_type, qubit, qubits, unit};
use pqm::{
    application, apply, bind, boxed, boxed_lambda, label, lambda, let_pair, lift, sequence,
    unit_value, Named, Sequence, Type, Variable, BX, BZ, CCX, CNOT, DISCARD, H, INIT, MEAS, S, T,
    X, Z,
};
use std::rc::Rc;

/// The name of each file, the number of Qubits that are its inputs, and the
/// term.
pub fn all() -> Vec<(&'static str, usize, Named)> {
    let inputs = || (label(0), label(1));
    vec![
        ("bell", 2, bell(apply(entangle(), inputs()))),
        ("unboxed", 2, bell(application(entangling(), inputs()))),
        ("teleportation", 3, teleportation()),
        ("grover", 2, grover()),
        ("adder", 4, adder(CCX.into())),
        ("basis", 2, basis()),
        ("repetition", 3, repetition()),
    ]
}

/// A value under three names in what follows: a pair of one and a pair.
fn three(s: &mut Sequence, value: impl Into<Named>) -> (Variable, Variable, Variable) {
    let (first, others) = s.halves(value);
    let (second, third) = s.halves(others);
    (first, second, third)
}

/// A circuit from a type to itself under a name in what follows.
fn define(s: &mut Sequence, on: Rc<Type>, defined: Named) -> Variable {
    s.bind(circuit(on.clone(), on), defined)
}

/// Entangles two Qubits.
fn entangling() -> Named {
    lambda(qubits(2), |wires| {
        sequence(|s| {
            let (a, b) = s.halves(wires);
            let a = s.bind(qubit(), apply(H, a));
            let (a, b) = s.halves(apply(CNOT, (a, b)));
            (a, b)
        })
    })
}

/// The circuit of that function.
fn entangle() -> Named {
    boxed(qubits(2), lift(entangling()))
}

/// A Bell pair of two Qubits; the first is measured, and its bit corrects the
/// second.
fn bell(entangled: Named) -> Named {
    sequence(|s| {
        let (a, b) = s.halves(entangled);
        let a = s.bind(bit(), apply(MEAS, a));
        let (a, b) = s.halves(apply(BX, (a, b)));
        (a, b)
    })
}

/// The state of input 0 goes to the last output, by a Bell pair of the other
/// two inputs, two measurements and two corrections.
fn teleportation() -> Named {
    sequence(|s| {
        let (a, b) = s.halves(apply(entangle(), (label(1), label(2))));
        let (q, a) = s.halves(apply(CNOT, (label(0), a)));
        let q = s.bind(qubit(), apply(H, q));
        let q = s.bind(bit(), apply(MEAS, q));
        let a = s.bind(bit(), apply(MEAS, a));
        let (a, b) = s.halves(apply(BX, (a, b)));
        let (q, b) = s.halves(apply(BZ, (q, b)));
        (q, (a, b))
    })
}

/// The circuit of a function from two Qubits.
fn boxed_two<R: Into<Named>>(body: impl FnOnce(&mut Sequence, Variable, Variable) -> R) -> Named {
    boxed_lambda(qubits(2), |wires| {
        sequence(|s| {
            let (a, b) = s.halves(wires);
            body(s, a, b)
        })
    })
}

/// The circuit of a function from three Qubits.
fn boxed_three<R: Into<Named>>(
    body: impl FnOnce(&mut Sequence, Variable, Variable, Variable) -> R,
) -> Named {
    boxed_lambda(qubits(3), |wires| {
        sequence(|s| {
            let (a, b, c) = three(s, wires);
            body(s, a, b, c)
        })
    })
}

/// The same gate on two wires.
fn on_both(gate: impl Into<Named>) -> Named {
    let gate = gate.into();
    boxed_two(|s, a, b| {
        let a = s.bind(qubit(), apply(gate.clone(), a));
        let b = s.bind(qubit(), apply(gate, b));
        (a, b)
    })
}

/// A Z on the second of two wires under the first.
fn controlled_z() -> Named {
    boxed_two(|s, a, b| {
        let b = s.bind(qubit(), apply(H, b));
        let (a, b) = s.halves(apply(CNOT, (a, b)));
        let b = s.bind(qubit(), apply(H, b));
        (a, b)
    })
}

/// One step of Grover's search on two Qubits, with 11 as the state that is
/// marked: it is what the two measurements find from 00. The step is a box out
/// of three others, each used several times.
fn grover() -> Named {
    sequence(|s| {
        let controlled_z = define(s, qubits(2), controlled_z());
        let h_both = define(s, qubits(2), on_both(H));
        let x_both = define(s, qubits(2), on_both(X));
        let step = boxed_two(|s, mut a, mut b| {
            for circuit in [controlled_z, h_both, x_both, controlled_z, x_both, h_both] {
                (a, b) = s.halves(apply(circuit, (a, b)));
            }
            (a, b)
        });
        let step = define(s, qubits(2), step);
        let (a, b) = s.halves(apply(h_both, (label(0), label(1))));
        let (a, b) = s.halves(apply(step, (a, b)));
        let a = s.bind(bit(), apply(MEAS, a));
        let b = s.bind(bit(), apply(MEAS, b));
        (a, b)
    })
}

/// The inverse of T: Z, S and T together.
fn t_inverse() -> Named {
    boxed_lambda(qubit(), |q| apply(T, apply(S, apply(Z, q))))
}

/// An X on the third wire under the first two, out of gates on one and two
/// wires and the inverse of T, which is used three times.
fn toffoli(t_inverse: Variable) -> Named {
    boxed_three(|s, a, b, t| {
        let t = s.bind(qubit(), apply(H, t));
        let (b, t) = s.halves(apply(CNOT, (b, t)));
        let t = s.bind(qubit(), apply(t_inverse, t));
        let (a, t) = s.halves(apply(CNOT, (a, t)));
        let t = s.bind(qubit(), apply(T, t));
        let (b, t) = s.halves(apply(CNOT, (b, t)));
        let t = s.bind(qubit(), apply(t_inverse, t));
        let (a, t) = s.halves(apply(CNOT, (a, t)));
        let b = s.bind(qubit(), apply(T, b));
        let t = s.bind(qubit(), apply(T, t));
        let t = s.bind(qubit(), apply(H, t));
        let (a, b) = s.halves(apply(CNOT, (a, b)));
        let a = s.bind(qubit(), apply(T, a));
        let b = s.bind(qubit(), apply(t_inverse, b));
        let (a, b) = s.halves(apply(CNOT, (a, b)));
        (a, (b, t))
    })
}

/// The adder on four Qubits with a box of such gates in the place of CCX.
pub fn adder_without_ccx() -> (usize, Named) {
    let term = sequence(|s| {
        let t_inverse = define(s, qubit(), t_inverse());
        let toffoli = define(s, qubits(3), toffoli(t_inverse));
        adder(toffoli.into())
    });
    (4, term)
}

/// An X on each of two Qubits between a change of basis and the way back: S and
/// its inverse, which are passed as a pair. The pair is used inside a box and
/// outside of it.
fn basis() -> Named {
    let on_one = circuit(qubit(), qubit());
    let s_inverse = boxed_lambda(qubit(), |q| apply(S, apply(Z, q)));
    let changes = pair_type(on_one.clone(), on_one);
    bind(changes, (S, s_inverse), |changes| {
        let between = |wire: Named| {
            let_pair(changes, |change, back| {
                apply(back, apply(X, apply(change, wire)))
            })
        };
        let boxed = boxed_lambda(qubit(), |q| between(q.into()));
        (apply(boxed, label(0)), between(label(1)))
    })
}

/// Adds input 0, input 1 and the carry in input 2, with this circuit for an X under two
/// Qubits. Input 3 is 0; the outputs are the first two inputs, their sum and the carry.
fn adder(toffoli: Named) -> Named {
    sequence(|s| {
        let (a, b) = s.halves((label(0), label(1)));
        let (c, carry) = s.halves((label(2), label(3)));
        let (a, b, carry) = three(s, apply(toffoli.clone(), (a, (b, carry))));
        let (a, b) = s.halves(apply(CNOT, (a, b)));
        let (b, c, carry) = three(s, apply(toffoli, (b, (c, carry))));
        let (b, c) = s.halves(apply(CNOT, (b, c)));
        let (a, b) = s.halves(apply(CNOT, (a, b)));
        ((a, b), (c, carry))
    })
}

/// One round of the repetition code on three Qubits, in which 000 stands for 0 and
/// 111 for 1. Helper Qubits come as 0: two take the parity of two neighbours, which
/// is the syndrome, the third is 1 if both parities are. All three are measured; then
/// the one Qubit that differs from the other two is flipped, and the Bits go.
fn round() -> Named {
    boxed_three(|s, a, b, c| {
        let left = s.bind(qubit(), apply(INIT, unit_value()));
        let (a, left) = s.halves(apply(CNOT, (a, left)));
        let (b, left) = s.halves(apply(CNOT, (b, left)));
        let right = s.bind(qubit(), apply(INIT, unit_value()));
        let (b, right) = s.halves(apply(CNOT, (b, right)));
        let (c, right) = s.halves(apply(CNOT, (c, right)));
        let both = s.bind(qubit(), apply(INIT, unit_value()));
        let (left, right, both) = three(s, apply(CCX, (left, (right, both))));
        let left = s.bind(bit(), apply(MEAS, left));
        let right = s.bind(bit(), apply(MEAS, right));
        let both = s.bind(bit(), apply(MEAS, both));
        let (left, a) = s.halves(apply(BX, (left, a)));
        let (both, a) = s.halves(apply(BX, (both, a)));
        let (both, b) = s.halves(apply(BX, (both, b)));
        let (both, c) = s.halves(apply(BX, (both, c)));
        let (right, c) = s.halves(apply(BX, (right, c)));
        for gone in [left, right, both] {
            s.bind(unit(), apply(DISCARD, gone));
        }
        (a, (b, c))
    })
}

/// Two rounds of the repetition code: one box, applied twice.
fn repetition() -> Named {
    sequence(|s| {
        let round = define(s, qubits(3), round());
        let once = apply(round, (label(0), (label(1), label(2))));
        apply(round, once)
    })
}
