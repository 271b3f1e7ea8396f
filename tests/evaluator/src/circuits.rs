//! Circuits, and the copying of one into another.

use super::terms::Term;
use program_files::{Type, Wire, GATES};
use std::collections::HashMap;
use std::rc::Rc;

/// A gate in a circuit, with the wires that it takes and makes.
#[derive(Clone, Debug)]
pub struct Placed {
    pub gate: usize,
    pub takes: Vec<usize>,
    pub makes: Vec<usize>,
}

/// A circuit under construction.
#[derive(Clone, Debug)]
pub struct Circuit {
    /// The input wires, with their types.
    pub inputs: Vec<(usize, Wire)>,
    pub gates: Vec<Placed>,
    /// The number of the next wire that is made.
    pub next: usize,
}

/// A circuit constant: its input wires, its gates and its result.
#[derive(Clone, Debug)]
pub struct Boxed {
    pub inputs: Vec<usize>,
    pub gates: Vec<Placed>,
    pub result: Rc<Term>,
}

impl Circuit {
    /// A circuit with these inputs and no gate.
    pub fn empty(inputs: &[Wire]) -> Circuit {
        Circuit {
            inputs: inputs.iter().copied().enumerate().collect(),
            gates: Vec::new(),
            next: inputs.len(),
        }
    }

    /// The circuit closed with this label tuple as its result.
    pub fn close(&self, result: &Rc<Term>) -> Boxed {
        Boxed {
            inputs: self.inputs.iter().map(|&(wire, _)| wire).collect(),
            gates: self.gates.clone(),
            result: result.clone(),
        }
    }

    /// Copies the constant's gates in order, its inputs matched to the
    /// argument left to right; the answer is the renamed result.
    pub fn append(&mut self, constant: &Boxed, argument: &Term) -> Rc<Term> {
        let matched = constant.inputs.iter().copied().zip(argument.labels());
        let mut renamed: HashMap<usize, usize> = matched.collect();
        for placed in &constant.gates {
            let takes = placed.takes.iter().map(|wire| renamed[wire]).collect();
            let mut makes = Vec::new();
            for &wire in &placed.makes {
                renamed.insert(wire, self.next);
                makes.push(self.next);
                self.next += 1;
            }
            let gate = placed.gate;
            self.gates.push(Placed { gate, takes, makes });
        }
        constant.result.relabelled(&|wire| renamed[&wire])
    }
}

impl Boxed {
    /// A gate as the circuit of that one gate.
    pub fn of_gate(gate: usize) -> Boxed {
        let Type::Circuit(_, to) = &*GATES[gate].circuit_type() else {
            unreachable!("a gate is a circuit");
        };
        let takes: Vec<usize> = (0..GATES[gate].takes.len()).collect();
        let first = takes.len();
        let makes: Vec<usize> = (first..first + GATES[gate].makes.len()).collect();
        Boxed {
            inputs: takes.clone(),
            result: Term::tuple(to, &mut makes.iter().copied()),
            gates: vec![Placed { gate, takes, makes }],
        }
    }
}

/// The wires of a wire type, left to right.
pub fn wires(of: &Type) -> Vec<Wire> {
    match of {
        Type::Bit => vec![Wire::Bit],
        Type::Qubit => vec![Wire::Qubit],
        Type::Unit => vec![],
        Type::Pair(first, second) => {
            let mut list = wires(first);
            list.extend(wires(second));
            list
        }
        other => panic!("{other:?} is no wire type"),
    }
}
