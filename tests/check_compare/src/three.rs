//! What the programs had of CCX.

use program_files::{Term, Type, Wire, GATES};
use programs::survey::Survey;
use programs::types::{pair, qubit, qubits};

/// The number of the gate.
const CCX: u16 = 11;

/// What is counted, in the order of `SEEN`.
#[derive(Clone, Copy)]
enum What {
    Gate,
    Applied,
    InBox,
    InInnerBox,
    OtherCircuit,
    ToTheLeft,
    Two,
    BitFirst,
    BitSecond,
    BitThird,
    WithUnit,
    Otherwise,
}

/// With the least number of each.
const SEEN: [(&str, usize); 12] = [
    ("accepted: CCX", 5_000),
    ("accepted: CCX applied", 1_000),
    ("accepted: CCX applied in a box", 150),
    ("accepted: CCX applied in a box inside a box", 50),
    ("accepted: another circuit of its type applied", 100),
    ("refused with 16: three Qubits nested to the left", 40),
    ("refused with 16: two Qubits", 40),
    ("refused with 16: a Bit first", 40),
    ("refused with 16: a Bit second", 40),
    ("refused with 16: a Bit third", 40),
    ("refused with 16: unit beside Qubits", 40),
    ("refused with 16: another argument", 500),
];

#[derive(Default)]
pub struct Three {
    seen: [usize; SEEN.len()],
}

fn is_ccx(term: &Term) -> bool {
    matches!(term, Term::Gate(CCX))
}

impl Three {
    fn see(&mut self, is_so: bool, what: What) {
        self.seen[what as usize] += usize::from(is_so);
    }

    /// Counts what one accepted program has.
    pub fn accepted(&mut self, survey: &Survey) {
        let own = GATES[usize::from(CCX)].circuit_type();
        for (at, node) in survey.nodes.iter().enumerate() {
            self.see(is_ccx(&node.term), What::Gate);
            if let Term::Apply(circuit, _) = &*node.term {
                let applied = is_ccx(circuit);
                self.see(applied, What::Applied);
                self.see(applied && node.boxes == 1, What::InBox);
                self.see(applied && node.boxes > 1, What::InInnerBox);
                let of = survey.nodes[at + 1].of.as_ref();
                self.see(!applied && of == Some(&own), What::OtherCircuit);
            }
        }
    }

    /// Counts what CCX is applied to at the node where a program is refused with 16.
    pub fn refused(&mut self, survey: &Survey, node: usize) {
        let Term::Apply(circuit, _) = &*survey.nodes[node].term else {
            return;
        };
        let argument = &survey.nodes[survey.nodes[node + 1].end];
        if let (true, Some(of)) = (is_ccx(circuit), &argument.of) {
            self.see(true, what(of));
        }
    }

    pub fn report(&self) {
        for ((name, _), seen) in SEEN.iter().zip(self.seen) {
            println!("CCX, {name}: {seen}");
        }
    }

    /// Fails if too little has been seen.
    pub fn assert(&self) {
        for ((name, least), seen) in SEEN.iter().zip(self.seen) {
            assert!(seen >= *least, "too few of CCX: {name}");
        }
    }
}

/// An argument that CCX does not take.
fn what(of: &Type) -> What {
    let bit = || Wire::Bit.as_type();
    let three = [
        (What::ToTheLeft, pair(qubits(2), qubit())),
        (What::Two, qubits(2)),
        (What::BitFirst, pair(bit(), qubits(2))),
        (What::BitSecond, pair(qubit(), pair(bit(), qubit()))),
        (What::BitThird, pair(qubit(), pair(qubit(), bit()))),
    ];
    let found = three.iter().find(|(_, other)| **other == *of);
    match (found, has_unit(of)) {
        (Some((what, _)), _) => *what,
        (None, true) => What::WithUnit,
        _ => What::Otherwise,
    }
}

/// Whether a wire type has unit and Qubits, and nothing else.
fn has_unit(of: &Type) -> bool {
    let leaves = leaves(of);
    let all = |so: fn(&Type) -> bool| leaves.iter().all(|leaf| so(leaf));
    all(|leaf| matches!(leaf, Type::Unit | Type::Qubit))
        && !all(|leaf| *leaf == Type::Unit)
        && !all(|leaf| *leaf == Type::Qubit)
}

fn leaves(of: &Type) -> Vec<&Type> {
    match of {
        Type::Pair(first, second) => [leaves(first), leaves(second)].concat(),
        leaf => vec![leaf],
    }
}
