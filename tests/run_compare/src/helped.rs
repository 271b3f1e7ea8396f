//! What the runs had of unit and of wires that come and go.

use crate::seen::add;
use evaluator::circuits::{wires, Boxed};
use evaluator::terms::{Form, Term};
use evaluator::Configuration;
use program_files::{kinds, Type, GATES};

/// What is counted, in the order of `SEEN`.
#[derive(Clone, Copy)]
enum What {
    NoInput,
    NoOutput,
    ResultWithUnits,
    ResultOfUnits,
    MostOutputs,
    EntryWithUnits,
    EntryOfUnits,
    ExitWithUnits,
    ExitOfUnits,
    ArgumentWithUnits,
    HelperAgain,
    InitAgain,
}

/// With the least number of each. A type or tuple of units has no wire.
const SEEN: [(&str, usize); 12] = [
    ("finished without an input", 3_000),
    ("finished without an output", 2_000),
    ("finished with units and wires", 2_000),
    ("finished with pairs of units", 500),
    ("finished with 256 outputs", 1),
    ("boxes opened at units and wires", 3_000),
    ("boxes opened at units", 3_000),
    ("boxes closed with units and wires", 3_000),
    ("boxes closed with units", 2_000),
    ("circuits applied to units and wires", 2_000),
    (
        "circuits with Init and Discard applied more than once",
        1_000,
    ),
    ("circuits of units with Init applied more than once", 1_000),
];

/// The least number of units dropped, used once and copied.
const LEAST_UNITS: usize = 10_000;

#[derive(Clone, Default)]
pub struct Helped {
    seen: [usize; SEEN.len()],
    /// Units by the uses of their variable: none, one, more.
    units: [usize; 3],
}

/// How many labels and units a tuple has; none if it is no tuple.
fn leaves(term: &Term) -> Option<(usize, usize)> {
    match &term.form {
        Form::Label(_) => Some((1, 0)),
        Form::UnitValue => Some((0, 1)),
        Form::Pair(first, second) => {
            let ((labels, units), (more, others)) = (leaves(first)?, leaves(second)?);
            Some((labels + more, units + others))
        }
        _ => None,
    }
}

impl Helped {
    fn see(&mut self, is_so: bool, what: What) {
        self.seen[what as usize] += usize::from(is_so);
    }

    /// A value that a variable gets, which is used so often.
    pub fn value(&mut self, value: &Term, uses: usize) {
        if let Form::UnitValue = value.form {
            self.units[uses.min(2)] += 1;
        }
    }

    pub fn entry(&mut self, at: &Type) {
        let wires = wires(at).len();
        let has_unit = at.preorder().contains(&kinds::UNIT);
        self.see(wires > 0 && has_unit, What::EntryWithUnits);
        self.see(wires == 0, What::EntryOfUnits);
    }

    pub fn exit(&mut self, result: &Term) {
        if let Some((labels, units)) = leaves(result) {
            self.see(labels > 0 && units > 0, What::ExitWithUnits);
            self.see(labels == 0, What::ExitOfUnits);
        }
    }

    pub fn argument(&mut self, argument: &Term) {
        if let Some((labels, units)) = leaves(argument) {
            self.see(labels > 0 && units > 0, What::ArgumentWithUnits);
        }
    }

    /// A circuit is applied for the second time.
    pub fn again(&mut self, circuit: &Boxed) {
        let has = |name: &str| {
            let mut gates = circuit.gates.iter();
            gates.any(|placed| GATES[placed.gate].name == name)
        };
        self.see(has("Init") && has("Discard"), What::HelperAgain);
        self.see(has("Init") && circuit.inputs.is_empty(), What::InitAgain);
    }

    pub fn finish(&mut self, finished: &Configuration) {
        let frame = finished.innermost();
        let Some((labels, units)) = leaves(&frame.term) else {
            return;
        };
        self.see(frame.circuit.inputs.is_empty(), What::NoInput);
        self.see(labels == 0, What::NoOutput);
        self.see(labels > 0 && units > 0, What::ResultWithUnits);
        self.see(labels == 0 && units > 1, What::ResultOfUnits);
        self.see(labels == 256, What::MostOutputs);
    }

    pub fn add(&mut self, more: &Helped) {
        add(&mut self.seen, &more.seen);
        add(&mut self.units, &more.units);
    }

    pub fn report(&self) {
        for ((name, _), seen) in SEEN.iter().zip(self.seen) {
            println!("{name}: {seen}");
        }
        let [none, one, more] = self.units;
        println!("units: {none} dropped, {one} used once, {more} copied");
    }

    /// Fails if too little has been seen.
    pub fn assert(&self) {
        for ((name, least), seen) in SEEN.iter().zip(self.seen) {
            assert!(seen >= *least, "too few: {name}");
        }
        let enough = self.units.iter().all(|&units| units >= LEAST_UNITS);
        assert!(enough, "too few units");
    }
}
