//! What has been seen in the listings that were exported and in the texts.

use crate::three::Three;
use listings::sizes::{MOST_GATES, MOST_INPUTS};
use listings::{Listing, Sizes};
use program_files::{Refusal, Wire, GATES};
use qasm::answer::{first_helper, Answer};
use qasm::cases::LONGEST;

/// So many lines of each gate, and so many inputs of each type.
const LEAST_LINES: usize = 10_000;

/// What is seen of listings with Init or Discard, and the least number of each.
const HELPED: [(&str, usize); 6] = [
    ("refused with 28 at Init", 2_000),
    ("refused with 28 at Discard", 1_000),
    ("refused with 28, and such an entry behind", 1_000),
    ("refused with 28, without inputs", 500),
    ("refused with 25, and with Init or Discard", 500),
    ("refused with 26, and with Init or Discard", 1_000),
];

#[derive(Default)]
pub struct Seen {
    /// By the gate's number.
    gates: [usize; GATES.len()],
    /// Inputs that are Bits, and those that are Qubits.
    inputs: [usize; 2],
    /// Outputs that do not stand in the order of their wires.
    crossed: usize,
    most_inputs: usize,
    most_gates: usize,
    without_inputs: usize,
    longest_exported: usize,
    longest_text: usize,
    /// In the order of `HELPED`.
    helped: [usize; HELPED.len()],
    three: Three,
}

impl Seen {
    /// Counts what there is of Init and Discard in a listing that is refused.
    pub fn refused(&mut self, bytes: &[u8], answer: &Answer) {
        let Err(Refusal { number, place }) = *answer else {
            return;
        };
        if !(25..=28).contains(&number) {
            return;
        }
        let sizes = Sizes::of_bytes(bytes).expect("sizes");
        let listing = Listing::of_bytes(&sizes, bytes);
        let is_helper = |kind: u8| {
            let gate = GATES.get(usize::from(kind));
            gate.is_some_and(|gate| gate.is_helper())
        };
        let helpers = listing.gates.iter();
        let helpers = helpers.filter(|entry| is_helper(entry.kind)).count();
        let at = |name: &str| {
            let gate = place.checked_sub(sizes.inputs);
            let gate = gate.and_then(|gate| listing.gates.get(gate)?.as_gate());
            gate.is_some_and(|gate| gate.name == name)
        };
        let seen = [
            number == 28 && at("Init"),
            number == 28 && at("Discard"),
            number == 28 && helpers > 1,
            number == 28 && sizes.inputs == 0,
            number == 25 && helpers > 0,
            number == 26 && first_helper(&listing).is_some(),
        ];
        for (count, seen) in self.helped.iter_mut().zip(seen) {
            *count += usize::from(seen);
        }
    }

    pub fn exported(&mut self, listing: &Listing, text: &[u8]) {
        for gate in &listing.gates {
            self.gates[usize::from(gate.kind)] += 1;
        }
        for input in &listing.inputs {
            self.inputs[usize::from(input.as_input() == Some(Wire::Qubit))] += 1;
        }
        self.crossed += usize::from(listing.outputs.windows(2).any(|pair| pair[0] > pair[1]));
        self.most_inputs += usize::from(listing.inputs.len() == MOST_INPUTS);
        self.most_gates += usize::from(listing.gates.len() == MOST_GATES);
        self.without_inputs += usize::from(listing.inputs.is_empty());
        self.longest_exported = self.longest_exported.max(text.len());
    }

    /// Counts a text, which is imported or refused.
    pub fn text(&mut self, text: &[u8], imported: bool) {
        self.longest_text = self.longest_text.max(text.len());
        self.three.count(text, imported);
    }

    pub fn report(&self) {
        let gates = GATES.iter().zip(self.gates);
        for (gate, count) in gates.filter(|(gate, _)| !gate.is_helper()) {
            println!("{count:>9} lines of {}", gate.name);
        }
        let [bits, qubits] = self.inputs;
        println!("inputs: {bits} Bits, {qubits} Qubits");
        println!("{:>9} with crossed outputs", self.crossed);
        println!("{:>9} of 64 inputs", self.most_inputs);
        println!("{:>9} of 2,048 gates", self.most_gates);
        for ((name, _), count) in HELPED.iter().zip(self.helped) {
            println!("{count:>9} {name}");
        }
        self.three.report();
        println!("longest exported: {} bytes", self.longest_exported);
        println!("longest text: {} bytes", self.longest_text);
    }

    /// Fails if too little has been seen.
    pub fn assert(&self) {
        for (gate, count) in GATES.iter().zip(self.gates) {
            let enough = gate.is_helper() || count >= LEAST_LINES;
            assert!(enough, "too few lines of {}", gate.name);
        }
        for ((name, least), count) in HELPED.iter().zip(self.helped) {
            assert!(count >= *least, "too few {name}");
        }
        self.three.assert();
        let inputs = self.inputs.iter().all(|&count| count >= LEAST_LINES);
        assert!(inputs, "too few inputs");
        assert!(self.crossed >= LEAST_LINES, "too few crossed outputs");
        assert!(self.most_inputs >= 50, "too few of 64 inputs");
        assert!(self.most_gates >= 40, "too few of 2,048 gates");
        assert_eq!(self.without_inputs, 1, "no wire not exported");
        assert_eq!(self.longest_exported, LONGEST, "the longest text");
        assert!(self.longest_text > 65_536, "none past 16 bits");
    }
}
