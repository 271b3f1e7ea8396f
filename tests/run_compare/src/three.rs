//! What the runs had of CCX.

use crate::seen::add;
use evaluator::circuits::Boxed;
use evaluator::configurations::MOST_GATES;
use evaluator::listing::SLOTS;
use evaluator::terms::Term;
use evaluator::Configuration;
use listings::sizes::{LONGEST, MOST_WIRES};

/// The number of the gate.
const CCX: usize = 11;

/// What is counted, in the order of `SEEN`.
#[derive(Clone, Copy)]
enum What {
    InProgram,
    InBox,
    InInnerBox,
    Boxed,
    Again,
    AgainInBox,
    Crossed,
    MostGates,
    MostWires,
    Longest,
}

/// With the least number of each.
const SEEN: [(&str, usize); 10] = [
    ("CCX applied in no box", 10_000),
    ("CCX applied in a box", 5_000),
    ("CCX applied in a box inside a box", 2_500),
    ("circuits with CCX applied", 8_000),
    ("circuits with CCX applied more than once", 2_000),
    ("circuits with CCX applied more than once, in a box", 2_000),
    ("circuits with CCX applied to crossed wires", 5_000),
    ("finished with the most gates, all CCX", 1),
    ("finished with the most wires", 1),
    ("finished with the longest listing", 1),
];

/// The least number of CCX applied to wires in each order.
const LEAST_IN_ORDER: usize = 2_000;

/// How many orders three wires have.
const ORDERS: usize = 6;

#[derive(Clone, Default)]
pub struct Three {
    seen: [usize; SEEN.len()],
    /// By the order of the wires that CCX takes.
    orders: [usize; ORDERS],
}

/// The number of an order of three wires: twice the place of the first among all, and
/// one more if the second is greater than the third.
fn order(wires: &[usize]) -> usize {
    let [first, second, third] = *wires else {
        panic!("{} wires", wires.len());
    };
    let lower = usize::from(second < first) + usize::from(third < first);
    2 * lower + usize::from(second > third)
}

impl Three {
    fn see(&mut self, is_so: bool, what: What) {
        self.seen[what as usize] += usize::from(is_so);
    }

    /// A gate is applied inside so many boxes.
    pub fn gate(&mut self, number: usize, argument: &Term, boxes: usize) {
        if number == CCX {
            let what = [What::InProgram, What::InBox, What::InInnerBox][boxes.min(2)];
            self.see(true, what);
            self.orders[order(&argument.labels())] += 1;
        }
    }

    /// A circuit is applied inside so many boxes, for this time.
    pub fn circuit(&mut self, circuit: &Boxed, argument: &Term, boxes: usize, times: usize) {
        if circuit.gates.iter().any(|placed| placed.gate == CCX) {
            self.see(true, What::Boxed);
            self.see(times == 2, What::Again);
            self.see(times > 1 && boxes > 0, What::AgainInBox);
            self.see(!argument.labels().is_sorted(), What::Crossed);
        }
    }

    pub fn finish(&mut self, finished: &Configuration) {
        let circuit = &finished.innermost().circuit;
        let only = circuit.gates.iter().all(|placed| placed.gate == CCX);
        self.see(only && circuit.gates.len() == MOST_GATES, What::MostGates);
        self.see(circuit.next == MOST_WIRES, What::MostWires);
    }

    /// A finished run has written a listing of this length.
    pub fn listing(&mut self, length: usize) {
        self.see(length == LONGEST, What::Longest);
    }

    pub fn add(&mut self, more: &Three) {
        add(&mut self.seen, &more.seen);
        add(&mut self.orders, &more.orders);
    }

    pub fn report(&self) {
        for ((name, _), seen) in SEEN.iter().zip(self.seen) {
            println!("{name}: {seen}");
        }
        println!("CCX by the order of its {SLOTS} wires: {:?}", self.orders);
    }

    /// Fails if too little has been seen.
    pub fn assert(&self) {
        for ((name, least), seen) in SEEN.iter().zip(self.seen) {
            assert!(seen >= *least, "too few: {name}");
        }
        let enough = self.orders.iter().all(|&seen| seen >= LEAST_IN_ORDER);
        assert!(enough, "too few CCX in some order");
    }
}
