//! Listings that are accepted, from a seed: each wire goes exactly once.

use crate::entries::{Entry, Listing};
use crate::sizes::{MOST_GATES, MOST_INPUTS, MOST_OUTPUTS};
use evaluator::listing::SLOTS;
use program_files::{Gate, Random, Wire, GATES};

/// The numbers of gates.
const MEASURE: u8 = 6;
const INIT: u8 = 9;
const DISCARD: u8 = 10;
const CCX: u8 = 11;

/// What a listing is to be like.
#[derive(Clone, Debug)]
pub struct Shape {
    pub inputs: usize,
    /// So many of the inputs are Bits.
    pub bits: usize,
    /// Fewer where no gate can be applied any more.
    pub gates: usize,
    /// The numbers from which each gate's is picked.
    pub numbers: Vec<u8>,
    /// No gate leaves fewer Qubits.
    pub kept: usize,
    /// Which wire of its type a slot takes.
    pub taken: Order,
    /// In which order the outputs stand.
    pub outputs: Order,
}

/// The order in which wires that are there are chosen.
#[derive(Clone, Copy, PartialEq, Eq, Debug)]
pub enum Order {
    Any,
    OldestFirst,
    NewestFirst,
    /// The oldest and the newest in turn.
    BothEnds,
}

pub const ORDERS: [Order; 4] = [
    Order::Any,
    Order::OldestFirst,
    Order::NewestFirst,
    Order::BothEnds,
];

/// The numbers of all gates.
pub fn all_gates() -> Vec<u8> {
    (0..GATES.len() as u8).collect()
}

/// The numbers of the gates that make as many wires as they take.
pub fn passing_gates() -> Vec<u8> {
    let passes = |&number: &u8| !GATES[usize::from(number)].is_helper();
    all_gates().into_iter().filter(passes).collect()
}

/// The numbers of the gates that make so many wires.
pub fn making(wires: usize) -> Vec<u8> {
    let makes = |&number: &u8| GATES[usize::from(number)].makes.len() == wires;
    all_gates().into_iter().filter(makes).collect()
}

impl Shape {
    /// Of any gates on Qubits, of which one is never measured.
    pub fn new(inputs: usize, gates: usize) -> Shape {
        Shape {
            inputs,
            bits: 0,
            gates,
            numbers: all_gates(),
            kept: 1,
            taken: Order::Any,
            outputs: Order::Any,
        }
    }

    /// Any shape with at most so many inputs and gates.
    pub fn any(random: &mut Random, inputs: usize, gates: usize) -> Shape {
        let inputs = random.between(0, inputs);
        let mut shape = Shape::new(inputs, random.between(0, gates));
        shape.bits = match random.below(3) {
            0 => 0,
            _ => random.between(0, inputs),
        };
        if random.one_in(3) {
            shape.numbers = (0..3).map(|_| random.pick(&all_gates())).collect();
        }
        shape.kept = random.below(3);
        shape.taken = random.pick(&ORDERS);
        shape.outputs = random.pick(&ORDERS);
        shape
    }

    /// With Qubits that come, are measured and go, and with at most so many inputs
    /// and gates.
    pub fn helpers(random: &mut Random, inputs: usize, gates: usize) -> Shape {
        let mut shape = Shape::any(random, inputs, gates);
        shape.numbers = vec![INIT, MEASURE, DISCARD];
        if random.one_in(2) {
            shape.numbers.push(random.pick(&all_gates()));
        }
        shape.kept = 0;
        shape
    }

    /// Mostly with CCX, on at least three Qubits, and with at most so many inputs and
    /// gates.
    pub fn three_wires(random: &mut Random, inputs: usize, gates: usize) -> Shape {
        let mut shape = Shape::any(random, inputs, gates);
        shape.inputs = shape.inputs.max(3);
        shape.gates = shape.gates.max(1);
        shape.bits = shape.bits.min(shape.inputs - 3);
        shape.numbers = vec![CCX, CCX, random.pick(&all_gates())];
        shape.kept = 3;
        shape
    }

    /// The same shape with gates that make as many wires as they take.
    pub fn without_helpers(mut self) -> Shape {
        let passing = passing_gates();
        self.numbers.retain(|number| passing.contains(number));
        if self.numbers.is_empty() {
            self.numbers = passing;
        }
        self
    }

    /// With the most inputs, gates and wires.
    pub fn most_wires(random: &mut Random) -> Shape {
        let mut shape = Shape::most(random);
        shape.numbers = making(SLOTS);
        shape
    }

    /// With the most inputs and gates.
    pub fn most(random: &mut Random) -> Shape {
        let mut shape = Shape::new(MOST_INPUTS, MOST_GATES);
        shape.bits = random.between(0, MOST_INPUTS / 2);
        shape.kept = 2;
        shape.taken = random.pick(&ORDERS);
        shape
    }
}

/// A listing of this shape.
pub fn valid(random: &mut Random, shape: &Shape) -> Listing {
    let mut there = There::default();
    let mut listing = Listing::default();
    for of in input_types(random, shape) {
        listing.inputs.push(Entry::input(of));
        there.make(of);
    }
    for _ in 0..shape.gates {
        let fits = |number: &&u8| there.fits(&GATES[usize::from(**number)], shape.kept);
        let numbers: Vec<u8> = shape.numbers.iter().filter(fits).copied().collect();
        if numbers.is_empty() {
            break;
        }
        let number = random.pick(&numbers);
        let gate = &GATES[usize::from(number)];
        let takes = gate.takes.iter();
        let wires: Vec<u16> = takes
            .map(|&of| there.take(random, of, shape.taken))
            .collect();
        listing.gates.push(Entry::gate(number, &wires));
        for &of in gate.makes {
            there.make(of);
        }
    }
    listing.outputs = there.in_order(random, shape.outputs);
    listing
}

/// The types of the inputs.
fn input_types(random: &mut Random, shape: &Shape) -> Vec<Wire> {
    let mut types = vec![Wire::Qubit; shape.inputs];
    types[..shape.bits].fill(Wire::Bit);
    shuffle(random, &mut types);
    types
}

fn shuffle<T>(random: &mut Random, of: &mut [T]) {
    for at in 1..of.len() {
        of.swap(at, random.between(0, at));
    }
}

/// The wires that are there, the oldest first.
#[derive(Default)]
struct There {
    wires: Vec<(u16, Wire)>,
    next: u16,
}

impl There {
    fn count(&self, of: Wire) -> usize {
        self.wires.iter().filter(|wire| wire.1 == of).count()
    }

    fn make(&mut self, of: Wire) {
        self.wires.push((self.next, of));
        self.next += 1;
    }

    /// Whether the gate's wires are there, enough Qubits are left, and no more wires
    /// than there can be outputs.
    fn fits(&self, gate: &Gate, kept: usize) -> bool {
        let count = |wires: &[Wire], of: Wire| wires.iter().filter(|&&wire| wire == of).count();
        let (taken, made) = (
            count(gate.takes, Wire::Qubit),
            count(gate.makes, Wire::Qubit),
        );
        let qubits = self.count(Wire::Qubit);
        let are_there = taken <= qubits && count(gate.takes, Wire::Bit) <= self.count(Wire::Bit);
        let left = self.wires.len() + gate.makes.len();
        are_there
            && left <= MOST_OUTPUTS + gate.takes.len()
            && (made >= taken || qubits - taken + made >= kept)
    }

    /// Takes a wire of this type.
    fn take(&mut self, random: &mut Random, of: Wire, order: Order) -> u16 {
        let places = (0..self.wires.len()).filter(|&at| self.wires[at].1 == of);
        let places: Vec<usize> = places.collect();
        let last = places.len() - 1;
        let place = match order {
            Order::Any => random.pick(&places),
            Order::OldestFirst => places[0],
            Order::NewestFirst => places[last],
            Order::BothEnds => places[last * random.below(2)],
        };
        self.wires.remove(place).0
    }

    /// All of them in this order.
    fn in_order(&self, random: &mut Random, order: Order) -> Vec<u16> {
        let mut wires: Vec<u16> = self.wires.iter().map(|wire| wire.0).collect();
        match order {
            Order::Any => shuffle(random, &mut wires),
            Order::OldestFirst => {}
            Order::NewestFirst => wires.reverse(),
            Order::BothEnds => {
                let count = wires.len();
                let at = |turn: usize| match turn % 2 {
                    0 => turn / 2,
                    _ => count - 1 - turn / 2,
                };
                wires = (0..count).map(|turn| wires[at(turn)]).collect();
            }
        }
        wires
    }
}

/// A listing that no run would write.
#[derive(Clone, Copy, PartialEq, Eq, Debug)]
pub enum Foreign {
    /// No wire at all.
    Nothing,
    /// No gate, and all inputs are outputs.
    Passing,
    /// No Qubit.
    Bits,
    /// All gates on the first wires or on the last, and most inputs untouched.
    FewTouched,
    /// Every wire measured in the end.
    Measured,
    /// No input, and so only Qubits that come.
    Helpers,
    /// No output.
    AllGone,
}

pub const FOREIGN: [Foreign; 7] = [
    Foreign::Nothing,
    Foreign::Passing,
    Foreign::Bits,
    Foreign::FewTouched,
    Foreign::Measured,
    Foreign::Helpers,
    Foreign::AllGone,
];

/// One that is accepted all the same.
pub fn foreign(random: &mut Random, of: Foreign) -> Listing {
    let inputs = random.between(1, MOST_INPUTS);
    let mut shape = Shape::any(random, MOST_INPUTS, 12);
    match of {
        Foreign::Nothing => shape = Shape::new(0, 0),
        Foreign::Passing => shape.gates = 0,
        Foreign::Bits => {
            shape.bits = shape.inputs;
            shape.numbers = vec![DISCARD];
        }
        Foreign::FewTouched => {
            shape = Shape::new(inputs, random.between(1, 40));
            shape.bits = random.below(inputs);
            shape.taken = random.pick(&[Order::OldestFirst, Order::NewestFirst, Order::BothEnds]);
            shape.outputs = random.pick(&ORDERS);
        }
        Foreign::Measured => {
            shape = Shape::new(inputs, 2 * inputs);
            shape.kept = 0;
        }
        Foreign::Helpers => {
            let gates = random.between(0, 40);
            shape = Shape::helpers(random, 0, gates);
        }
        Foreign::AllGone => shape = Shape::any(random, 6, 12),
    }
    let mut listing = valid(random, &shape);
    if matches!(of, Foreign::Measured | Foreign::AllGone) {
        measure_outputs(&mut listing);
    }
    if of == Foreign::AllGone {
        for output in listing.outputs.drain(..) {
            listing.gates.push(Entry::gate(DISCARD, &[output]));
        }
    }
    listing
}

/// Measures every output that is a Qubit; the outputs stand as before.
fn measure_outputs(listing: &mut Listing) {
    let mut types = wire_types(listing);
    for at in 0..listing.outputs.len() {
        let wire = listing.outputs[at];
        if types[usize::from(wire)] == Wire::Qubit {
            listing.gates.push(Entry::gate(MEASURE, &[wire]));
            listing.outputs[at] = types.len() as u16;
            types.push(Wire::Bit);
        }
    }
}

/// A listing of the greatest length: its last gates are Inits.
pub fn longest(random: &mut Random) -> Listing {
    let inits = MOST_OUTPUTS - MOST_INPUTS;
    let mut shape = Shape::most(random).without_helpers();
    shape.gates -= inits;
    let mut listing = valid(random, &shape);
    let next = wire_types(&listing).len();
    for wire in next..next + inits {
        listing.gates.push(Entry::gate(INIT, &[]));
        listing.outputs.push(wire as u16);
    }
    shuffle(random, &mut listing.outputs);
    listing
}

/// The types of all wires that inputs and gates make.
pub fn wire_types(listing: &Listing) -> Vec<Wire> {
    let inputs = listing.inputs.iter().filter_map(Entry::as_input);
    let gates = listing.gates.iter().filter_map(Entry::as_gate);
    inputs
        .chain(gates.flat_map(|gate| gate.makes.iter().copied()))
        .collect()
}
