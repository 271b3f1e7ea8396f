//! What a text computes against what a listing computes: both are simulated on
//! every choice of the inputs, the text by its registers as the language says,
//! the listing by its wires. A listing alone may have wires that come and go.

use crate::grammar::{self, Action, Element, Program};
use evaluator::listing::NO_WIRE;
use listings::Listing;
use program_files::Wire;
use std::collections::BTreeMap;
use std::f64::consts::FRAC_1_SQRT_2;
use std::mem;

/// A complex number.
pub type Complex = [f64; 2];

const ZERO: Complex = [0.0, 0.0];
const ONE: Complex = [1.0, 0.0];

/// Amplitudes that differ by less are the same.
const SMALL: f64 = 1e-9;

fn product([a, b]: Complex, [c, d]: Complex) -> Complex {
    [a * c - b * d, a * d + b * c]
}

/// The rows of a gate on one qubit, by its name in the library.
fn matrix(name: &str) -> [[Complex; 2]; 2] {
    let r = FRAC_1_SQRT_2;
    let phase = |phase: Complex| [[ONE, ZERO], [ZERO, phase]];
    match name {
        "h" => [[[r, 0.0], [r, 0.0]], [[r, 0.0], [-r, 0.0]]],
        "x" => [[ZERO, ONE], [ONE, ZERO]],
        "z" => phase([-1.0, 0.0]),
        "s" => phase([0.0, 1.0]),
        "t" => phase([r, r]),
        _ => panic!("no gate {name} on one qubit"),
    }
}

/// What was measured so far, in order, and what each name has.
type Term<N> = (Vec<bool>, BTreeMap<N, bool>);

/// The amplitudes by what was measured and what the outputs have.
pub type Seen = BTreeMap<(Vec<bool>, Vec<bool>), Complex>;

/// The amplitude of each term.
struct State<N>(BTreeMap<Term<N>, Complex>);

impl<N: Ord + Clone> State<N> {
    fn new(values: impl IntoIterator<Item = (N, bool)>) -> State<N> {
        let term = (Vec::new(), values.into_iter().collect());
        State(BTreeMap::from([(term, ONE)]))
    }

    /// Each term becomes others, each with a factor.
    fn change(&mut self, others: impl Fn(Term<N>) -> Vec<(Term<N>, Complex)>) {
        for (term, amplitude) in mem::take(&mut self.0) {
            for (other, factor) in others(term) {
                let [real, imaginary] = product(amplitude, factor);
                let sum = self.0.entry(other).or_insert(ZERO);
                *sum = [sum[0] + real, sum[1] + imaginary];
            }
        }
    }

    /// A value gets another name.
    fn rename(&mut self, from: &N, to: &N) {
        self.change(|(measured, mut values)| {
            let value = values.remove(from).expect("a value");
            values.insert(to.clone(), value);
            vec![((measured, values), ONE)]
        });
    }

    /// A gate on one qubit, where the bit has this value if there is one.
    fn gate(&mut self, name: &str, on: &N, under: Option<(&N, bool)>) {
        let rows = matrix(name);
        self.change(|(measured, values)| {
            if under.is_some_and(|(bit, value)| values[bit] != value) {
                return vec![((measured, values), ONE)];
            }
            let column = usize::from(values[on]);
            let with = |value: bool| {
                let mut values = values.clone();
                values.insert(on.clone(), value);
                ((measured.clone(), values), rows[usize::from(value)][column])
            };
            vec![with(false), with(true)]
        });
    }

    /// An X on a qubit where all of the others are 1.
    fn controlled(&mut self, controls: &[&N], target: &N) {
        self.change(|(measured, mut values)| {
            let flips = controls.iter().all(|&control| values[control]);
            let value = values[target] != flips;
            values.insert(target.clone(), value);
            vec![((measured, values), ONE)]
        });
    }

    fn measure(&mut self, from: &N, to: &N) {
        self.change(|(mut measured, mut values)| {
            measured.push(values[from]);
            values.insert(to.clone(), values[from]);
            vec![((measured, values), ONE)]
        });
    }

    /// A qubit that is 0 comes.
    fn come(&mut self, name: &N) {
        self.change(|(measured, mut values)| {
            values.insert(name.clone(), false);
            vec![((measured, values), ONE)]
        });
    }

    /// A bit goes.
    fn go(&mut self, name: &N) {
        self.change(|(measured, mut values)| {
            values.remove(name);
            vec![((measured, values), ONE)]
        });
    }

    /// The amplitudes by what was measured and what these names have; none if
    /// two terms look the same so.
    fn seen(&self, names: &[N]) -> Option<Seen> {
        let mut seen = BTreeMap::new();
        for ((measured, values), amplitude) in &self.0 {
            if amplitude.iter().any(|part| part.abs() > SMALL) {
                let named = names.iter().map(|name| values[name]).collect();
                let before = seen.insert((measured.clone(), named), *amplitude);
                before.is_none().then_some(())?;
            }
        }
        Some(seen)
    }
}

/// Simulates both on every choice of the inputs, of which there are few.
pub fn compare(text: &[u8], listing: &Listing) -> Result<(), String> {
    let program = grammar::read(text)?;
    let shown = String::from_utf8_lossy(text);
    let last = shown.lines().last().unwrap_or_default();
    let names: Vec<String> = last.split(' ').skip(2).map(String::from).collect();
    if !names.iter().all(|name| is_known(&program, name)) {
        return Err(format!("outputs {names:?} that are no registers"));
    }
    for choice in 0..1 << listing.inputs.len() {
        let inputs = (0..listing.inputs.len()).map(|at| choice >> at & 1 == 1);
        let inputs: Vec<bool> = inputs.collect();
        let by_text = of_text(&program, listing, &inputs).seen(&names);
        let by_listing = outcomes(listing, &inputs);
        if !are_same(&by_text, &by_listing) {
            return Err(format!(
                "with inputs {inputs:?} the text gives {by_text:?}, the listing {by_listing:?}"
            ));
        }
    }
    Ok(())
}

/// What a listing computes from these inputs.
pub fn outcomes(listing: &Listing, inputs: &[bool]) -> Option<Seen> {
    of_listing(listing, inputs).seen(&listing.outputs)
}

/// Whether two amplitudes are the same.
pub fn are_near(one: Complex, other: Complex) -> bool {
    (one[0] - other[0]).abs() < SMALL && (one[1] - other[1]).abs() < SMALL
}

/// Whether there are amplitudes, and those of each term are the same.
fn are_same(one: &Option<Seen>, other: &Option<Seen>) -> bool {
    let (Some(one), Some(other)) = (one, other) else {
        return false;
    };
    one.len() == other.len()
        && one.iter().all(|(term, &amplitude)| {
            let other = other.get(term).unwrap_or(&ZERO);
            are_near(amplitude, *other)
        })
}

fn is_known(program: &Program, name: &str) -> bool {
    program.registers.iter().any(|of| of.name == name)
}

/// The registers at the end. A register of the inputs starts with its input's
/// value, any other with 0.
fn of_text(program: &Program, listing: &Listing, inputs: &[bool]) -> State<String> {
    let mut start: BTreeMap<String, bool> = BTreeMap::new();
    for register in &program.registers {
        start.insert(register.name.clone(), false);
    }
    for (line, input) in listing.inputs.iter().enumerate() {
        let letter = match input.as_input() {
            Some(Wire::Bit) => 'c',
            _ => 'q',
        };
        start.insert(format!("{letter}{line}"), inputs[line]);
    }
    let mut state = State::new(start);
    for operation in &program.operations {
        let under = operation.condition.as_ref();
        let under = under.map(|of| (&of.register, of.value == 1));
        match &operation.action {
            Action::Gate(gate, qubits) => {
                let qubits: Vec<&String> = qubits.iter().map(name).collect();
                match (gate.as_str(), &qubits[..]) {
                    ("cx" | "ccx", [controls @ .., target]) => state.controlled(controls, target),
                    (gate, qubits) => state.gate(gate, qubits[0], under),
                }
            }
            Action::Measure(from, to) => state.measure(name(from), name(to)),
        }
    }
    state
}

/// An element of a register that has one.
fn name(element: &Element) -> &String {
    &element.register
}

/// The wires that are left at the end.
fn of_listing(listing: &Listing, inputs: &[bool]) -> State<u16> {
    let mut state = State::new((0..).zip(inputs.iter().copied()));
    let mut next = inputs.len() as u16;
    for gate in &listing.gates {
        let [first, second, third] = gate.slots;
        match gate.kind {
            0..=4 => state.gate(
                ["h", "x", "z", "s", "t"][usize::from(gate.kind)],
                &first,
                None,
            ),
            5 => state.controlled(&[&first], &second),
            6 => state.measure(&first, &first),
            7 => state.gate("x", &second, Some((&first, true))),
            8 => state.gate("z", &second, Some((&first, true))),
            9 => {}
            10 => state.go(&first),
            11 => state.controlled(&[&first, &second], &third),
            kind => panic!("no gate {kind}"),
        }
        let made = gate.as_gate().map_or(0, |gate| gate.makes.len());
        for &wire in &gate.slots[..made] {
            // A wire that is made from none, by Init, comes.
            match wire {
                NO_WIRE => state.come(&next),
                wire => state.rename(&wire, &next),
            }
            next += 1;
        }
    }
    state
}
