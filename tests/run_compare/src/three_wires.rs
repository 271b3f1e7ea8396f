//! CCX on three wires in any order, in boxes inside each other whose circuits are
//! applied several times. The lines of `wirelist` are known from how the program was
//! made. And CCX applied to arguments of all small wire types.

use crate::compare::Comparison;
use comparing::files::{entries, well_typed, ComparePrograms};
use comparing::helpers::{bound, box_of};
use comparing::three_wires::applied;
use comparing::Known;
use evaluator::configurations::MOST_GATES;
use evaluator::text::LIMIT;
use program_files::{Program, Random, Term, Type, Wire};
use programs::extremes;
use programs::nested::in_a_row;
use programs::terms::{apply, gate, label, let_in, pair, variable};
use programs::types::{circuit, qubits};
use std::rc::Rc;

/// The number of the gate.
const CCX: usize = 11;

/// An order of three wires: which of them is taken first, second and third.
type Order = [usize; 3];

const ORDERS: [Order; 6] = [
    [0, 1, 2],
    [0, 2, 1],
    [1, 0, 2],
    [1, 2, 0],
    [2, 0, 1],
    [2, 1, 0],
];

/// For each box, the innermost first, and for the program the orders in which the
/// circuit inside is applied, one time after the other. The innermost applies CCX.
type Levels = Vec<Vec<Order>>;

/// Boxes inside each other, applications of one circuit, and how many programs.
const DEEPEST: usize = 4;
const MOST_TIMES: usize = 3;
const PROGRAMS: usize = 400;

pub fn compare(comparison: &mut Comparison) {
    comparison.group("CCX in all orders");
    let mut random = Random::new(23);
    for outer in ORDERS {
        made(comparison, &mut random, &vec![vec![outer]]);
        for inner in ORDERS {
            made(comparison, &mut random, &vec![vec![inner], vec![outer]]);
            made(comparison, &mut random, &vec![vec![inner, outer]]);
        }
    }
    comparison.group("CCX in boxes inside boxes, applied several times");
    for depth in 1..=DEEPEST {
        for _ in 0..PROGRAMS {
            let level = |random: &mut Random| -> Vec<Order> {
                let times = random.between(1, MOST_TIMES);
                (0..times).map(|_| random.pick(&ORDERS)).collect()
            };
            let levels: Levels = (0..=depth).map(|_| level(&mut random)).collect();
            made(comparison, &mut random, &levels);
        }
    }
    comparison.group("CCX applied to arguments of all small wire types");
    for applied in applied() {
        let entries = entries(&mut random, &applied.program).expect("a file");
        comparison.program(&entries.bytes(), &applied.known(&entries));
    }
    comparison.group("with the most wires, and with the longest listing");
    for typed in [extremes::most_wires(), extremes::longest_listing()] {
        well_typed(comparison, &mut random, &typed).expect("a file");
    }
}

/// Compares the program of these levels with its lines.
fn made(comparison: &mut Comparison, random: &mut Random, levels: &Levels) {
    let Lines { gates, next, .. } = Lines::of(levels);
    let closed: usize = (0..levels.len() - 1).map(|at| count(&levels[..=at])).sum();
    assert!(closed + gates.len() <= MOST_GATES, "too many gates");
    let program = Program::new(vec![Wire::Qubit; 3], term(levels));
    let entries = entries(random, &program).expect("a file");
    comparison.program(&entries.bytes(), &Known::Type(qubits(3)));
    let mut lines = "in 0 Qubit\nin 1 Qubit\nin 2 Qubit\n".to_string();
    for (at, [first, second, third]) in gates.iter().enumerate() {
        let made = 3 * at + 3;
        lines += &format!(
            "gate CCX {first} {second} {third} : {made} {} {}\n",
            made + 1,
            made + 2
        );
    }
    let steps = steps(levels);
    lines += &format!(
        "out {} {} {}\nsteps {steps}\n",
        next - 3,
        next - 2,
        next - 1
    );
    comparison.at_limit(&entries.bytes(), LIMIT, &lines);
}

/// The gates that these levels give.
fn count(levels: &[Vec<Order>]) -> usize {
    levels.iter().map(Vec::len).product()
}

/// The wires that each gate takes, and the number of the next wire.
struct Lines<'a> {
    levels: &'a [Vec<Order>],
    gates: Vec<[usize; 3]>,
    next: usize,
}

impl Lines<'_> {
    fn of(levels: &Levels) -> Lines<'_> {
        let mut lines = Lines {
            levels,
            gates: Vec::new(),
            next: 3,
        };
        lines.apply(levels.len(), [0, 1, 2]);
        lines
    }

    /// Applies what so many levels give; the answer is the wires that are made.
    fn apply(&mut self, levels: usize, wires: [usize; 3]) -> [usize; 3] {
        let Some(level) = levels.checked_sub(1) else {
            self.gates.push(wires);
            self.next += 3;
            return [self.next - 3, self.next - 2, self.next - 1];
        };
        let orders = self.levels[level].iter();
        orders.clone().fold(wires, |wires, order| {
            self.apply(level, order.map(|at| wires[at]))
        })
    }
}

/// A circuit, which is the variable with this argument, applied in these orders, one
/// time after the other. Each time two lets take the wires apart.
fn row(orders: &[Order], circuit: usize, wires: Rc<Term>) -> Rc<Term> {
    let applied = |at: usize| {
        // Behind the lets the wires are variables 3, 1 and 0.
        let taken = orders[at].map(|wire| variable([3, 1, 0][wire]));
        apply(variable(circuit + 4 * (at + 1)), in_a_row(&taken, pair))
    };
    let last = orders.len() - 1;
    let rest = (0..last).rev().fold(applied(last), |rest, at| {
        let_in(applied(at), let_in(variable(0), rest))
    });
    let_in(wires, let_in(variable(0), rest))
}

/// The type of a circuit on three wires.
fn on_three() -> Rc<Type> {
    circuit(qubits(3), qubits(3))
}

fn term(levels: &Levels) -> Rc<Term> {
    let (program, boxes) = levels.split_last().expect("the program");
    let circuit = boxes.iter().fold(gate(CCX), |inside, orders| {
        let outside = box_of(qubits(3), row(orders, 1, variable(0)));
        bound(inside, on_three(), outside)
    });
    let labels = in_a_row(&[0, 1, 2].map(label), pair);
    bound(circuit, on_three(), row(program, 0, labels))
}

/// Each application takes three steps with its lets, each circuit is bound in one, and
/// a box is opened, its function applied and closed.
fn steps(levels: &Levels) -> usize {
    let applied: usize = levels.iter().map(|orders| 1 + 3 * orders.len()).sum();
    applied + 3 * (levels.len() - 1)
}
