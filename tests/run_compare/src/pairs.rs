//! Pairs of circuits, copied at every depth: lets take each leaf out of a copy
//! of its own, and it is applied, so that the gates are those of the leaves in
//! order. The lines of `wirelist` are known from how the program was made.

use crate::compare::Comparison;
use comparing::files::{entries, ComparePrograms};
use comparing::Known;
use evaluator::text::LIMIT;
use program_files::{Program, Random, Term, Type, Wire, GATES};
use programs::nested::{taken_out, Nesting, Tree, Way};
use programs::terms::{
    abstraction, application, apply, boxed, force, gate, label, let_in, lift, pair, variable,
};
use programs::types::{self, circuit, qubit, reusable};
use std::rc::Rc;

/// So many programs at each depth.
const DEEPEST: usize = 8;
const PROGRAMS: usize = 80;

/// So many leaves fit, each with a copy of the pair.
const MOST_LEAVES: usize = 20;

/// The gates that take one Qubit and give one.
const ON_A_QUBIT: usize = 5;

const NESTINGS: [Nesting; 4] = [Nesting::Left, Nesting::Right, Nesting::Either, Nesting::Any];

pub fn compare(comparison: &mut Comparison) {
    comparison.group("pairs of circuits copied at every depth");
    let mut random = Random::new(17);
    for depth in 1..=DEEPEST {
        for round in 0..PROGRAMS {
            let nesting = NESTINGS[round % NESTINGS.len()];
            let made = made(&mut random, nesting, depth);
            let entries = entries(&mut random, &made.program).expect("a file");
            comparison.program(&entries.bytes(), &Known::Type(qubit()));
            comparison.at_limit(&entries.bytes(), LIMIT, &made.lines());
        }
    }
}

/// A program with one Qubit, its gates in order, and its steps.
struct Made {
    program: Program,
    gates: Vec<usize>,
    steps: usize,
}

impl Made {
    fn lines(&self) -> String {
        let mut lines = "in 0 Qubit\n".to_string();
        for (wire, &number) in self.gates.iter().enumerate() {
            lines += &format!("gate {} {wire} : {}\n", GATES[number].name, wire + 1);
        }
        let (last, steps) = (self.gates.len(), self.steps);
        lines + &format!("out {last}\nsteps {steps}\n")
    }
}

/// A circuit on one Qubit, in a lift or not.
struct Leaf {
    term: Rc<Term>,
    in_lift: bool,
    gates: Vec<usize>,
    /// The steps to its value.
    steps: usize,
}

impl Leaf {
    /// A gate, a box of two gates, or one of them in a lift.
    fn any(random: &mut Random) -> Leaf {
        let mut number = || random.below(ON_A_QUBIT);
        let gates = [number(), number()];
        let both = apply(gate(gates[1]), apply(gate(gates[0]), variable(0)));
        let both = boxed(qubit(), lift(abstraction(qubit(), both)));
        let in_lift = random.one_in(3);
        let (term, gates, steps) = match random.below(2) {
            0 => (gate(gates[0]), vec![gates[0]], 0),
            // The box is opened and closed, its function is applied, and two
            // gates are.
            _ => (both, gates.to_vec(), 5),
        };
        Leaf {
            term: if in_lift { lift(term) } else { term },
            in_lift,
            gates,
            steps,
        }
    }

    fn of(&self) -> Rc<Type> {
        let of = circuit(qubit(), qubit());
        if self.in_lift {
            reusable(of)
        } else {
            of
        }
    }

    /// The steps to its value in the pair, and those to a circuit each time
    /// that it is taken out.
    fn steps(&self) -> (usize, usize) {
        match self.in_lift {
            true => (0, 1 + self.steps),
            false => (self.steps, 0),
        }
    }

    /// The circuit, taken out of the variable with this argument.
    fn taken_out(&self, argument: usize, way: &Way) -> Rc<Term> {
        taken_out(argument, way, |leaf| match self.in_lift {
            true => force(variable(leaf)),
            false => variable(leaf),
        })
    }

    /// The circuit, taken out in one of three ways and applied to the wire, and
    /// how many steps that takes.
    fn applied(
        &self,
        random: &mut Random,
        argument: usize,
        way: &Way,
        wire: Rc<Term>,
    ) -> (Rc<Term>, usize) {
        let steps = way.len() + self.steps().1 + 1;
        match random.below(3) {
            0 => (apply(self.taken_out(argument, way), wire), steps),
            1 => {
                let lifted = force(lift(self.taken_out(argument, way)));
                (apply(lifted, wire), steps + 1)
            }
            // Inside a box, whose circuit is applied.
            _ => {
                let body = apply(self.taken_out(argument + 1, way), variable(0));
                let part = lift(abstraction(qubit(), body));
                (apply(boxed(qubit(), part), wire), steps + 4)
            }
        }
    }
}

fn made(random: &mut Random, nesting: Nesting, depth: usize) -> Made {
    let (tree, ways) = loop {
        let tree = Tree::any(random, nesting, depth);
        let ways = tree.leaves();
        if ways.len() <= MOST_LEAVES {
            break (tree, ways);
        }
    };
    let leaves: Vec<Leaf> = ways.iter().map(|_| Leaf::any(random)).collect();
    let of = tree.filled(&mut leaves.iter().map(Leaf::of), types::pair);
    let value = tree.filled(&mut leaves.iter().map(|leaf| leaf.term.clone()), pair);
    let in_let = random.one_in(2);
    // The pair is applied or taken apart in one step.
    let mut steps = 1 + leaves.iter().map(|leaf| leaf.steps().0).sum::<usize>();
    let mut gates = Vec::new();
    let mut body = label(0);
    for (leaf, way) in leaves.iter().zip(&ways) {
        if random.one_in(8) {
            continue;
        }
        let (applied, more) = leaf.applied(random, usize::from(in_let), way, body);
        body = applied;
        steps += more;
        gates.extend(&leaf.gates);
    }
    let term = match in_let {
        true => let_in(pair(value, gate(0)), body),
        false => application(abstraction(of, body), value),
    };
    Made {
        program: Program::new(vec![Wire::Qubit], term),
        gates,
        steps,
    }
}
