//! Programs that use one function or one circuit several times. Two gates are bound
//! around it, so that a spot inside can have other gates each time it is run.

use crate::put::ON_A_QUBIT;
use program_files::{Program, Random, Term, Type, Wire, GATES};
use programs::nested::Tree;
use programs::sequent::Sequent;
use programs::terms::{
    abstraction, application, apply, boxed, force, gate, label, lift, pair, unit_value, variable,
};
use programs::typed::{term_for, Goal, Plan, Rule, Typed};
use programs::types::{self, circuit, function, reusable, unit};
use std::rc::Rc;

/// What is bound to variable 0.
#[derive(Clone, Copy)]
enum Used {
    /// A reusable function, which gets its gates at each use.
    Function,
    /// A circuit, or a reusable one, which is built at each use.
    Circuit,
    Reusable,
}

/// A program whose wires go two to four times through what is used; none if there is no
/// such function.
pub fn program(random: &mut Random, helpers: bool) -> Option<Typed> {
    let (labels, wires, of) = some_wires(random);
    let inside = abstraction(of.clone(), body(random, &of, helpers)?);
    let used = random.pick(&[
        Used::Function,
        Used::Function,
        Used::Function,
        Used::Circuit,
        Used::Reusable,
    ]);
    let one = || GATES[0].circuit_type();
    let of_gates = |part: Rc<Term>| abstraction(one(), abstraction(one(), part));
    let built = |random: &mut Random| {
        let circuit = boxed(of.clone(), lift(inside.clone()));
        with_gates(random, of_gates(circuit))
    };
    let both = || circuit(of.clone(), of.clone());
    let (term, over) = match used {
        Used::Function => {
            let over = function(of.clone(), of.clone());
            let over = function(one(), function(one(), over));
            (lift(of_gates(inside.clone())), reusable(over))
        }
        Used::Circuit => (built(random), both()),
        Used::Reusable => (lift(built(random)), reusable(both())),
    };
    let all = (0..random.between(2, 4)).fold(wires, |wires, _| match used {
        Used::Function => application(with_gates(random, force(variable(0))), wires),
        Used::Circuit => apply(variable(0), wires),
        Used::Reusable => apply(force(variable(0)), wires),
    });
    Some(Typed {
        program: Program::new(labels, application(abstraction(over, all), term)),
        of,
    })
}

/// Labels, most of them Qubits, their tuple, which may have a unit, and its type.
fn some_wires(random: &mut Random) -> (Vec<Wire>, Rc<Term>, Rc<Type>) {
    let labels: Vec<Wire> = (0..random.between(1, 3))
        .map(|_| random.pick(&[Wire::Bit, Wire::Qubit, Wire::Qubit, Wire::Qubit]))
        .collect();
    let leaves = labels.iter().enumerate();
    let mut leaves: Vec<(Rc<Term>, Rc<Type>)> = leaves
        .map(|(number, wire)| (label(number), wire.as_type()))
        .collect();
    if random.one_in(3) {
        leaves.insert(random.between(0, leaves.len()), (unit_value(), unit()));
    }
    let tree = Tree::of_leaves(random, leaves.len());
    let (terms, types): (Vec<Rc<Term>>, Vec<Rc<Type>>) = leaves.into_iter().unzip();
    let wires = tree.filled(&mut terms.into_iter(), pair);
    let of = tree.filled(&mut types.into_iter(), types::pair);
    (labels, wires, of)
}

/// The body of a function from this type to itself, under the two gates.
fn body(random: &mut Random, of: &Rc<Type>, helpers: bool) -> Option<Rc<Term>> {
    let mut sequent = Sequent::new(Vec::new(), of, helpers);
    for bound in [&GATES[0].circuit_type(), &GATES[0].circuit_type(), of] {
        sequent = sequent.bind(bound);
    }
    let terms = random.between(4, 30);
    let mut plan = Plan::new(Vec::new(), Goal::Exactly(of.clone()), terms);
    plan.type_size = 4;
    plan.helpers = helpers;
    if random.one_in(2) {
        plan = plan.favouring(&[Rule::Use]);
    }
    let (body, _) = term_for(random, &plan, &sequent)?;
    Some(body)
}

/// What takes two gates, applied to any two.
fn with_gates(random: &mut Random, function: Rc<Term>) -> Rc<Term> {
    (0..2).fold(function, |function, _| {
        application(function, gate(random.below(ON_A_QUBIT)))
    })
}
