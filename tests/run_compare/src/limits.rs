//! Programs that come to the sizes of a configuration: as many as fit, and a
//! few fewer and more.

use crate::compare::Comparison;
use comparing::files::ComparePrograms;
use comparing::Known;
use evaluator::configurations::{MOST_BOXES, MOST_GATES, MOST_NODES};
use evaluator::{terms, Configuration};
use program_files::entries::MOST_TERMS;
use program_files::{Program, Term, Type, Wire};
use programs::extremes;
use programs::nested::in_a_row;
use programs::terms::{
    abstraction, application, apply, boxed, force, gate, label, let_in, lift, pair, unit_value,
    variable,
};
use programs::types::{self, circuit, function, qubit, reusable, unit};
use std::collections::HashMap;
use std::rc::Rc;

pub fn compare(comparison: &mut Comparison) {
    nodes(comparison);
    boxes(comparison);
    gates(comparison);
}

/// A program with one Qubit label that comes to this size by a number and by
/// a padding.
type Build<'a> = &'a dyn Fn(usize, usize) -> Rc<Term>;

/// The sizes of a configuration, and their bounds.
const NODES: usize = 0;
const GATES: usize = 1;
const BOXES: usize = 2;
const BOUNDS: [usize; 3] = [MOST_NODES, MOST_GATES, MOST_BOXES];

/// The most of each size in the whole run, which ends where one is twice its
/// bound.
fn most(term: &Rc<Term>) -> [usize; 3] {
    let mut now = Configuration::start(&[Wire::Qubit], &terms::Term::of_file(term));
    let mut most = [0; 3];
    loop {
        let sizes = [now.nodes(), now.gates(), now.closed.len()];
        most = std::array::from_fn(|at| most[at].max(sizes[at]));
        let goes_on = (0..BOUNDS.len()).all(|at| sizes[at] <= 2 * BOUNDS[at]);
        if now.is_finished() || !goes_on {
            return most;
        }
        now = now.next();
    }
}

/// The most of one size, where the file and the other sizes are within their
/// bounds.
fn most_of(term: &Rc<Term>, size: usize) -> Option<usize> {
    if term.size() > MOST_TERMS {
        return None;
    }
    let most = most(term);
    let within = (0..BOUNDS.len()).all(|at| at == size || most[at] <= BOUNDS[at]);
    within.then_some(most[size])
}

/// The program for the largest number that has, with a padding, exactly so
/// much of a size; none if there is none in a file. `unpadded` is the most of
/// that size by the number.
fn exactly(
    build: Build,
    unpadded: &mut dyn FnMut(usize) -> Option<usize>,
    numbers: usize,
    size: usize,
    wanted: usize,
) -> Option<Rc<Term>> {
    let (mut least, mut exceeds) = (0, numbers + 1);
    while exceeds - least > 1 {
        let number = least + (exceeds - least) / 2;
        match unpadded(number).is_some_and(|most| most <= wanted) {
            true => least = number,
            false => exceeds = number,
        }
    }
    let tries = (least.saturating_sub(6).max(1)..=least).rev();
    tries
        .filter_map(|number| Some(build(number, wanted - unpadded(number)?)))
        .find(|term| most_of(term, size) == Some(wanted))
}

/// The programs with a size near its bound, and how many there are. Those
/// within it are finished.
fn near(comparison: &mut Comparison, build: Build, numbers: usize, size: usize) -> usize {
    let mut found = 0;
    let bound = BOUNDS[size];
    let mut seen: HashMap<usize, Option<usize>> = HashMap::new();
    let mut unpadded = |number: usize| {
        let most = seen.entry(number);
        *most.or_insert_with(|| most_of(&build(number, 0), size))
    };
    for wanted in bound - 2..=bound + 2 {
        let Some(term) = exactly(build, &mut unpadded, numbers, size, wanted) else {
            continue;
        };
        found += 1;
        let program = Program::new(vec![Wire::Qubit], term);
        let known = match wanted <= bound {
            true => Known::Accepted,
            false => Known::Refused(22, 0),
        };
        comparison.program(&program.bytes(), &known);
    }
    found
}

/// A wire with so many nodes more around it; 1 more is taken for none.
fn padded(wire: Rc<Term>, more: usize) -> Rc<Term> {
    match more {
        0 | 1 => wire,
        2 | 4 => padded(apply(gate(more % 5), wire), more - 2),
        _ => {
            let same = abstraction(qubit(), variable(0));
            padded(application(same, wire), more - 3)
        }
    }
}

/// A closed term of about so many nodes, and its type.
#[derive(Clone, Copy)]
enum Payload {
    Lifts,
    Function,
    /// A tuple of units, at most 127 of them.
    Units,
}

impl Payload {
    fn term(self, nodes: usize) -> (Rc<Term>, Rc<Type>) {
        match self {
            Payload::Lifts => {
                let typed = extremes::forced_lifts(nodes);
                (typed.program.term, typed.of)
            }
            Payload::Function => {
                let body = padded(variable(0), nodes.saturating_sub(2));
                (abstraction(qubit(), body), function(qubit(), qubit()))
            }
            Payload::Units => {
                let mut tuple = (unit_value(), unit());
                for _ in 1..nodes.div_ceil(2).min(127) {
                    let (term, of) = tuple;
                    tuple = (pair(unit_value(), term), types::pair(unit(), of));
                }
                tuple
            }
        }
    }
}

/// So many variables that stand for reusable values, all dropped again: the
/// one with the number of binders inside its own. The rest stands under as
/// many more binders.
fn dropped(over: &[Rc<Type>], uses: usize, rest: Rc<Term>) -> Rc<Term> {
    let count = over.len();
    (0..uses).rev().fold(rest, |rest, inside| {
        let half = inside % count;
        let variable = variable(inside + half);
        let over = over[count - 1 - half].clone();
        application(abstraction(over, rest), variable)
    })
}

fn nodes(comparison: &mut Comparison) {
    comparison.group("with nodes near 4,096");
    let mut found = [0; 5];
    for payload in [Payload::Lifts, Payload::Function, Payload::Units] {
        for uses in [3, 4, 7, 20, 60, 150] {
            // An abstraction copies its value.
            let by_application = |nodes: usize, padding: usize| {
                let (term, of) = payload.term(nodes);
                let over = [reusable(of)];
                let rest = dropped(&over, uses, padded(label(0), padding));
                application(abstraction(over[0].clone(), rest), lift(term))
            };
            // A let copies both halves.
            let by_let = |nodes: usize, padding: usize| {
                let (term, of) = payload.term(nodes);
                let (other, of_other) = payload.term(nodes / 2 + 4);
                let over = [reusable(of), reusable(of_other)];
                let rest = dropped(&over, uses, padded(label(0), padding));
                let_in(pair(lift(term), lift(other)), rest)
            };
            // The same inside a box: the frame below counts.
            let in_box = |nodes: usize, padding: usize| {
                let (term, of) = payload.term(nodes);
                let over = [reusable(of)];
                let rest = dropped(&over, uses, variable(1 + uses));
                let copied = abstraction(over[0].clone(), rest);
                let body = application(copied, lift(term));
                padded(apply(qubit_box(body), label(0)), padding)
            };
            // Beside a circuit constant, which counts 1.
            let beside_constant = |nodes: usize, padding: usize| {
                let (term, of) = payload.term(nodes);
                let over = [reusable(of)];
                let wire = apply(variable(1 + uses), padded(label(0), padding));
                let rest = abstraction(over[0].clone(), dropped(&over, uses, wire));
                let row = (0..20).fold(variable(0), |wire, at| apply(gate(at % 5), wire));
                let body = application(rest, lift(term));
                let bound = abstraction(circuit(qubit(), qubit()), body);
                application(bound, qubit_box(row))
            };
            let builds: [Build; 4] = [&by_application, &by_let, &in_box, &beside_constant];
            for (build, found) in builds.into_iter().zip(&mut found) {
                *found += near(comparison, build, MOST_TERMS, NODES);
            }
        }
    }
    for depth in 2..=20 {
        // Boxes inside each other, each entered while the others are open.
        let by_entry = |nodes: usize, padding: usize| {
            let end = padded(variable(0), nodes);
            let inside = (1..depth).fold(end, |body, _| apply(qubit_box(body), variable(0)));
            padded(apply(qubit_box(inside), label(0)), padding)
        };
        found[4] += near(comparison, &by_entry, MOST_TERMS, NODES);
    }
    assert!(found.iter().all(|&found| found >= 30), "too few: {found:?}");
}

/// A box at Qubit of the function with this body.
fn qubit_box(body: Rc<Term>) -> Rc<Term> {
    boxed(qubit(), lift(abstraction(qubit(), body)))
}

/// The same at unit.
fn unit_box(body: Rc<Term>) -> Rc<Term> {
    boxed(unit(), lift(abstraction(unit(), body)))
}

/// A circuit from this type to itself bound, and applied so many times, one to the
/// result of the other.
fn applied(of: Rc<Type>, circuit_term: Rc<Term>, times: usize, wire: Rc<Term>) -> Rc<Term> {
    let body = (0..times).fold(wire, |wire, _| apply(variable(0), wire));
    let over = circuit(of.clone(), of);
    application(abstraction(over, body), circuit_term)
}

/// The numbers of gates.
const MEAS: usize = 6;
const INIT: usize = 9;
const DISCARD: usize = 10;
const CCX: usize = 11;

/// A Qubit is measured and goes.
fn gone(qubit: Rc<Term>) -> Rc<Term> {
    apply(gate(DISCARD), apply(gate(MEAS), qubit))
}

/// A Qubit comes, is measured and goes.
fn helper(unit: Rc<Term>) -> Rc<Term> {
    gone(apply(gate(INIT), unit))
}

/// Three Qubits come, go through CCX, are measured and go.
fn three_helpers(unit: Rc<Term>) -> Rc<Term> {
    let come = |unit: Rc<Term>| apply(gate(INIT), unit);
    let all = [come(unit), come(unit_value()), come(unit_value())];
    let all_gone = [3, 1, 0].map(|wire| gone(variable(wire)));
    let units = let_in(in_a_row(&all_gone, pair), unit_value());
    let made = apply(gate(CCX), in_a_row(&all, pair));
    let_in(made, let_in(variable(0), units))
}

fn gates(comparison: &mut Comparison) {
    comparison.group("with gates near 2,048");
    let mut found = [0; 5];
    for times in 1..=6 {
        for first in [1, 2, 5, 40] {
            // Each box applies the box inside it several times.
            let nested = |levels: usize| {
                let gates = (0..first).fold(variable(0), |wire, at| apply(gate(at % 5), wire));
                (1..levels).fold(qubit_box(gates), |inside, _| {
                    qubit_box(applied(qubit(), inside, times, variable(1)))
                })
            };
            let gates_around = |wire: Rc<Term>, count: usize| {
                (0..count).fold(wire, |wire, at| apply(gate(at % 5), wire))
            };
            // The last step is a gate, or the circuit applied.
            let gate_last = |levels: usize, padding: usize| {
                let wire = apply(nested(levels), label(0));
                gates_around(wire, padding)
            };
            let circuit_last = |levels: usize, padding: usize| {
                let wire = gates_around(label(0), padding);
                applied(qubit(), nested(levels), times, wire)
            };
            // The same with Qubits that come and go in boxes at unit.
            let coming = |one: fn(Rc<Term>) -> Rc<Term>, levels: usize, padding: usize| {
                let first = (0..first).fold(variable(0), |unit, _| one(unit));
                let nested = (1..levels).fold(unit_box(first), |inside, _| {
                    unit_box(applied(unit(), inside, times, variable(1)))
                });
                let rest = abstraction(unit(), gates_around(label(0), padding));
                application(rest, applied(unit(), nested, times, unit_value()))
            };
            let helpers = |levels: usize, padding: usize| coming(helper, levels, padding);
            let on_three = |levels: usize, padding: usize| coming(three_helpers, levels, padding);
            let builds: [Build; 4] = [&gate_last, &circuit_last, &helpers, &on_three];
            for (build, found) in builds.into_iter().zip(&mut found) {
                let levels = if times == 1 { 60 } else { 12 };
                *found += near(comparison, build, levels, GATES);
            }
        }
    }
    // Boxes that apply a circuit and are never applied themselves.
    let unused = |boxes: usize, padding: usize| {
        let row = (0..40).fold(variable(0), |wire, _| apply(gate(2), wire));
        let over = circuit(qubit(), qubit());
        let rest = (0..padding).fold(label(0), |wire, _| apply(gate(1), wire));
        let dropped = (0..boxes).rev().fold(rest, |rest, inside| {
            let once = |wire| apply(variable(1 + inside), wire);
            let boxed = qubit_box(once(once(variable(0))));
            application(abstraction(over.clone(), rest), boxed)
        });
        application(abstraction(over.clone(), dropped), qubit_box(row))
    };
    found[4] += near(comparison, &unused, 40, GATES);
    assert!(found.iter().all(|&found| found >= 5), "too few: {found:?}");
}

fn boxes(comparison: &mut Comparison) {
    comparison.group("with boxes near 256");
    let identity = || qubit_box(variable(0));
    let in_turn = |count: usize, padding: usize| {
        (0..count + padding).fold(label(0), |wire, _| apply(identity(), wire))
    };
    let two_in_turn = |count: usize, padding: usize| {
        let both = || qubit_box(apply(identity(), variable(0)));
        let wire = (0..padding).fold(label(0), |wire, _| apply(identity(), wire));
        (0..count).fold(wire, |wire, _| apply(both(), wire))
    };
    // A lifted box is boxed anew whenever it is forced.
    let forced = |count: usize, padding: usize| {
        let body = (0..count + padding).fold(label(0), |wire, _| apply(force(variable(0)), wire));
        let over = reusable(circuit(qubit(), qubit()));
        application(abstraction(over, body), lift(identity()))
    };
    // Boxes that are never applied.
    let unused = |count: usize, padding: usize| {
        let over = circuit(qubit(), qubit());
        (0..count + padding).fold(label(0), |rest, _| {
            application(abstraction(over.clone(), rest), identity())
        })
    };
    // Boxes at unit, one after the other.
    let at_unit = |count: usize, padding: usize| {
        let units =
            (0..count + padding).fold(unit_value(), |unit, _| apply(unit_box(variable(0)), unit));
        application(abstraction(unit(), label(0)), units)
    };
    // A reusable function that calls the one inside it twice.
    let doubled = |levels: usize, padding: usize| {
        let first = lift(abstraction(qubit(), apply(identity(), variable(0))));
        let double = (1..levels).fold(first, |once, _| extremes::twice(&qubit(), once));
        let wire = application(force(double), label(0));
        (0..padding).fold(wire, |wire, _| apply(identity(), wire))
    };
    let builds: [(Build, usize); 6] = [
        (&in_turn, 300),
        (&two_in_turn, 200),
        (&forced, 300),
        (&unused, 300),
        (&at_unit, 300),
        (&doubled, 12),
    ];
    for (build, numbers) in builds {
        let found = near(comparison, build, numbers, BOXES);
        assert_eq!(found, 5, "too few");
    }
}
