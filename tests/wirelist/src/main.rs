//! The cases of 01 and 02, and program files at the limits of `wirelist`, each with
//! the lines that it has to print: written into the folder that the argument
//! names.

use comparing::cases;
use evaluator::text::{text, LIMIT};
use program_files::entries::{MOST_LABELS, MOST_TERMS, MOST_TYPES};
use program_files::{Program, Term, Wire};
use programs::types::qubit;
use programs::{extremes, terms, types};
use std::env;
use std::fs;
use std::path::Path;
use std::rc::Rc;

/// The numbers of two gates.
const H: usize = 0;
const CNOT: usize = 5;

fn main() {
    let folder = env::args().nth(1).expect("a folder");
    let limit = LIMIT as usize;
    let steps = |steps| one_qubit(of_steps(steps));
    let finished = format!("in 0 Qubit\nout 0\nsteps {LIMIT}\n");
    let refused = String::from("refused 21 0\n");
    let inputs = [
        ("limit_reached", steps(limit), Some(finished)),
        ("limit_passed", steps(limit + 1), Some(refused)),
        ("longest", longest(), None),
        ("gates", many_gates(), None),
        ("outputs", extremes::most_outputs().program, None),
        ("units", extremes::some_outputs().program, None),
        ("helpers", extremes::helpers(MOST_TERMS).program, None),
        ("three_wires", extremes::most_wires().program, None),
        ("longest_listing", extremes::longest_listing().program, None),
    ];
    let write = |name: &str, file: &[u8], lines: String| {
        let path = Path::new(&folder).join(name);
        fs::write(path.with_extension("pqm"), file).expect("a file written");
        fs::write(path.with_extension("txt"), lines).expect("lines written");
    };
    for (name, program, lines) in inputs {
        let file = program.bytes();
        let lines = lines.unwrap_or_else(|| text(&evaluator::run(&file, LIMIT)));
        write(name, &file, lines);
    }
    for case in cases::all() {
        write(&case.name, &case.file, cases::lines(&case.run(LIMIT)));
    }
}

/// The program with one Qubit as its input.
fn one_qubit(term: Rc<Term>) -> Program {
    Program::new(vec![Wire::Qubit], term)
}

/// A function that gives the Qubit it takes, by twice applying the function of
/// one level less; at level 0 by itself. Each level holds the next one once,
/// so it is small, and only the level at work is copied.
fn doubling(level: usize) -> Rc<Term> {
    if level == 0 {
        return terms::abstraction(qubit(), terms::variable(0));
    }
    let reusable = types::reusable(types::function(qubit(), qubit()));
    let part = || terms::force(terms::variable(0));
    let once = terms::application(part(), terms::variable(1));
    let twice = terms::abstraction(reusable, terms::application(part(), once));
    let lifted = terms::lift(doubling(level - 1));
    terms::abstraction(qubit(), terms::application(twice, lifted))
}

/// How many steps the application of it to a value takes: two applications,
/// two forces, and twice the steps of one level less.
fn doubling_steps(level: usize) -> usize {
    if level == 0 {
        1
    } else {
        4 + 2 * doubling_steps(level - 1)
    }
}

/// A term that gives label 0 after so many steps.
fn of_steps(steps: usize) -> Rc<Term> {
    let mut term = terms::label(0);
    let mut left = steps;
    while left > 0 {
        let fits = |level: &usize| doubling_steps(*level) <= left;
        let level = (0..).take_while(fits).last().expect("level 0 has one step");
        term = terms::application(doubling(level), term);
        left -= doubling_steps(level);
    }
    term
}

/// The longest program: each size at its most. All labels are outputs; the last
/// one is the last entry.
fn longest() -> Program {
    let labels = MOST_LABELS;
    let mut first = terms::label(0);
    let identity = terms::abstraction(qubit(), terms::variable(0));
    first = terms::application(identity, first);
    // What is left of the terms besides the pairs of the labels is gates, two entries each.
    let others = 2 * labels - 1 + 3;
    for _ in 0..(MOST_TERMS - others) / 2 {
        first = terms::apply(terms::gate(H), first);
    }
    let last = (1..labels).rev().map(terms::label);
    let rest = last.reduce(|rest, label| terms::pair(label, rest));
    let mut listed = vec![Wire::Bit.as_type(); MOST_TYPES - 1];
    listed.push(qubit());
    Program {
        labels: vec![Wire::Qubit; labels],
        listed,
        term: terms::pair(first, rest.expect("labels")),
    }
}

/// 2,000 gates: a circuit of 20 that is applied 100 times.
fn many_gates() -> Program {
    let two = types::pair(qubit(), qubit());
    let mut chain = terms::variable(0);
    for _ in 0..20 {
        chain = terms::apply(terms::gate(CNOT), chain);
    }
    let function = terms::abstraction(two.clone(), chain);
    let circuit = terms::boxed(two.clone(), terms::lift(function));
    let mut wires = terms::pair(terms::label(0), terms::label(1));
    for _ in 0..100 {
        wires = terms::apply(terms::variable(0), wires);
    }
    let on_both = types::circuit(two.clone(), two);
    Program::new(
        vec![Wire::Qubit; 2],
        terms::application(terms::abstraction(on_both, wires), circuit),
    )
}
