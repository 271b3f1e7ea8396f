//! Generated programs with two faults or more, in the parts of nodes: the
//! lowest number is answered, at its first place in the file. Both are known
//! from how the program was made.

use crate::compare::Comparison;
use comparing::files::{entries, some_typed, ComparePrograms};
use comparing::Known;
use program_files::{Entries, Program, Random, Term, Type, Wire};
use programs::broken::{broken, Expected, Spot, Way, WAYS};
use programs::edit::map_leaves;
use programs::rules::MOST_ENTRIES;
use programs::survey::Survey;
use programs::terms::{abstraction, application, apply, gate, let_in, pair, variable};
use programs::typed::{Goal, Plan};
use programs::types::circuit;
use std::collections::BTreeMap;
use std::rc::Rc;

/// So many programs have two faults of one number in the two parts of one kind
/// of node.
const LEAST: usize = 200;

const NUMBERS: [u8; 3] = [16, 17, 18];

/// A node with two parts.
#[derive(Clone, Copy, PartialEq, Eq, PartialOrd, Ord, Debug)]
enum Around {
    Pair,
    Let,
    Application,
    Apply,
}

const AROUND: [Around; 4] = [
    Around::Pair,
    Around::Let,
    Around::Application,
    Around::Apply,
];

/// A closed term with its faults, each with its number. Types as far as they
/// are known.
#[derive(Clone)]
struct Part {
    labels: Vec<Wire>,
    term: Rc<Term>,
    of: Option<Rc<Type>>,
    faults: Vec<(u8, Spot)>,
}

pub fn compare(comparison: &mut Comparison) {
    let mut random = Random::new(12);
    comparison.group("two faults in two parts");
    let mut seen: BTreeMap<(u8, Around), usize> = BTreeMap::new();
    for round in 0..6_000 {
        let around = AROUND[round % AROUND.len()];
        let number = random.pick(&NUMBERS);
        if let Some(part) = two_of(&mut random, around, [number, number]) {
            if compared(comparison, &mut random, &part) {
                *seen.entry((number, around)).or_default() += 1;
            }
        }
    }
    for number in NUMBERS {
        for around in AROUND {
            let seen = seen.get(&(number, around)).copied().unwrap_or(0);
            assert!(seen >= LEAST, "too few of {number} in {around:?}: {seen}");
        }
    }
    comparison.group("two faults, the later number first");
    for round in 0..2_000 {
        let around = AROUND[round % AROUND.len()];
        let numbers = random.pick(&[[17, 16], [18, 16], [18, 17]]);
        if let Some(part) = two_of(&mut random, around, numbers) {
            compared(comparison, &mut random, &part);
        }
    }
    comparison.group("two faults or more, one node in another");
    for _ in 0..4_000 {
        let number = random.pick(&NUMBERS);
        if let Some(part) = nested(&mut random, number) {
            compared(comparison, &mut random, &part);
        }
    }
}

/// Compares the program, if it has a file.
fn compared(comparison: &mut Comparison, random: &mut Random, part: &Part) -> bool {
    let program = Program::new(part.labels.clone(), part.term.clone());
    let Some(entries) = entries(random, &program) else {
        return false;
    };
    let (number, place) = first(part, &entries);
    comparison.program(&entries.bytes(), &Known::Refused(number, place));
    true
}

/// The lowest number, and its first place.
fn first(part: &Part, entries: &Entries) -> (u8, usize) {
    let first_term = entries.sizes().first_term();
    let place = |spot: &Spot| match spot {
        Spot::Label(label) => *label,
        Spot::Node(node) => first_term + node,
    };
    let faults = part.faults.iter();
    let places = faults.map(|(number, spot)| (*number, place(spot)));
    places.min().expect("a fault")
}

/// One fault of each number, in the two parts.
fn two_of(random: &mut Random, around: Around, numbers: [u8; 2]) -> Option<Part> {
    let qubit = Wire::Qubit.as_type();
    let goals = match around {
        Around::Apply => [
            Some((Vec::new(), circuit(qubit.clone(), qubit.clone()))),
            Some((vec![Wire::Qubit], qubit)),
        ],
        _ => [None, None],
    };
    let [one, other] = goals;
    let one = piece(random, numbers[0], one)?;
    let other = piece(random, numbers[1], other)?;
    joined(around, &one, &other)
}

/// Two to four faults of one number, and parts without any.
fn nested(random: &mut Random, number: u8) -> Option<Part> {
    let mut part = piece(random, number, None)?;
    for _ in 0..random.between(1, 3) {
        let other = match random.below(4) {
            0 => without_fault(),
            _ => piece(random, number, None)?,
        };
        let around = random.pick(&[Around::Pair, Around::Let, Around::Application]);
        part = match random.below(2) {
            0 => joined(around, &part, &other)?,
            _ => joined(around, &other, &part)?,
        };
    }
    Some(part)
}

fn without_fault() -> Part {
    let qubit = Wire::Qubit.as_type();
    Part {
        labels: Vec::new(),
        term: gate(0),
        of: Some(circuit(qubit.clone(), qubit)),
        faults: Vec::new(),
    }
}

/// A well-typed program, of these labels and this type if they are given,
/// broken in one spot, which is known.
fn piece(random: &mut Random, number: u8, goal: Option<(Vec<Wire>, Rc<Type>)>) -> Option<Part> {
    let ways = WAYS.iter().map(|&(way, _)| way);
    let ways: Vec<Way> = ways
        .filter(|&way| way != Way::TooLarge && way.number() == Some(number))
        .collect();
    for _ in 0..20 {
        let plan = match &goal {
            Some((labels, of)) => {
                let terms = random.between(1, 20);
                Plan::new(labels.clone(), Goal::Exactly(of.clone()), terms)
            }
            None => Plan::any(random, 3, 12),
        };
        let typed = some_typed(random, &plan);
        let way = random.pick(&ways);
        let Some((program, Expected::Refused(_, spot))) = broken(random, &typed.program, way)
        else {
            continue;
        };
        let survey = Survey::new(&program.labels, &program.term);
        let of = survey.nodes[0].of.clone();
        let wanted = goal.as_ref().map(|(_, of)| of.clone());
        if number > 16 && wanted.is_some() && of != wanted {
            continue;
        }
        return Some(Part {
            labels: program.labels,
            term: program.term,
            of,
            faults: vec![(number, spot)],
        });
    }
    None
}

/// Both in one node, which has no fault of its own; none if its type would be
/// too large.
fn joined(around: Around, first: &Part, second: &Part) -> Option<Part> {
    let shift = first.labels.len();
    let moved = map_leaves(&second.term, 0, &mut |leaf, _| match **leaf {
        Term::Label(number) => Rc::new(Term::Label(number + shift as u16)),
        _ => leaf.clone(),
    });
    let one = first.term.clone();
    let qubit = || Wire::Qubit.as_type();
    let over = second.of.clone().unwrap_or_else(qubit);
    // The term, and the nodes before each part.
    let (term, before, between) = match around {
        Around::Pair => (pair(one, moved), 1, 0),
        Around::Let => (let_in(pair(one, gate(0)), pair(variable(1), moved)), 2, 3),
        Around::Application => {
            let function = abstraction(over, pair(variable(0), one));
            (application(function, moved), 4, 0)
        }
        Around::Apply => (apply(one, moved), 1, 0),
    };
    let size = |part: &Part| part.of.as_ref().map_or(0, |of| of.size());
    if 2 * size(second) + size(first) + 8 > MOST_ENTRIES {
        return None;
    }
    let second_at = before + first.term.size() + between;
    let mut faults = Vec::new();
    for &(number, spot) in &first.faults {
        faults.push((number, moved_by(spot, 0, before)));
    }
    for &(number, spot) in &second.faults {
        faults.push((number, moved_by(spot, shift, second_at)));
    }
    let mut labels = first.labels.clone();
    labels.extend(&second.labels);
    let of = Survey::new(&labels, &term).nodes[0].of.clone();
    Some(Part {
        labels,
        term,
        of,
        faults,
    })
}

fn moved_by(spot: Spot, labels: usize, nodes: usize) -> Spot {
    match spot {
        Spot::Label(label) => Spot::Label(label + labels),
        Spot::Node(node) => Spot::Node(node + nodes),
    }
}
