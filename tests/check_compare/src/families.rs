//! The programs that are compared, all from fixed seeds.

use comparing::files::{
    broken_file, entries, often_broken_file, planned, some_typed, well_typed, ComparePrograms,
};
use comparing::Known;
use program_files::entries::MOST_TYPES;
use program_files::generate::{Generator, Lean, Shape};
use program_files::{encode, kinds, Entries, Positions, Program, Random, Term, Type, Wire};
use programs::broken::{Way, WAYS};
use programs::edit::{binds, with_parts};
use programs::extremes;
use programs::rules::MOST_ENTRIES;
use programs::terms::{
    abstraction, application, apply, boxed, force, gate, label, let_in, lift, pair, unit_value,
    variable,
};
use programs::typed::{padded, typed, Goal, Plan, Typed, RULES};
use programs::types::{
    any_type, any_wires, circuit, closed_type, one_entry_changed, open_type, parameter_type,
    reusable, unit, wire_type_with_units, OPEN,
};
use std::rc::Rc;

pub fn compare(comparison: &mut impl ComparePrograms) {
    // Those that tell the planted faults apart stand first.
    several_faults(comparison);
    types_at_the_bound(comparison);
    boxes_at_units(comparison);
    compared_types(comparison);
    one_fault(comparison);
    any_typed(comparison);
    one_rule(comparison);
    nested_boxes(comparison);
    large_typed(comparison);
    extreme_typed(comparison);
    all_small(comparison);
    untyped(comparison);
    not_read(comparison);
}

/// The number of a gate.
const CCX: usize = 11;

/// What small terms are made of: leaves, and nodes that get other parts.
struct Small {
    labels: Vec<Wire>,
    leaves: Vec<Rc<Term>>,
    one_part: Vec<Rc<Term>>,
    two_parts: Vec<Rc<Term>>,
    most: usize,
}

impl Small {
    /// All terms of so many entries under so many binders.
    fn terms(&self, size: usize, binders: usize) -> Vec<Rc<Term>> {
        if size == 1 {
            let variables = (0..binders.min(2)).map(variable);
            return variables.chain(self.leaves.iter().cloned()).collect();
        }
        let mut terms = Vec::new();
        for around in &self.one_part {
            for part in self.terms(size - 1, binders + binds(around, 0)) {
                terms.push(Rc::new(with_parts(around, &[part])));
            }
        }
        for around in &self.two_parts {
            for in_first in 1..size - 1 {
                let firsts = self.terms(in_first, binders);
                let seconds = self.terms(size - 1 - in_first, binders + binds(around, 1));
                for first in &firsts {
                    for second in &seconds {
                        let parts = [first.clone(), second.clone()];
                        terms.push(Rc::new(with_parts(around, &parts)));
                    }
                }
            }
        }
        terms
    }
}

fn all_small(comparison: &mut impl ComparePrograms) {
    comparison.listed_group("all small programs of some leaves and types");
    let qubit = Wire::Qubit.as_type();
    let leaf = || gate(0);
    let over_qubit = abstraction(qubit.clone(), leaf());
    let over_circuit = abstraction(circuit(qubit.clone(), qubit.clone()), leaf());
    let (over_unit, boxed_at_unit) = (abstraction(unit(), leaf()), boxed(unit(), leaf()));
    let boxed = boxed(qubit, leaf());
    let (lift, force) = (lift(leaf()), force(leaf()));
    let (application, apply) = (application(leaf(), leaf()), apply(leaf(), leaf()));
    let (pair, let_in) = (pair(leaf(), leaf()), let_in(leaf(), leaf()));
    let smalls = [
        // Everything, with one label.
        Small {
            labels: vec![Wire::Qubit],
            leaves: vec![label(0), gate(0)],
            one_part: vec![
                over_qubit.clone(),
                lift.clone(),
                force.clone(),
                boxed.clone(),
            ],
            two_parts: vec![
                application.clone(),
                pair.clone(),
                let_in.clone(),
                apply.clone(),
            ],
            most: 5,
        },
        // Two labels and pairs.
        Small {
            labels: vec![Wire::Qubit, Wire::Qubit],
            leaves: vec![label(0), label(1), gate(5)],
            one_part: vec![lift.clone()],
            two_parts: vec![pair.clone(), let_in, apply.clone()],
            most: 6,
        },
        // Units, and Qubits that come and go.
        Small {
            labels: vec![Wire::Bit],
            leaves: vec![label(0), unit_value(), gate(9), gate(10)],
            one_part: vec![over_unit, lift.clone(), force.clone(), boxed_at_unit],
            two_parts: vec![application.clone(), pair.clone(), apply.clone()],
            most: 5,
        },
        // CCX and three labels.
        Small {
            labels: vec![Wire::Qubit; 3],
            leaves: vec![label(0), label(1), label(2), gate(CCX)],
            one_part: vec![],
            two_parts: vec![pair.clone(), apply.clone()],
            most: 7,
        },
        // No label; variables that may be copied and others.
        Small {
            labels: vec![],
            leaves: vec![gate(0)],
            one_part: vec![over_qubit, over_circuit, lift, force, boxed],
            two_parts: vec![application, pair],
            most: 6,
        },
    ];
    for small in &smalls {
        for size in 1..=small.most {
            for term in small.terms(size, 0) {
                let program = Program::new(small.labels.clone(), term);
                comparison.program(&program.bytes(), &Known::Nothing);
            }
        }
    }
}

fn any_typed(comparison: &mut impl ComparePrograms) {
    comparison.group("well typed, any rules");
    let mut random = Random::new(1);
    planned(comparison, &mut random, 14_000, |random| {
        Plan::any(random, 4, 16)
    });
    planned(comparison, &mut random, 4_000, |random| {
        Plan::any(random, 8, 60)
    });
    comparison.group("well typed, with wires that come and go");
    planned(comparison, &mut random, 6_000, |random| {
        Plan::any(random, 4, 40).with_helpers()
    });
    comparison.group("well typed, of a wire type");
    for _ in 0..6_000 {
        let plan = Plan::of_wires(&mut random, 6, 50);
        let typed = some_typed(&mut random, &plan);
        assert!(typed.of.is_wire_type(), "a wire type");
        well_typed(comparison, &mut random, &typed).expect("a file");
    }
}

fn one_rule(comparison: &mut impl ComparePrograms) {
    comparison.group("well typed, one rule more often");
    let mut random = Random::new(2);
    for rule in RULES {
        planned(comparison, &mut random, 300, |random| {
            Plan::any(random, 6, 50).favouring(&[rule])
        });
    }
    // Variables that are copied.
    planned(comparison, &mut random, 1_000, |random| {
        Plan::of_wires(random, 6, 80).with_copies()
    });
    // The same of pairs in pairs.
    planned(comparison, &mut random, 1_200, |random| {
        let plan = match random.below(2) {
            0 => Plan::of_wires(random, 4, 140),
            _ => Plan::any(random, 4, 140),
        };
        plan.with_pairs(10)
    });
}

fn nested_boxes(comparison: &mut impl ComparePrograms) {
    comparison.group("well typed, boxes inside boxes");
    let mut random = Random::new(3);
    planned(comparison, &mut random, 1_500, |random| {
        Plan::of_wires(random, 5, 150).with_nested_boxes()
    });
}

fn large_typed(comparison: &mut impl ComparePrograms) {
    comparison.group("well typed, large");
    let mut random = Random::new(4);
    planned(comparison, &mut random, 500, |random| {
        Plan::any(random, 64, 600)
    });
    planned(comparison, &mut random, 60, |random| {
        Plan::any(random, 64, 2_000)
    });
    comparison.group("well typed, exactly 2,047 or 2,048 nodes");
    let mut found = 0;
    while found < 60 {
        let mut plan = Plan::any(&mut random, 64, 1_800);
        if found % 2 == 0 {
            plan.labels = any_wires(&mut random, 64);
            plan.goal = if random.one_in(2) {
                Goal::Wires
            } else {
                Goal::Made
            };
        }
        let typed = some_typed(&mut random, &plan);
        let terms = random.between(2_047, 2_048);
        let Some(typed) = padded(&mut random, &typed, terms) else {
            continue;
        };
        if let Some(entries) = filled(&typed.program) {
            comparison.program(&entries.bytes(), &Known::Type(typed.of.clone()));
        }
        if well_typed(comparison, &mut random, &typed).is_some() {
            found += 1;
        }
    }
}

/// The program's file with 512 type entries, some of them not used.
fn filled(program: &Program) -> Option<Entries> {
    let mut program = program.clone();
    let mut more = 0;
    for _ in 0..4 {
        program.listed.clear();
        if more > 0 {
            let bit = Wire::Bit.as_type();
            program
                .listed
                .push((1..more).fold(bit, |of, _| reusable(of)));
        }
        let entries = encode(&program, Positions::First)?;
        more += MOST_TYPES - entries.types.len();
        if entries.types.len() == MOST_TYPES {
            return Some(entries);
        }
    }
    None
}

/// One way to nest at many sizes, and all sizes of a file at their bounds.
fn extreme_typed(comparison: &mut impl ComparePrograms) {
    comparison.group("well typed, each way to nest");
    let mut random = Random::new(5);
    for terms in [
        1, 2, 3, 5, 8, 13, 60, 255, 256, 257, 511, 512, 1_024, 2_047, 2_048,
    ] {
        for (_, typed) in extremes::all(terms) {
            well_typed(comparison, &mut random, &typed).expect("a file");
        }
    }
    for (_, typed) in extremes::at_the_type_bound() {
        well_typed(comparison, &mut random, &typed).expect("a file");
    }
    for (_, typed) in extremes::all(2_048) {
        let entries = filled(&typed.program).expect("a file");
        comparison.program(&entries.bytes(), &Known::Type(typed.of.clone()));
    }
}

/// Programs with a node of a type of so many entries, near the bound.
fn types_at_the_bound(comparison: &mut impl ComparePrograms) {
    comparison.group("types of 509 to 514 entries");
    let mut random = Random::new(6);
    for size in 509..=514 {
        for _ in 0..60 {
            let of = large_type(&mut random, size);
            let mut plan = Plan::new(Vec::new(), Goal::Exactly(of), 0);
            if let Some(typed) = typed(&mut random, &plan) {
                within_and_past(comparison, &mut random, &typed);
            }
            plan.terms = random.between(3, 60);
            if let Some(typed) = typed(&mut random, &plan).filter(|_| size <= MOST_ENTRIES) {
                well_typed(comparison, &mut random, &typed);
            }
        }
    }
}

/// Boxes at pairs of units only, with types near the bound.
fn boxes_at_units(comparison: &mut impl ComparePrograms) {
    comparison.group("boxes at units, near the bound");
    let mut random = Random::new(14);
    for pairs in 120..=135 {
        let typed = extremes::box_at_units(pairs);
        for _ in 0..4 {
            let entries = entries(&mut random, &typed.program).expect("a file");
            let abstraction = entries.sizes().first_term() + 3;
            let known = match pairs <= 127 {
                true => Known::Type(typed.of.clone()),
                false => Known::Refused(16, abstraction),
            };
            comparison.program(&entries.bytes(), &known);
        }
    }
}

/// A type of exactly so many entries that has a term: a pair, a function or a
/// reusable.
fn large_type(random: &mut Random, size: usize) -> Rc<Type> {
    match random.below(4) {
        0 => parameter_type(random, size),
        1 => {
            let to = any_type(random, size - OPEN);
            open_type(random, to)
        }
        _ => closed_type(random, size),
    }
}

/// The program, and programs around it. Where the type is past the bound by
/// one, it is refused at its node, else at the first node around it that is.
fn within_and_past(comparison: &mut impl ComparePrograms, random: &mut Random, typed: &Typed) {
    let of = &typed.of;
    let term = || typed.program.term.clone();
    let paired = || pair(term(), gate(0));
    // The number of the term's node; that of a node around it and how many
    // entries its type has more; the type.
    let around = [
        (term(), 0, None, of.clone()),
        (lift(term()), 1, Some((0, 1)), reusable(of.clone())),
        (force(lift(term())), 2, Some((1, 1)), of.clone()),
        (paired(), 1, Some((0, 4)), of.clone()),
        (let_in(paired(), gate(0)), 2, Some((1, 4)), of.clone()),
        (
            pair(gate(0), pair(gate(0), term())),
            4,
            Some((2, 4)),
            of.clone(),
        ),
    ];
    for (whole, inside, node, of_whole) in around {
        let program = Program {
            term: whole,
            ..typed.program.clone()
        };
        let Some(entries) = entries(random, &program) else {
            continue;
        };
        let refused = |node: usize| Known::Refused(16, entries.sizes().first_term() + node);
        let known = match (of.size(), node) {
            (514.., _) => Known::Number(16),
            (513, _) => refused(inside),
            (size, Some((node, more))) if size + more > MOST_ENTRIES => refused(node),
            _ => Known::Type(of_whole),
        };
        comparison.program(&entries.bytes(), &known);
    }
}

/// Types that are equal, and types that differ in one entry only, where a rule
/// compares them.
fn compared_types(comparison: &mut impl ComparePrograms) {
    comparison.group("types that differ in one entry");
    let mut random = Random::new(11);
    for round in 0..1_200 {
        let most = if round % 10 == 0 { 507 } else { 60 };
        let size = random.between(3, most);
        let of = closed_type(&mut random, size);
        let mut plan = Plan::new(Vec::new(), Goal::Exactly(of.clone()), 0);
        plan.terms = random.below(20);
        let Some(typed) = typed(&mut random, &plan) else {
            continue;
        };
        let other = one_entry_changed(&mut random, &of);
        for over in [of, other] {
            let same = over == typed.of;
            let function = abstraction(reusable(over), gate(0));
            let term = application(function, lift(typed.program.term.clone()));
            one_comparison(comparison, &mut random, &typed.program, term, same);
        }
    }
    for _ in 0..1_200 {
        let count = match random.below(8) {
            0 => 64,
            _ => random.between(1, 10),
        };
        let wires = any_wires(&mut random, count);
        let units = random.pick(&[0, 0, 1, 2, 4]);
        let of = wire_type_with_units(&mut random, &wires, units);
        let other = match random.below(3) {
            0 => wire_type_with_units(&mut random, &wires, units),
            _ => one_entry_changed(&mut random, &of),
        };
        let over = |at: &Rc<Type>| lift(abstraction(at.clone(), variable(0)));
        let program = Program::new(Vec::new(), boxed(of.clone(), over(&of)));
        let labelled = Program {
            labels: wires,
            ..program.clone()
        };
        for other in [of.clone(), other] {
            let same = other == of;
            let term = boxed(of.clone(), over(&other));
            one_comparison(comparison, &mut random, &program, term, same);
            let mut next = 0;
            if let Some(tuple) = tuple_of(&other, &labelled.labels, &mut next) {
                let term = apply(program.term.clone(), tuple);
                one_comparison(comparison, &mut random, &labelled, term, same);
            }
        }
    }
}

/// The labels in order as a tuple of this wire type; none if there are too few or
/// they have other types.
fn tuple_of(of: &Type, labels: &[Wire], next: &mut usize) -> Option<Rc<Term>> {
    match of {
        Type::Pair(first, second) => {
            let first = tuple_of(first, labels, next)?;
            Some(pair(first, tuple_of(second, labels, next)?))
        }
        Type::Unit => Some(unit_value()),
        _ => {
            let number = *next;
            *next += 1;
            (*labels.get(number)?.as_type() == *of).then(|| label(number))
        }
    }
}

/// A program whose first node compares two types.
fn one_comparison(
    comparison: &mut impl ComparePrograms,
    random: &mut Random,
    program: &Program,
    term: Rc<Term>,
    same: bool,
) {
    let program = Program {
        term,
        ..program.clone()
    };
    if let Some(entries) = entries(random, &program) {
        let known = match same {
            true => Known::Accepted,
            false => Known::Refused(16, entries.sizes().first_term()),
        };
        comparison.program(&entries.bytes(), &known);
    }
}

fn one_fault(comparison: &mut impl ComparePrograms) {
    let mut random = Random::new(7);
    let mut bases: Vec<Typed> = Vec::new();
    for _ in 0..1_500 {
        let plan = match random.below(3) {
            0 => Plan::of_wires(&mut random, 5, 24),
            _ => Plan::any(&mut random, 5, 24),
        };
        bases.push(some_typed(&mut random, &plan));
    }
    let large: Vec<Typed> = (0..12)
        .map(|_| {
            let plan = Plan::any(&mut random, 40, 1_200);
            some_typed(&mut random, &plan)
        })
        .collect();
    for (way, name) in WAYS {
        comparison.group(name);
        let wanted = if way == Way::TooLarge { 300 } else { 1_500 };
        let mut found = 0;
        let mut at = 0;
        while found < wanted {
            let base = if found % 100 == 99 {
                &large[at % large.len()]
            } else {
                &bases[at % bases.len()]
            };
            at += 1;
            assert!(at < 40 * wanted, "too few programs: {name}");
            if let Some((file, known)) = broken_file(&mut random, &base.program, way) {
                comparison.program(&file, &known);
                found += 1;
            }
        }
    }
}

/// Two to five faults: the number and the first place count.
fn several_faults(comparison: &mut impl ComparePrograms) {
    comparison.group("several faults");
    let mut random = Random::new(8);
    let all = WAYS.iter().map(|&(way, _)| way);
    let all: Vec<Way> = all.filter(|&way| way != Way::TooLarge).collect();
    let with = |numbers: &[u8]| -> Vec<Way> {
        let ways = all.iter().copied();
        ways.filter(|way| way.number().is_some_and(|number| numbers.contains(&number)))
            .collect()
    };
    let groups = [
        with(&[16]),
        with(&[17]),
        with(&[18]),
        with(&[17, 18]),
        all.clone(),
    ];
    for round in 0..16_000 {
        let plan = Plan::any(&mut random, 4, 16);
        let program = some_typed(&mut random, &plan).program;
        let among = &groups[round % groups.len()];
        if let Some(file) = often_broken_file(&mut random, program, among) {
            comparison.program(&file, &Known::Nothing);
        }
    }
}

/// Files that the reader accepts, of any shape.
fn untyped(comparison: &mut impl ComparePrograms) {
    comparison.group("read, of any shape");
    let mut random = Random::new(9);
    for _ in 0..6_000 {
        let shape = Shape::any(&mut random, 5, 16, 24);
        let (_, entries) = Generator::entries(&mut random, &shape);
        comparison.program(&entries.bytes(), &Known::Nothing);
    }
    for _ in 0..200 {
        let shape = Shape::any(&mut random, 64, 512, 2_048);
        let (_, entries) = Generator::entries(&mut random, &shape);
        comparison.program(&entries.bytes(), &Known::Nothing);
    }
    for kind in kinds::TERMS_WITH_PARTS {
        for lean in Lean::ALL {
            for terms in [2, 3, 4, 100, 512, 1_025, 2_047, 2_048] {
                for labels in [0, 1, 64] {
                    let shape = Shape {
                        term_kinds: vec![kind],
                        lean,
                        ..Shape::new(labels, random.pick(&[1, 3, 20, 512]), terms)
                    };
                    let (_, entries) = Generator::entries(&mut random, &shape);
                    comparison.program(&entries.bytes(), &Known::Nothing);
                }
            }
        }
    }
}

/// Well-typed programs with bytes changed, cut and added: most are not read.
fn not_read(comparison: &mut impl ComparePrograms) {
    comparison.group("bytes changed");
    let mut random = Random::new(10);
    for _ in 0..600 {
        let plan = Plan::any(&mut random, 5, 20);
        let typed = some_typed(&mut random, &plan);
        let bytes = entries(&mut random, &typed.program)
            .expect("a file")
            .bytes();
        let types = 6 + typed.program.labels.len();
        for more in [1, 256, 65_536] {
            let mut longer = bytes.clone();
            longer.resize(bytes.len() + more, 0);
            comparison.program(&longer, &Known::Refused(3, 0));
        }
        for _ in 0..12 {
            let mut changed = bytes.clone();
            let at = random.below(bytes.len());
            match random.below(9) {
                0 => changed.truncate(at),
                1 => changed.truncate(random.below(7)),
                2 | 3 => changed[at] = changed[at].wrapping_add(1),
                4 => changed[random.below(6)] = random.byte(),
                5 => changed[at] ^= 1 << random.below(8),
                6 => {
                    let at = random.between(types, bytes.len() - 1).min(types + 8);
                    changed[at] = random.between(0, 6) as u8;
                }
                _ => changed[at] = random.between(0, 28) as u8,
            }
            comparison.program(&changed, &Known::Nothing);
        }
    }
}
