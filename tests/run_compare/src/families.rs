//! The programs that are compared, all from fixed seeds.

use crate::compare::Comparison;
use comparing::files::{
    broken_file, entries, often_broken_file, planned, room_for_faults, some_typed, well_typed,
    ComparePrograms,
};
use comparing::Known;
use program_files::entries::{MOST_TERMS, MOST_TYPES};
use program_files::faults;
use program_files::{encode, Positions, Program, Random, Term, Type, Wire, GATES};
use programs::blocks::{self, blocks};
use programs::broken::{Way, WAYS};
use programs::edit::{map_leaves, shifted};
use programs::extremes;
use programs::nested::in_a_row;
use programs::rules::MOST_ENTRIES;
use programs::terms::{
    abstraction, application, apply, boxed, gate, label, let_in, lift, pair, unit_value, variable,
};
use programs::typed::{padded, Plan, Typed, RULES};
use programs::types::{self, any_wires, qubits, reusable, shuffle, unit};
use std::rc::Rc;

/// The numbers of gates.
const MEAS: usize = 6;
const INIT: usize = 9;
const DISCARD: usize = 10;

/// Programs that any of the typing rules may have made, and broken files.
pub fn of_all_rules(comparison: &mut Comparison) {
    any_rules(comparison);
    one_rule(comparison);
    nested_boxes(comparison);
    helpers(comparison);
    copies(comparison);
    no_wire_type(comparison);
    not_read(comparison);
}

/// Programs that are built to have one form.
pub fn of_one_form(comparison: &mut Comparison) {
    circuits_in_blocks(comparison);
    come_and_go(comparison);
    come_at_once(comparison);
    init_boxes(comparison);
    small_units(comparison);
    bound_gates(comparison);
    many_boxes(comparison);
    wide_boxes(comparison);
    last_types(comparison);
    large(comparison);
    extreme(comparison);
    long(comparison);
    one_fault(comparison);
    several_faults(comparison);
}

fn any_rules(comparison: &mut Comparison) {
    comparison.group("of a wire type, any rules");
    let mut random = Random::new(1);
    planned(comparison, &mut random, 8_000, |random| {
        Plan::of_wires(random, 4, 24)
    });
    planned(comparison, &mut random, 4_000, |random| {
        Plan::of_wires(random, 8, 120)
    });
}

fn one_rule(comparison: &mut Comparison) {
    comparison.group("of a wire type, one rule more often");
    let mut random = Random::new(2);
    for rule in RULES {
        planned(comparison, &mut random, 500, |random| {
            Plan::of_wires(random, 6, 60).favouring(&[rule])
        });
    }
}

fn nested_boxes(comparison: &mut Comparison) {
    comparison.group("of a wire type, boxes inside boxes");
    let mut random = Random::new(3);
    planned(comparison, &mut random, 4_000, |random| {
        Plan::of_wires(random, 5, 150).with_nested_boxes()
    });
}

fn helpers(comparison: &mut Comparison) {
    comparison.group("of a wire type, with wires that come and go");
    let mut random = Random::new(18);
    planned(comparison, &mut random, 3_000, |random| {
        Plan::of_wires(random, 4, 60).with_helpers()
    });
    planned(comparison, &mut random, 1_500, |random| {
        let plan = Plan::of_wires(random, 4, 100).with_copies();
        plan.with_helpers()
    });
    planned(comparison, &mut random, 1_500, |random| {
        let plan = Plan::of_wires(random, 3, 120).with_nested_boxes();
        plan.with_helpers()
    });
}

fn copies(comparison: &mut Comparison) {
    comparison.group("of a wire type, circuits and functions used several times");
    let mut random = Random::new(4);
    planned(comparison, &mut random, 6_000, |random| {
        Plan::of_wires(random, 6, 100).with_copies()
    });
    comparison.group("of a wire type, pairs of such used several times");
    planned(comparison, &mut random, 1_000, |random| {
        Plan::of_wires(random, 4, 140).with_pairs(8)
    });
}

/// Programs of many kinds that are small. They tell most planted faults apart.
pub fn small(comparison: &mut Comparison) {
    comparison.group("circuits built block by block, small");
    let mut random = Random::new(13);
    for round in 0..300 {
        in_blocks(comparison, &mut random, 16, round % 2 == 0);
    }
    comparison.group("of a wire type, any rules, small");
    planned(comparison, &mut random, 100, |random| {
        Plan::of_wires(random, 4, 40)
    });
    comparison.group("a linear use under a lift, small");
    for base in bases(&mut random, 30) {
        if let Some((file, _)) = broken_file(&mut random, &base.program, Way::UseUnderLift) {
            comparison.program(&file, &Known::Number(18));
        }
    }
}

fn circuits_in_blocks(comparison: &mut Comparison) {
    let mut random = Random::new(5);
    for deep in [false, true] {
        comparison.group(match deep {
            false => "circuits built block by block",
            true => "circuits built block by block, boxes inside boxes",
        });
        for round in 0..16_000 {
            let actions = if round % 20 == 0 { 120 } else { 24 };
            in_blocks(comparison, &mut random, actions, deep);
        }
    }
}

fn in_blocks(comparison: &mut Comparison, random: &mut Random, actions: usize, deep: bool) {
    let plan = blocks::Plan {
        labels: random.between(1, 6),
        actions: random.between(1, actions),
        boxes: random.between(1, 8),
        deep,
        helpers: random.one_in(3),
    };
    let typed = blocks(random, &plan);
    well_typed(comparison, random, &typed);
}

/// Boxes in which wires come and go, applied several times, and those without a
/// wire; more than half of the programs have no input.
fn come_and_go(comparison: &mut Comparison) {
    comparison.group("circuits built block by block, with wires that come and go");
    let mut random = Random::new(19);
    for round in 0..5_000 {
        let plan = blocks::Plan {
            labels: match round % 2 {
                0 => 0,
                _ => random.between(0, 4),
            },
            actions: random.between(1, 30),
            boxes: random.between(1, 6),
            deep: random.one_in(3),
            helpers: true,
        };
        let typed = blocks(&mut random, &plan);
        well_typed(comparison, &mut random, &typed);
    }
}

/// Many Qubits come from one box and go in another, several times.
fn come_at_once(comparison: &mut Comparison) {
    comparison.group("many Qubits that come at once and go");
    let mut random = Random::new(21);
    for count in 1..=60 {
        let come = apply(gate(INIT), variable(0));
        let come = in_a_row(&vec![come; count], pair);
        let coming = boxed(unit(), lift(abstraction(unit(), come)));
        let of = qubits(count);
        let going = boxed(of.clone(), lift(abstraction(of.clone(), all_gone(count))));
        // One after the other: the second is variable 0, the first variable 1.
        let times = random.between(1, 3);
        let body = (0..times).fold(unit_value(), |unit, _| {
            apply(variable(0), apply(variable(1), unit))
        });
        let body = abstraction(types::circuit(of.clone(), unit()), body);
        let body = application(body, going);
        let bound = abstraction(types::circuit(unit(), of), body);
        let typed = Typed {
            program: Program::new(Vec::new(), application(bound, coming)),
            of: unit(),
        };
        well_typed(comparison, &mut random, &typed).expect("a file");
    }
}

/// A body in which so many Qubits, pairs nested to the right in variable 0, are
/// measured and go.
fn all_gone(count: usize) -> Rc<Term> {
    let gone = |wire: usize| apply(gate(DISCARD), apply(gate(MEAS), variable(wire)));
    match count {
        1 => gone(0),
        _ => {
            // What is variable 0 behind the let is variable 1 under the abstraction.
            let rest = abstraction(unit(), shifted(&all_gone(count - 1), 1));
            let_in(variable(0), application(rest, gone(1)))
        }
    }
}

/// A box at unit whose result are new Qubits and units, applied several times.
fn init_boxes(comparison: &mut Comparison) {
    comparison.group("boxes at unit with Init, applied several times");
    let mut random = Random::new(22);
    for _ in 0..400 {
        let mut leaves = Vec::new();
        for _ in 0..random.between(1, 4) {
            leaves.push(match random.below(4) {
                0 => (unit_value(), unit()),
                1 => (variable(0), unit()),
                _ => (apply(gate(INIT), variable(0)), qubits(1)),
            });
        }
        let (terms, types): (Vec<Rc<Term>>, Vec<Rc<Type>>) = leaves.into_iter().unzip();
        let (body, of) = (in_a_row(&terms, pair), in_a_row(&types, types::pair));
        let circuit = boxed(unit(), lift(abstraction(unit(), body)));
        let times = random.between(2, 6);
        let applied = in_a_row(&vec![apply(variable(0), unit_value()); times], pair);
        let bound = abstraction(types::circuit(unit(), of.clone()), applied);
        let typed = Typed {
            program: Program::new(Vec::new(), application(bound, circuit)),
            of: in_a_row(&vec![of; times], types::pair),
        };
        well_typed(comparison, &mut random, &typed).expect("a file");
    }
}

/// Boxes between small wire types with units: the wires of one are taken apart, put
/// together as the other and led back.
fn small_units(comparison: &mut Comparison) {
    comparison.group("boxes from units and wires to units and wires");
    let mut random = Random::new(20);
    for leaves in 1..=4 {
        for _ in 0..150 {
            let wires = random.between(0, leaves);
            let labels = any_wires(&mut random, wires);
            let mut some_type =
                || types::wire_type_with_units(&mut random, &labels, leaves - wires);
            let (from, to) = (some_type(), some_type());
            let typed = through_a_box(&labels, &from, &to);
            well_typed(comparison, &mut random, &typed).expect("a file");
        }
    }
}

/// A box from one wire type to another with the same wires, which are taken apart
/// and put together, applied to the labels, and a second box that leads back.
fn through_a_box(labels: &[Wire], from: &Rc<Type>, to: &Rc<Type>) -> Typed {
    let there = boxed(from.clone(), lift(changed(from, to)));
    let back = boxed(to.clone(), lift(changed(to, from)));
    let argument = tuple(from, &mut (0..labels.len()).map(label));
    let term = apply(back, apply(there, argument));
    Typed {
        program: Program::new(labels.to_vec(), term),
        of: from.clone(),
    }
}

/// A tuple of this wire type from these wires, left to right.
fn tuple(of: &Type, wires: &mut impl Iterator<Item = Rc<Term>>) -> Rc<Term> {
    match of {
        Type::Pair(first, second) => {
            let first = tuple(first, wires);
            pair(first, tuple(second, wires))
        }
        Type::Unit => unit_value(),
        _ => wires.next().expect("a wire for each"),
    }
}

/// The abstraction that takes a tuple of one wire type apart and gives its wires as
/// a tuple of another.
fn changed(from: &Rc<Type>, to: &Rc<Type>) -> Rc<Term> {
    // What is still to be taken apart, and the wires, each by its binders outside.
    fn body(
        mut left: Vec<(usize, Rc<Type>)>,
        mut wires: Vec<usize>,
        binders: usize,
        to: &Type,
    ) -> Rc<Term> {
        let Some((number, of)) = left.pop() else {
            let mut wires = wires.into_iter().map(|wire| variable(binders - 1 - wire));
            return tuple(to, &mut wires);
        };
        match &*of {
            Type::Pair(first, second) => {
                left.push((binders + 1, second.clone()));
                left.push((binders, first.clone()));
                let inside = body(left, wires, binders + 2, to);
                let_in(variable(binders - 1 - number), inside)
            }
            Type::Unit => body(left, wires, binders, to),
            _ => {
                wires.push(number);
                body(left, wires, binders, to)
            }
        }
    }
    let inside = body(vec![(0, from.clone())], Vec::new(), 1, to);
    abstraction(from.clone(), inside)
}

/// A gate bound to a variable that stands wherever the gate stood.
pub fn bound_gate(typed: &Typed, number: usize) -> Option<Typed> {
    let of = GATES[number].circuit_type();
    if 1 + of.size() + typed.of.size() > MOST_ENTRIES {
        return None;
    }
    let body = map_leaves(&typed.program.term, 0, &mut |leaf, binders| match **leaf {
        Term::Gate(gate) if usize::from(gate) == number => variable(binders),
        _ => leaf.clone(),
    });
    let term = application(abstraction(of, body), gate(number));
    (term.size() <= MOST_TERMS).then(|| Typed {
        program: Program {
            term,
            ..typed.program.clone()
        },
        of: typed.of.clone(),
    })
}

fn bound_gates(comparison: &mut Comparison) {
    comparison.group("gates bound to variables");
    let mut random = Random::new(6);
    for _ in 0..1_500 {
        let plan = blocks::Plan {
            labels: random.between(1, 6),
            actions: random.between(1, 40),
            boxes: 8,
            deep: random.one_in(2),
            helpers: random.one_in(3),
        };
        let mut typed = blocks(&mut random, &plan);
        for number in 0..GATES.len() {
            if random.one_in(2) {
                typed = bound_gate(&typed, number).unwrap_or(typed);
            }
        }
        well_typed(comparison, &mut random, &typed);
    }
    for terms in [60, 512, 1_024, 2_040] {
        for (_, typed) in extremes::all(terms) {
            if let Some(typed) = bound_gate(&typed, 0) {
                well_typed(comparison, &mut random, &typed);
            }
        }
    }
}

/// Boxes in a row: all are closed before the last one is applied, and then the
/// others in turn. They differ in their gates and in the order of their wires.
fn many_boxes(comparison: &mut Comparison) {
    comparison.group("many boxes in a row");
    let mut random = Random::new(14);
    for round in 0..600 {
        let (wires, most) = [(1, 256), (2, 190), (3, 120)][round % 3];
        let count = match random.below(3) {
            0 => most,
            _ => random.between(1, most),
        };
        let labels: Vec<Rc<Term>> = (0..wires).map(label).collect();
        let labels = in_a_row(&labels, pair);
        let term = (0..count).fold(labels, |argument, _| {
            apply(any_box(&mut random, wires), argument)
        });
        let typed = Typed {
            program: Program::new(vec![Wire::Qubit; wires], term),
            of: qubits(wires),
        };
        well_typed(comparison, &mut random, &typed);
    }
}

/// A box of few nodes from one, two or three Qubits to as many: its wires in
/// any order, some through gates.
fn any_box(random: &mut Random, count: usize) -> Rc<Term> {
    let mut wires: Vec<Rc<Term>> = match count {
        1 => vec![variable(0)],
        2 => vec![variable(1), variable(0)],
        _ => vec![variable(3), variable(1), variable(0)],
    };
    shuffle(random, &mut wires);
    for wire in &mut wires {
        for _ in 0..random.pick(&[0, 0, 1, 2]) {
            *wire = apply(gate(random.below(5)), wire.clone());
        }
    }
    let result = in_a_row(&wires, pair);
    let body = (1..count).fold(result, |body, _| let_in(variable(0), body));
    let of = qubits(count);
    boxed(of.clone(), lift(abstraction(of, body)))
}

fn wide_boxes(comparison: &mut Comparison) {
    comparison.group("boxes with up to 127 wires");
    let mut random = Random::new(15);
    for round in 0..400 {
        let wires = match random.below(3) {
            0 => random.between(120, 127),
            _ => random.between(1, 127),
        };
        let plan = blocks::Plan {
            labels: 1,
            actions: round % 20,
            boxes: 4,
            deep: false,
            helpers: round % 2 == 0 && wires <= 100,
        };
        let units = random.pick(&[3, 20, usize::MAX]);
        if let Some(typed) = blocks::wide(&mut random, wires, units, &plan) {
            well_typed(comparison, &mut random, &typed);
        }
    }
}

/// Types that stand at the end of a section of 512 entries, behind one that is
/// not used.
fn last_types(comparison: &mut Comparison) {
    comparison.group("types at the last positions");
    let mut random = Random::new(16);
    for _ in 0..300 {
        let plan = blocks::Plan {
            labels: random.between(1, 6),
            actions: random.between(4, 40),
            boxes: 8,
            deep: false,
            helpers: random.one_in(2),
        };
        let typed = blocks(&mut random, &plan);
        let mut program = typed.program;
        let used = encode(&program, Positions::Fresh).map(|entries| entries.types.len());
        let Some(unused @ 1..) = used.map(|used| MOST_TYPES - used) else {
            continue;
        };
        let bit = Wire::Bit.as_type();
        let deep = (1..unused).fold(bit, |of, _| reusable(of));
        program.listed.push(deep);
        let entries = encode(&program, Positions::Fresh).expect("sizes in range");
        comparison.program(&entries.bytes(), &Known::Type(typed.of));
    }
}

fn large(comparison: &mut Comparison) {
    comparison.group("of a wire type, large");
    let mut random = Random::new(7);
    planned(comparison, &mut random, 300, |random| {
        Plan::of_wires(random, 64, 600)
    });
    planned(comparison, &mut random, 40, |random| {
        Plan::of_wires(random, 64, 2_000)
    });
    for _ in 0..300 {
        let plan = blocks::Plan {
            labels: random.between(1, 64),
            actions: random.between(40, 160),
            boxes: random.between(1, 8),
            deep: random.one_in(2),
            helpers: random.one_in(3),
        };
        let typed = blocks(&mut random, &plan);
        well_typed(comparison, &mut random, &typed);
    }
    comparison.group("of a wire type, exactly 2,047 or 2,048 nodes");
    let mut found = 0;
    while found < 40 {
        let plan = Plan::of_wires(&mut random, 64, 1_800);
        let typed = some_typed(&mut random, &plan);
        let terms = random.between(2_047, 2_048);
        let typed = padded(&mut random, &typed, terms);
        let compared = typed.and_then(|typed| well_typed(comparison, &mut random, &typed));
        found += usize::from(compared.is_some());
    }
}

/// One way to nest at many sizes.
fn extreme(comparison: &mut Comparison) {
    comparison.group("each way to nest");
    let mut random = Random::new(8);
    for terms in [
        1, 2, 3, 5, 8, 13, 60, 120, 255, 256, 257, 511, 512, 1_024, 2_047, 2_048,
    ] {
        for (_, typed) in extremes::all(terms) {
            well_typed(comparison, &mut random, &typed).expect("a file");
        }
    }
    for (_, typed) in extremes::at_the_type_bound() {
        well_typed(comparison, &mut random, &typed).expect("a file");
    }
    for count in 1..=60 {
        for typed in [
            extremes::boxes(1 + 5 * count),
            extremes::boxes_at_unit(1 + 5 * count),
        ] {
            well_typed(comparison, &mut random, &typed).expect("a file");
        }
    }
}

/// Functions that call the one inside them twice.
fn long(comparison: &mut Comparison) {
    comparison.group("with many steps");
    for doublings in 0..16 {
        let typed = extremes::calls(doublings);
        comparison.program(&typed.program.bytes(), &Known::Accepted);
    }
}

fn no_wire_type(comparison: &mut Comparison) {
    comparison.group("well typed, mostly of no wire type");
    let mut random = Random::new(9);
    planned(comparison, &mut random, 10_000, |random| {
        Plan::any(random, 5, 30)
    });
    planned(comparison, &mut random, 100, |random| {
        Plan::any(random, 64, 1_500)
    });
}

/// Programs of a wire type, which one fault breaks or leaves as they are.
fn bases(random: &mut Random, count: usize) -> Vec<Typed> {
    (0..count)
        .map(|round| match round % 3 {
            0 => {
                let plan = Plan::any(random, 5, 24);
                some_typed(random, &plan)
            }
            1 => {
                let plan = Plan::of_wires(random, 5, 40);
                some_typed(random, &plan)
            }
            _ => {
                let plan = blocks::Plan {
                    labels: random.between(1, 5),
                    actions: random.between(1, 12),
                    boxes: 4,
                    deep: false,
                    helpers: random.one_in(2),
                };
                blocks(random, &plan)
            }
        })
        .collect()
}

fn one_fault(comparison: &mut Comparison) {
    let mut random = Random::new(10);
    let bases = bases(&mut random, 1_500);
    for (way, name) in WAYS {
        comparison.group(name);
        let wanted = if way == Way::TooLarge { 60 } else { 700 };
        let mut found = 0;
        let mut at = 0;
        while found < wanted {
            assert!(at < 60 * wanted, "too few programs: {name}");
            let base = &bases[at % bases.len()];
            at += 1;
            if let Some((file, known)) = broken_file(&mut random, &base.program, way) {
                comparison.program(&file, &known);
                found += 1;
            }
        }
    }
}

/// Two to five faults: the number and the first place count.
fn several_faults(comparison: &mut Comparison) {
    comparison.group("several faults");
    let mut random = Random::new(11);
    let ways = WAYS.iter().map(|&(way, _)| way);
    let ways: Vec<Way> = ways.filter(|&way| way != Way::TooLarge).collect();
    for base in bases(&mut random, 5_000) {
        if let Some(file) = often_broken_file(&mut random, base.program, &ways) {
            comparison.program(&file, &Known::Nothing);
        }
    }
}

/// Files with a fault of each number of read, and with several.
fn not_read(comparison: &mut Comparison) {
    comparison.group("not read, one fault");
    let mut random = Random::new(12);
    for number in 1..=9 {
        for _ in 0..900 {
            faulty(comparison, &mut random, &[number]);
        }
    }
    comparison.group("not read, several faults");
    for _ in 0..3_000 {
        let numbers: Vec<u8> = (2..=9).filter(|_| random.one_in(3)).collect();
        if !numbers.is_empty() {
            faulty(comparison, &mut random, &numbers);
        }
    }
    comparison.group("bytes changed");
    let bases = bases(&mut random, 400);
    for base in &bases {
        let bytes = entries(&mut random, &base.program).expect("a file").bytes();
        for _ in 0..10 {
            let mut changed = bytes.clone();
            let at = random.below(bytes.len());
            match random.below(4) {
                0 => changed.truncate(at),
                1 => changed[at] = changed[at].wrapping_add(1),
                2 => changed[at] ^= 1 << random.below(8),
                _ => changed[at] = random.between(0, 28) as u8,
            }
            comparison.program(&changed, &Known::Nothing);
        }
    }
}

fn faulty(comparison: &mut Comparison, random: &mut Random, numbers: &[u8]) {
    loop {
        if let Some(broken) = faults::broken(room_for_faults(random), numbers, random) {
            comparison.program(&broken.bytes, &Known::of_file(&broken));
            return;
        }
    }
}
