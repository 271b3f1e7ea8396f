//! Well-typed programs at the bounds: one way to nest, as far as it goes.

use crate::nested::in_a_row;
use crate::terms::{
    abstraction, application, apply, boxed, force, gate, label, let_in, lift, pair as pair_of,
    unit_value, variable,
};
use crate::typed::Typed;
use crate::types::{circuit, function, pair, qubit, qubits, reusable, unit};
use program_files::entries::MOST_LABELS;
use program_files::gates::MOST_GATES;
use program_files::{Program, Term, Type, Wire};
use std::rc::Rc;

const CNOT: usize = 5;
const MEAS: usize = 6;
const INIT: usize = 9;
const DISCARD: usize = 10;
const CCX: usize = 11;

/// The type of gate 0.
fn one_qubit() -> Rc<Type> {
    circuit(qubit(), qubit())
}

/// Each level around the one before, from the innermost.
fn levels(count: usize, inside: Rc<Term>, level: impl Fn(Rc<Term>, usize) -> Rc<Term>) -> Rc<Term> {
    (0..count).fold(inside, level)
}

fn typed(labels: usize, term: Rc<Term>, of: Rc<Type>) -> Typed {
    Typed {
        program: Program::new(vec![Wire::Qubit; labels], term),
        of,
    }
}

/// Forces and lifts in turn around a gate: as deep as there are entries.
pub fn forced_lifts(terms: usize) -> Typed {
    let term = levels((terms - 1) / 2, gate(0), |inside, _| force(lift(inside)));
    if terms % 2 == 1 {
        typed(0, term, one_qubit())
    } else {
        typed(0, lift(term), reusable(one_qubit()))
    }
}

/// Gates applied, one to the result of the other.
pub fn applies(terms: usize) -> Typed {
    let term = levels((terms - 1) / 2, label(0), |inside, level| {
        apply(gate(level % 5), inside)
    });
    typed(1, term, qubit())
}

/// Abstractions applied, one to the result of the other.
pub fn applications(terms: usize) -> Typed {
    let term = levels((terms - 1) / 3, label(0), |inside, _| {
        application(abstraction(qubit(), variable(0)), inside)
    });
    typed(1, term, qubit())
}

/// A gate's two results bound, and taken by the next gate.
pub fn lets_in_second(terms: usize) -> Typed {
    let of = pair(qubit(), qubit());
    let count = terms.saturating_sub(3) / 6;
    let both = |level: usize| match level {
        0 => pair_of(label(0), label(1)),
        _ => pair_of(variable(1), variable(0)),
    };
    let term = levels(count, both(count), |inside, level| {
        let_in(apply(gate(CNOT), both(count - 1 - level)), inside)
    });
    typed(2, term, of)
}

/// A let whose first part is a let, and so on.
pub fn lets_in_first(terms: usize) -> Typed {
    let labels = pair_of(label(0), label(1));
    let term = levels(terms.saturating_sub(3) / 4, labels, |inside, _| {
        let_in(inside, pair_of(variable(0), variable(1)))
    });
    typed(2, term, pair(qubit(), qubit()))
}

/// A box whose function applies a box, and so on.
pub fn boxes(terms: usize) -> Typed {
    let count = terms.saturating_sub(1) / 5;
    let end = |level: usize| if level == 0 { label(0) } else { variable(0) };
    let term = levels(count, end(count), |inside, level| {
        let function = lift(abstraction(qubit(), inside));
        apply(boxed(qubit(), function), end(count - 1 - level))
    });
    typed(1, term, qubit())
}

/// Gates bound by lets, two at a time; the first of them is the result.
pub fn binders_of_lets(terms: usize) -> Typed {
    let count = (terms - 1) / 4;
    let last = if count == 0 {
        gate(0)
    } else {
        variable(2 * count - 1)
    };
    let term = levels(count, last, |inside, _| {
        let_in(pair_of(gate(0), gate(1)), inside)
    });
    typed(0, term, one_qubit())
}

/// Gates bound by applied abstractions; the first of them is the result.
pub fn binders_of_applications(terms: usize) -> Typed {
    let count = (terms - 1) / 3;
    let last = if count == 0 {
        gate(0)
    } else {
        variable(count - 1)
    };
    let term = levels(count, last, |inside, _| {
        application(abstraction(one_qubit(), inside), gate(0))
    });
    typed(0, term, one_qubit())
}

/// Reusable functions that take one another: each abstraction forces the
/// variable outside it.
pub fn functions_of_functions(terms: usize) -> Typed {
    let of = reusable(function(qubit(), qubit()));
    let count = terms.saturating_sub(9) / 8;
    let same = || abstraction(qubit(), variable(0));
    let last = application(force(variable(0)), label(0));
    let term = levels(count, last, |inside, _| {
        let next = lift(abstraction(
            qubit(),
            application(force(variable(1)), variable(0)),
        ));
        application(abstraction(of.clone(), inside), next)
    });
    let term = application(abstraction(of, term), lift(same()));
    typed(1, term, qubit())
}

/// A reusable function from a type to itself that calls another twice, and has it
/// once.
pub fn twice(of: &Rc<Type>, once: Rc<Term>) -> Rc<Term> {
    let call = |argument| application(force(variable(0)), argument);
    let over = reusable(function(of.clone(), of.clone()));
    let body = application(abstraction(over, call(call(variable(1)))), once);
    lift(abstraction(of.clone(), body))
}

/// A function that does nothing, called twice by one that is called twice, and
/// so on: many steps.
pub fn calls(doublings: usize) -> Typed {
    let same = lift(abstraction(qubit(), variable(0)));
    let function = levels(doublings, same, |once, _| twice(&qubit(), once));
    typed(1, application(force(function), label(0)), qubit())
}

/// Lifts of gates in pairs, with types near the bound at each let.
pub fn lifts_in_lets(terms: usize) -> Typed {
    const LIFTS: usize = 252;
    let lifted = |count: usize| levels(count, gate(0), |inside, _| lift(inside));
    let count = (terms - 1) / (2 * LIFTS + 4);
    let left = (terms - 1) % (2 * LIFTS + 4);
    let mut term = gate(0);
    if left >= 4 {
        let pairs = pair_of(lifted((left - 4) / 2), lifted((left - 4).div_ceil(2)));
        term = let_in(pairs, term);
    }
    let term = levels(count, term, |inside, _| {
        let_in(pair_of(lifted(LIFTS), lifted(LIFTS)), inside)
    });
    typed(0, term, one_qubit())
}

/// So many pairs of gates, each around the one before, with the type.
fn pairs_left(count: usize) -> Typed {
    typed(
        0,
        levels(count, gate(0), |inside, _| pair_of(inside, gate(1))),
        around(count, one_qubit(), |of| pair(of, one_qubit())),
    )
}

fn pairs_right(count: usize) -> Typed {
    typed(
        0,
        levels(count, gate(0), |inside, _| pair_of(gate(1), inside)),
        around(count, one_qubit(), |of| pair(one_qubit(), of)),
    )
}

/// So many lets that take the variable outside all of them apart, and drop
/// both halves.
fn taken_apart(count: usize) -> Rc<Term> {
    levels(count, gate(0), |inside, level| {
        let_in(variable(2 * (count - 1 - level)), inside)
    })
}

/// A deep pair of gates, used many times inside a lift. The largest type has
/// 512 entries.
pub fn pairs_in_a_lift(terms: usize) -> Typed {
    let of = pairs_left(126).of;
    let Some(left) = terms.checked_sub(3) else {
        return typed(0, gate(0), one_qubit());
    };
    let term = abstraction(of.clone(), lift(taken_apart(left / 2)));
    typed(0, term, function(of, reusable(one_qubit())))
}

/// The same outside of any lift, nested to the right.
pub fn pairs_used(terms: usize) -> Typed {
    let of = pairs_right(126).of;
    let Some(left) = terms.checked_sub(2) else {
        return typed(0, gate(0), one_qubit());
    };
    let term = abstraction(of.clone(), taken_apart(left / 2));
    typed(0, term, function(of, one_qubit()))
}

/// All 64 labels through gates, in one tuple nested to the right.
pub fn labels(terms: usize) -> Typed {
    let gates = terms.saturating_sub(2 * MOST_LABELS - 1) / 2;
    let wire = |number: usize| {
        let count = gates / MOST_LABELS + usize::from(number < gates % MOST_LABELS);
        levels(count, label(number), |inside, _| apply(gate(0), inside))
    };
    let wires: Vec<Rc<Term>> = (0..MOST_LABELS).map(wire).collect();
    typed(MOST_LABELS, in_a_row(&wires, pair_of), qubits(MOST_LABELS))
}

/// The first three labels.
fn three_labels() -> Rc<Term> {
    in_a_row(&[label(0), label(1), label(2)], pair_of)
}

/// CCX applied, one to the result of the other.
pub fn applies_on_three(terms: usize) -> Typed {
    let count = terms.saturating_sub(5) / 2;
    let term = levels(count, three_labels(), |inside, _| apply(gate(CCX), inside));
    typed(3, term, qubits(3))
}

/// The three results of CCX bound by two lets, and taken by the next one in another
/// order.
pub fn lets_on_three(terms: usize) -> Typed {
    let count = terms.saturating_sub(5) / 10;
    let all = |level: usize| match level {
        0 => three_labels(),
        _ => in_a_row(&[variable(0), variable(3), variable(1)], pair_of),
    };
    let term = levels(count, all(count), |inside, level| {
        let made = apply(gate(CCX), all(count - 1 - level));
        let_in(made, let_in(variable(0), inside))
    });
    typed(3, term, qubits(3))
}

/// A box at three Qubits whose function applies a box, and so on; the innermost one
/// has a CCX.
pub fn boxes_on_three(terms: usize) -> Typed {
    let count = terms.saturating_sub(7) / 5;
    let end = |level: usize| {
        if level == 0 {
            three_labels()
        } else {
            variable(0)
        }
    };
    let inside = apply(gate(CCX), end(count));
    let term = levels(count, inside, |inside, level| {
        let function = lift(abstraction(qubits(3), inside));
        apply(boxed(qubits(3), function), end(count - 1 - level))
    });
    typed(3, term, qubits(3))
}

/// Three wires through so many CCX, by functions that call the one inside them twice.
fn through_ccx(count: usize, wires: Rc<Term>) -> Rc<Term> {
    let of = qubits(3);
    let mut function = lift(abstraction(of.clone(), apply(gate(CCX), variable(0))));
    let mut term = wires;
    let mut left = count;
    while left > 0 {
        if left % 2 == 1 {
            term = application(force(function.clone()), term);
        }
        function = twice(&of, function);
        left /= 2;
    }
    term
}

/// As many labels as there can be, three of them through CCX, with some Qubits from
/// Init among the outputs, and as many gates as there can be. All gates are in the
/// one open circuit.
fn most_gates(inits: usize) -> Typed {
    let gates = through_ccx(MOST_GATES - inits, three_labels());
    let mut wires = vec![variable(3), variable(1), variable(0)];
    wires.extend((3..MOST_LABELS).map(label));
    wires.resize(MOST_LABELS + inits, apply(gate(INIT), unit_value()));
    let of = qubits(wires.len());
    let result = in_a_row(&wires, pair_of);
    typed(MOST_LABELS, let_in(gates, let_in(variable(0), result)), of)
}

/// As many wires as a run can make.
pub fn most_wires() -> Typed {
    most_gates(0)
}

/// The longest listing that a run can write.
pub fn longest_listing() -> Typed {
    most_gates(MOST_LEAVES - MOST_LABELS)
}

/// A Qubit that comes, is measured and goes.
fn helper(unit: Rc<Term>) -> Rc<Term> {
    apply(gate(DISCARD), apply(gate(MEAS), apply(gate(INIT), unit)))
}

/// Qubits that come and go, one after the other.
pub fn helpers(terms: usize) -> Typed {
    let term = levels((terms - 1) / 6, unit_value(), |inside, _| helper(inside));
    typed(0, term, unit())
}

/// A box at unit whose function applies a box at unit, and so on.
pub fn boxes_at_unit(terms: usize) -> Typed {
    let count = terms.saturating_sub(1) / 5;
    let end = |level: usize| {
        if level == 0 {
            unit_value()
        } else {
            variable(0)
        }
    };
    let term = levels(count, end(count), |inside, level| {
        let function = lift(abstraction(unit(), inside));
        apply(boxed(unit(), function), end(count - 1 - level))
    });
    typed(0, term, unit())
}

/// Units bound by applied abstractions; the first of them is used inside a lift
/// and outside.
pub fn binders_of_units(terms: usize) -> Typed {
    let count = terms.saturating_sub(7) / 3;
    if count == 0 {
        return typed(0, unit_value(), unit());
    }
    let first = || variable(count - 1);
    let last = pair_of(force(lift(first())), pair_of(first(), unit_value()));
    let term = levels(count, last, |inside, _| {
        application(abstraction(unit(), inside), unit_value())
    });
    typed(0, term, pair(unit(), pair(unit(), unit())))
}

/// The most leaves of a type.
const MOST_LEAVES: usize = 256;

/// As many leaves in a tuple as there can be, nested to the left or to the right,
/// each of them this term.
fn leaves(to_the_left: bool, leaf: &Rc<Term>, of: &Rc<Type>) -> Typed {
    let others = MOST_LEAVES - 1;
    let term = levels(others, leaf.clone(), |inside, _| match to_the_left {
        true => pair_of(inside, leaf.clone()),
        false => pair_of(leaf.clone(), inside),
    });
    let of = around(others, of.clone(), |inside| match to_the_left {
        true => pair(inside, of.clone()),
        false => pair(of.clone(), inside),
    });
    typed(0, term, of)
}

/// A result of 256 Qubits that all come from Init.
pub fn most_outputs() -> Typed {
    leaves(false, &apply(gate(INIT), unit_value()), &qubit())
}

/// A result of 256 leaves: Qubits from Init, values of unit and units of which a
/// Qubit has gone, in turn.
pub fn some_outputs() -> Typed {
    let leaf = |at: usize| match at % 3 {
        0 => (apply(gate(INIT), unit_value()), qubit()),
        1 => (unit_value(), unit()),
        _ => (helper(unit_value()), unit()),
    };
    let (mut term, mut of) = leaf(0);
    for at in 1..MOST_LEAVES {
        let (next, of_next) = leaf(at);
        (term, of) = (pair_of(next, term), pair(of_next, of));
    }
    typed(0, term, of)
}

/// All 64 labels are Bits that go, and for each of them a Qubit comes.
fn in_place_of_bits() -> Typed {
    let wire = |number: usize| apply(gate(INIT), apply(gate(DISCARD), label(number)));
    let (mut term, mut of) = (wire(0), qubit());
    for number in 1..MOST_LABELS {
        (term, of) = (pair_of(term, wire(number)), pair(of, qubit()));
    }
    Typed {
        program: Program::new(vec![Wire::Bit; MOST_LABELS], term),
        of,
    }
}

/// All of them with about so many entries, and their names.
pub fn all(terms: usize) -> Vec<(&'static str, Typed)> {
    vec![
        ("forced lifts", forced_lifts(terms)),
        ("gates applied to gates", applies(terms)),
        ("abstractions applied", applications(terms)),
        ("lets inside lets' second parts", lets_in_second(terms)),
        ("lets inside lets' first parts", lets_in_first(terms)),
        ("boxes inside boxes", boxes(terms)),
        ("binders of lets", binders_of_lets(terms)),
        ("binders of applications", binders_of_applications(terms)),
        (
            "functions that take functions",
            functions_of_functions(terms),
        ),
        ("lifts in lets", lifts_in_lets(terms)),
        ("64 labels", labels(terms)),
        ("pairs of gates in a lift", pairs_in_a_lift(terms)),
        ("pairs of gates used", pairs_used(terms)),
        ("Qubits that come and go", helpers(terms)),
        ("boxes at unit inside boxes", boxes_at_unit(terms)),
        ("units bound", binders_of_units(terms)),
        ("CCX applied to CCX", applies_on_three(terms)),
        ("CCX in lets", lets_on_three(terms)),
        ("boxes at three Qubits inside boxes", boxes_on_three(terms)),
    ]
}

/// Those that a type of 512 entries bounds.
pub fn at_the_type_bound() -> Vec<(&'static str, Typed)> {
    let over = reusable(Wire::Bit.as_type());
    let lifts = |count: usize| {
        typed(
            0,
            levels(count, gate(0), |inside, _| lift(inside)),
            around(count, one_qubit(), reusable),
        )
    };
    let abstractions = |count: usize| {
        typed(
            0,
            levels(count, gate(0), |inside, _| {
                abstraction(over.clone(), inside)
            }),
            around(count, one_qubit(), |of| function(over.clone(), of)),
        )
    };
    let curried = levels(127, gate(0), |inside, _| abstraction(one_qubit(), inside));
    let called = levels(127, curried, |inside, _| application(inside, gate(1)));
    let deep = around(507, Wire::Bit.as_type(), reusable);
    let deep_over = abstraction(deep.clone(), gate(0));
    vec![
        ("lifts", lifts(509)),
        ("pairs to the left", pairs_left(127)),
        ("pairs to the right", pairs_right(127)),
        ("abstractions", abstractions(169)),
        ("applications to the left", typed(0, called, one_qubit())),
        (
            "a deep variable",
            typed(0, deep_over, function(deep, one_qubit())),
        ),
        ("lifts as an argument", as_argument(lifts(504))),
        (
            "pairs to the left as an argument",
            as_argument(pairs_left(126)),
        ),
        (
            "pairs to the right as an argument",
            as_argument(pairs_right(126)),
        ),
        (
            "abstractions as an argument",
            as_argument(abstractions(168)),
        ),
        ("units to the left", leaves(true, &unit_value(), &unit())),
        ("units to the right", leaves(false, &unit_value(), &unit())),
        (
            "units in a lift",
            lifted(leaves(false, &unit_value(), &unit())),
        ),
        ("256 outputs", most_outputs()),
        ("256 leaves, some of them outputs", some_outputs()),
        ("a box at units only", box_at_units(127)),
        ("Bits that go, Qubits that come", in_place_of_bits()),
        ("a box to 255 Qubits", widest_box(|_| false)),
        (
            "a box to 255 leaves, some of them units",
            widest_box(|at| at % 3 == 1),
        ),
        ("the longest listing", longest_listing()),
    ]
}

fn lifted(inside: Typed) -> Typed {
    let of = reusable(inside.of);
    typed(0, lift(inside.program.term), of)
}

/// A box whose input and result are so many pairs of units and of nothing else,
/// applied. Its lift has a type of 512 entries with 127 pairs; its abstraction is
/// node 3.
pub fn box_at_units(pairs: usize) -> Typed {
    let of = around(pairs, unit(), |of| pair(of, unit()));
    let argument = levels(pairs, unit_value(), |inside, _| {
        pair_of(inside, unit_value())
    });
    let function = lift(abstraction(of.clone(), variable(0)));
    typed(0, apply(boxed(of.clone(), function), argument), of)
}

/// A box at unit with as large a result as there can be, of Qubits from Init and of
/// units, applied.
fn widest_box(is_unit: fn(usize) -> bool) -> Typed {
    let leaf = |at: usize| match is_unit(at) {
        true => (variable(0), unit()),
        false => (apply(gate(INIT), variable(0)), qubit()),
    };
    let (mut body, mut of) = leaf(0);
    for at in 1..MOST_LEAVES - 1 {
        let (next, of_next) = leaf(at);
        (body, of) = (pair_of(body, next), pair(of, of_next));
    }
    let function = lift(abstraction(unit(), body));
    typed(0, apply(boxed(unit(), function), unit_value()), of)
}

fn around(count: usize, of: Rc<Type>, level: impl Fn(Rc<Type>) -> Rc<Type>) -> Rc<Type> {
    (0..count).fold(of, |of, _| level(of))
}

/// The lifted program is the argument of an abstraction that drops it.
fn as_argument(argument: Typed) -> Typed {
    let over = reusable(argument.of);
    let term = application(abstraction(over, gate(0)), lift(argument.program.term));
    typed(0, term, one_qubit())
}
