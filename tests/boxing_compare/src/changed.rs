//! Programs in which a spot is unboxed and something else is changed there: they
//! must be told from the one with the box.

use crate::spots::{Applied, Spotted};
use program_files::{Program, Term};
use programs::edit::{map_leaves, with_parts};
use programs::terms::{gate, let_in, pair, variable};
use std::rc::Rc;

/// What takes the place of a spot, by its number and what is applied there; none if
/// it has nothing to change.
pub type Change = fn(&Spotted, usize, &Applied) -> Option<Rc<Term>>;

pub const CHANGES: [(&str, Change); 9] = [
    ("another gate in the body", other_gate),
    ("a gate left out of the body", left_out),
    ("a gate left out of the argument", left_out_of_argument),
    ("the argument's halves exchanged", halves_exchanged),
    ("a let's variables exchanged in the body", let_exchanged),
    ("a variable around taken for the next one", next_variable),
    ("the abstraction not applied", not_applied),
    ("the abstraction applied twice", applied_twice),
    ("the abstraction of another spot applied", of_another_spot),
];

/// The program with this change at a spot, and the others boxed.
pub fn changed(spotted: &Spotted, spot: usize, change: Change) -> Option<Program> {
    let mut is_changed = false;
    let program = spotted.written(&mut |number, applied| {
        if number != spot {
            return applied.boxed();
        }
        let new = change(spotted, number, &applied);
        is_changed = new.is_some();
        new.unwrap_or_else(|| applied.unboxed())
    });
    is_changed.then_some(program)
}

/// The term with the first node changed, in file order, that can be.
fn first_changed(term: &Rc<Term>, change: &dyn Fn(&Term) -> Option<Rc<Term>>) -> Option<Rc<Term>> {
    if let Some(new) = change(term) {
        return Some(new);
    }
    let mut parts: Vec<Rc<Term>> = term.parts().into_iter().cloned().collect();
    for part in &mut parts {
        if let Some(new) = first_changed(part, change) {
            *part = new;
            return Some(Rc::new(with_parts(term, &parts)));
        }
    }
    None
}

fn with_body(applied: &Applied, body: Rc<Term>) -> Rc<Term> {
    let applied = applied.clone();
    Applied { body, ..applied }.unboxed()
}

fn with_argument(applied: &Applied, argument: Rc<Term>) -> Rc<Term> {
    let applied = applied.clone();
    Applied {
        argument,
        ..applied
    }
    .unboxed()
}

fn other_gate(_: &Spotted, _: usize, applied: &Applied) -> Option<Rc<Term>> {
    let body = first_changed(&applied.body, &|node| match node {
        Term::Gate(number @ 0..=4) => Some(gate(usize::from((number + 1) % 5))),
        Term::Gate(7) => Some(gate(8)),
        Term::Gate(8) => Some(gate(7)),
        _ => None,
    })?;
    Some(with_body(applied, body))
}

/// What a gate from one Qubit to one is applied to.
fn without_gate(node: &Term) -> Option<Rc<Term>> {
    match node {
        Term::Apply(circuit, argument) => match **circuit {
            Term::Gate(0..=4) => Some(argument.clone()),
            _ => None,
        },
        _ => None,
    }
}

fn left_out(_: &Spotted, _: usize, applied: &Applied) -> Option<Rc<Term>> {
    let body = first_changed(&applied.body, &without_gate)?;
    Some(with_body(applied, body))
}

fn left_out_of_argument(_: &Spotted, _: usize, applied: &Applied) -> Option<Rc<Term>> {
    let argument = first_changed(&applied.argument, &without_gate)?;
    Some(with_argument(applied, argument))
}

fn halves_exchanged(_: &Spotted, _: usize, applied: &Applied) -> Option<Rc<Term>> {
    let argument = first_changed(&applied.argument, &|node| match node {
        Term::Pair(first, second) => Some(pair(second.clone(), first.clone())),
        _ => None,
    })?;
    Some(with_argument(applied, argument))
}

fn let_exchanged(_: &Spotted, _: usize, applied: &Applied) -> Option<Rc<Term>> {
    let body = first_changed(&applied.body, &|node| match node {
        Term::Let(first, second) => {
            let second = map_leaves(second, 0, &mut |leaf, binders| match **leaf {
                Term::Variable(argument) if usize::from(argument) == binders => {
                    variable(binders + 1)
                }
                Term::Variable(argument) if usize::from(argument) == binders + 1 => {
                    variable(binders)
                }
                _ => leaf.clone(),
            });
            Some(let_in(first.clone(), second))
        }
        _ => None,
    })?;
    Some(with_body(applied, body))
}

fn next_variable(_: &Spotted, _: usize, applied: &Applied) -> Option<Rc<Term>> {
    let mut found = false;
    // The abstraction's own variable stands under one binder.
    let body = map_leaves(&applied.body, 1, &mut |leaf, binders| match **leaf {
        Term::Variable(argument) if usize::from(argument) >= binders => {
            found = true;
            variable(usize::from(argument) + 1)
        }
        _ => leaf.clone(),
    });
    found.then(|| with_body(applied, body))
}

/// Whether the abstraction could be applied to its own result.
fn is_to_itself(spotted: &Spotted, spot: usize) -> bool {
    spotted.spots[spot].takes == spotted.spots[spot].gives
}

fn not_applied(spotted: &Spotted, spot: usize, applied: &Applied) -> Option<Rc<Term>> {
    is_to_itself(spotted, spot).then(|| applied.argument.clone())
}

fn applied_twice(spotted: &Spotted, spot: usize, applied: &Applied) -> Option<Rc<Term>> {
    let once = || applied.clone().unboxed();
    is_to_itself(spotted, spot).then(|| with_argument(applied, once()))
}

/// One of the same types that uses nothing bound around it.
fn of_another_spot(spotted: &Spotted, spot: usize, applied: &Applied) -> Option<Rc<Term>> {
    let here = &spotted.spots[spot];
    let mut others = spotted.spots.iter().enumerate();
    let (_, other) = others.find(|&(number, other)| {
        let fits = other.takes == here.takes && other.gives == here.gives;
        number != spot && fits && !other.uses_around
    })?;
    Some(with_body(applied, other.body.clone()))
}
