//! The plain term of a sequent: pairs are taken apart, functions called, and
//! the goal is put together from what there is.

use crate::rules::MOST_ENTRIES;
use crate::sequent::{is_function, is_pair, Held, Sequent};
use crate::terms::{
    abstraction, application, apply, boxed, force, gate, let_in, lift, pair, unit_value,
};
use crate::types::{function, pieces, reusable, unit};
use program_files::{Random, Term, Type, GATES};
use std::rc::Rc;

const MEAS: usize = 6;
const INIT: usize = 9;
const DISCARD: usize = 10;

/// None if this way leads to no term.
pub fn plain(sequent: &Sequent, random: &mut Random) -> Option<Rc<Term>> {
    if let [only] = sequent.linear.as_slice() {
        if only.of == sequent.goal {
            return Some(sequent.leaf(only));
        }
    }
    if let Some(at) = sequent.linear.iter().position(|held| is_pair(&held.of)) {
        let (held, rest) = sequent.take(at);
        return bind(sequent.leaf(&held), &held.of, &rest, random);
    }
    if let Some(held) = sequent.closed.last() {
        return open_pair(sequent, held, random);
    }
    if sequent.linear.is_empty() {
        if let Some(source) = sequent.source(&sequent.goal) {
            return Some(force(sequent.leaf(source)));
        }
    }
    if let Type::Function(from, to) = &*sequent.goal {
        let body = plain(&sequent.bind(from).with_goal(to), random)?;
        return Some(abstraction(from.clone(), body));
    }
    let others = uncalled(sequent);
    if !others.is_empty() {
        return call_one(sequent, &others, random);
    }
    match &*sequent.goal {
        Type::Pair(first, second) => {
            let known = sequent.variable(&sequent.goal);
            if known.is_some() && sequent.linear.is_empty() && random.one_in(2) {
                return known.map(|held| sequent.leaf(held));
            }
            let (given, rest) = sequent.share(first)?;
            let first = plain(&sequent.with(given, first), random)?;
            let second = plain(&sequent.with(rest, second), random)?;
            Some(pair(first, second))
        }
        Type::Bit if is_one_qubit(sequent) => {
            let leaf = sequent.leaf(&sequent.linear[0]);
            Some(apply(gate(MEAS), leaf))
        }
        Type::Qubit if may_come(sequent) => Some(new_qubit(sequent, random)),
        Type::Bit if may_come(sequent) => {
            let qubit = new_qubit(sequent, random);
            Some(apply(gate(MEAS), qubit))
        }
        Type::Unit if sequent.linear.is_empty() => Some(some_unit(sequent, random)),
        Type::Bit | Type::Qubit | Type::Unit => drop_first(sequent, random),
        Type::Reusable(_) | Type::Circuit(..) if !sequent.linear.is_empty() => {
            drop_first(sequent, random)
        }
        Type::Reusable(part) => {
            let known = sequent.variable(&sequent.goal);
            if known.is_some() && random.one_in(2) {
                return known.map(|held| sequent.leaf(held));
            }
            match plain(&sequent.with_goal(part), random) {
                Some(term) => Some(lift(term)),
                None => known.map(|held| sequent.leaf(held)),
            }
        }
        Type::Circuit(from, to) => {
            let mut known = gates_of(&sequent.goal);
            let variable = sequent.variable(&sequent.goal);
            known.extend(variable.map(|held| sequent.leaf(held)));
            if !known.is_empty() && random.one_in(2) {
                return Some(known.swap_remove(random.below(known.len())));
            }
            let of = reusable(function(from.clone(), to.clone()));
            match plain(&sequent.with_goal(&of), random) {
                Some(part) => Some(boxed(from.clone(), part)),
                None => known.pop(),
            }
        }
        Type::Function(..) => unreachable!("a function has an abstraction"),
    }
}

/// Takes a pair that may be copied and dropped apart, at times only where
/// there is no term without its halves.
fn open_pair(sequent: &Sequent, held: &Held, random: &mut Random) -> Option<Rc<Term>> {
    let mut rest = sequent.clone();
    if random.one_in(2) {
        rest.closed.clear();
        let term = plain(&rest, random);
        if term.is_some() {
            return term;
        }
        rest.closed = sequent.closed.clone();
    }
    rest.closed.pop();
    bind(sequent.leaf(held), &held.of, &rest, random)
}

/// The gates of this type.
fn gates_of(of: &Type) -> Vec<Rc<Term>> {
    (0..GATES.len())
        .filter(|&number| *GATES[number].circuit_type() == *of)
        .map(gate)
        .collect()
}

fn is_one_qubit(sequent: &Sequent) -> bool {
    matches!(sequent.linear.as_slice(), [only] if *only.of == Type::Qubit)
}

/// Whether Init has to make a wire, since none is in hand.
fn may_come(sequent: &Sequent) -> bool {
    sequent.helpers && sequent.linear.is_empty()
}

fn new_qubit(sequent: &Sequent, random: &mut Random) -> Rc<Term> {
    apply(gate(INIT), some_unit(sequent, random))
}

/// A variable of unit, or its value.
fn some_unit(sequent: &Sequent, random: &mut Random) -> Rc<Term> {
    match sequent.variable(&Type::Unit) {
        Some(held) if !random.one_in(3) => sequent.leaf(held),
        _ => unit_value(),
    }
}

/// The functions in hand that the goal does not ask for.
fn uncalled(sequent: &Sequent) -> Vec<usize> {
    let mut asked = pieces(&sequent.goal);
    let mut others = Vec::new();
    for (at, held) in sequent.linear.iter().enumerate() {
        if is_function(&held.of) {
            match asked.iter().position(|piece| *piece == held.of) {
                Some(piece) => {
                    asked.swap_remove(piece);
                }
                None => others.push(at),
            }
        }
    }
    others
}

/// Calls the first of these functions for which there is an argument.
fn call_one(sequent: &Sequent, functions: &[usize], random: &mut Random) -> Option<Rc<Term>> {
    for &at in functions {
        let (held, rest) = sequent.take(at);
        let Type::Function(from, to) = &*held.of else {
            unreachable!("a function is called");
        };
        let Some((given, left)) = rest.share(from) else {
            continue;
        };
        if let Some(argument) = plain(&rest.with(given, from), random) {
            let result = application(sequent.leaf(&held), argument);
            return bind(result, to, &rest.with(left, &sequent.goal), random);
        }
    }
    None
}

/// Gives the first wire in hand to a sink or to Discard; with none in hand there
/// is no term here.
fn drop_first(sequent: &Sequent, random: &mut Random) -> Option<Rc<Term>> {
    if sequent.linear.is_empty() {
        return None;
    }
    let (held, rest) = sequent.take(0);
    let discarded = match &*held.of {
        _ if !sequent.helpers => None,
        Type::Bit => Some(sequent.leaf(&held)),
        Type::Qubit => Some(apply(gate(MEAS), sequent.leaf(&held))),
        _ => None,
    };
    let sink = sequent.sink(&held.of);
    let discards = sink.is_none() || random.one_in(2);
    let (dropped, result) = match (discarded, sink) {
        (Some(bit), _) if discards => (apply(gate(DISCARD), bit), unit()),
        (_, Some((sink, result))) => {
            let sink = force(sequent.leaf(sink));
            (application(sink, sequent.leaf(&held)), result)
        }
        _ => return None,
    };
    bind(dropped, &result, &rest, random)
}

/// The rest, with a term of this type in hand.
fn bind(term: Rc<Term>, of: &Rc<Type>, rest: &Sequent, random: &mut Random) -> Option<Rc<Term>> {
    if rest.linear.is_empty() && *of == rest.goal {
        return Some(term);
    }
    let binding = Binding::new(of, rest);
    let body = plain(&binding.body(of, rest)?, random)?;
    Some(binding.bound(of, term, body))
}

/// How a term of some type comes into hand.
#[derive(Clone, Copy, PartialEq, Eq, Debug)]
pub enum Binding {
    /// A let takes it apart.
    Halves,
    /// An abstraction is applied to it.
    Abstraction,
    /// A let takes it and a gate apart: there is no large function type.
    WithGate,
    /// The types are too large for either.
    None,
}

impl Binding {
    pub fn new(of: &Type, rest: &Sequent) -> Binding {
        if is_pair(of) {
            Binding::Halves
        } else if 1 + of.size() + rest.goal.size() <= MOST_ENTRIES {
            Binding::Abstraction
        } else if of.size() + 4 <= MOST_ENTRIES {
            Binding::WithGate
        } else {
            Binding::None
        }
    }

    /// The rest with it in hand.
    pub fn body(self, of: &Rc<Type>, rest: &Sequent) -> Option<Sequent> {
        match (self, &**of) {
            (Binding::Halves, Type::Pair(first, second)) => Some(rest.bind_two(first, second)),
            (Binding::Abstraction, _) => Some(rest.bind(of)),
            (Binding::WithGate, _) => Some(rest.bind_two(of, &GATES[0].circuit_type())),
            _ => None,
        }
    }

    pub fn bound(self, of: &Rc<Type>, term: Rc<Term>, body: Rc<Term>) -> Rc<Term> {
        match self {
            Binding::Halves => let_in(term, body),
            Binding::Abstraction => application(abstraction(of.clone(), body), term),
            Binding::WithGate => let_in(pair(term, gate(0)), body),
            Binding::None => unreachable!("no body"),
        }
    }
}

/// Whether the plain way leads to a term.
pub fn fits(sequent: &Sequent, random: &mut Random) -> bool {
    plain(sequent, random).is_some()
}
