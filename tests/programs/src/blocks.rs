//! Programs that build circuits block by block, from a seed: gates, boxes and
//! reusable functions, each bound to a variable and used later, inside further
//! boxes too, until all wires are given back in any order.

use crate::rules::{copyable, MOST_ENTRIES};
use crate::sequent::{Held, Name};
use crate::terms;
use crate::typed::Typed;
use crate::types::{
    circuit, function, pair, paired, reusable, shuffle, unit, wire_type_with_units,
};
use program_files::{Program, Random, Term, Type, Wire, GATES};
use std::rc::Rc;

#[derive(Clone, PartialEq, Eq, Debug)]
pub struct Plan {
    pub labels: usize,
    /// So many actions in all blocks together, about.
    pub actions: usize,
    /// At most so many boxes inside each other.
    pub boxes: usize,
    /// Whether each block opens with a box that gets most of the actions.
    pub deep: bool,
    /// Whether wires come from Init and go to Discard, and units stand in tuples.
    pub helpers: bool,
}

const CNOT: usize = 5;
const MEAS: usize = 6;
const BX: usize = 7;
const INIT: usize = 9;
const DISCARD: usize = 10;
const CCX: usize = 11;

/// A program of the plan and its type, a wire type. Wires that come several times
/// can make a type too large: then another is made.
pub fn blocks(random: &mut Random, plan: &Plan) -> Typed {
    loop {
        if let Some(typed) = some_blocks(random, plan) {
            return typed;
        }
    }
}

fn some_blocks(random: &mut Random, plan: &Plan) -> Option<Typed> {
    let labels: Vec<Wire> = (0..plan.labels).map(|_| mostly_qubit(random)).collect();
    let mut hand = Hand::default();
    for (number, wire) in labels.iter().enumerate() {
        hand.held.push(Held {
            name: Name::Label(number),
            of: wire.as_type(),
        });
    }
    let mut builder = Builder {
        random,
        plan,
        largest: 0,
    };
    let (term, of) = builder.block(hand, plan.actions);
    let fits = builder.largest.max(of.size()) <= MOST_ENTRIES;
    fits.then(|| Typed {
        program: Program::new(labels, term),
        of,
    })
}

/// A program that closes a circuit with so many inputs, at most 127, which is
/// built block by block and not used. Once in so many times an input is unit;
/// none if a type would be too large.
pub fn wide(random: &mut Random, leaves: usize, units: usize, plan: &Plan) -> Option<Typed> {
    let inputs: Vec<Rc<Type>> = (0..leaves)
        .map(|_| match random.one_in(units) {
            true => unit(),
            false => mostly_qubit(random).as_type(),
        })
        .collect();
    let others = inputs[1..].iter().cloned();
    let from = match random.below(3) {
        0 => others.fold(inputs[0].clone(), pair),
        1 => others.fold(inputs[0].clone(), |of, input| pair(input, of)),
        _ => paired(random, &inputs),
    };
    let mut hand = Hand::default();
    hand.bind(&from);
    hand.boxes = 1;
    let mut builder = Builder {
        random,
        plan,
        largest: 0,
    };
    let (body, to) = builder.block(hand, plan.actions);
    builder.sized(&reusable(function(from.clone(), to.clone())));
    let fits = builder.largest <= MOST_ENTRIES;
    let part = terms::lift(terms::abstraction(from.clone(), body));
    let boxed = terms::boxed(from.clone(), part);
    let unused = terms::abstraction(circuit(from, to), terms::label(0));
    fits.then(|| Typed {
        program: Program::new(vec![Wire::Qubit], terms::application(unused, boxed)),
        of: Wire::Qubit.as_type(),
    })
}

fn mostly_qubit(random: &mut Random) -> Wire {
    match random.below(4) {
        0 => Wire::Bit,
        _ => Wire::Qubit,
    }
}

/// What can be used, under so many binders and inside so many boxes.
#[derive(Clone, Default)]
struct Hand {
    binders: usize,
    boxes: usize,
    /// Whether this block has a box of its own.
    has_box: bool,
    held: Vec<Held>,
}

impl Hand {
    fn leaf(&self, held: &Held) -> Rc<Term> {
        match held.name {
            Name::Label(number) => terms::label(number),
            Name::Variable(number) => terms::variable(self.binders - 1 - number),
        }
    }

    fn bind(&mut self, of: &Rc<Type>) {
        self.held.push(Held {
            name: Name::Variable(self.binders),
            of: of.clone(),
        });
        self.binders += 1;
    }

    /// What a lift may use, and a variable of this type.
    fn inside(&self, of: &Rc<Type>) -> Hand {
        let mut hand = self.clone();
        hand.held.retain(|held| copyable(&held.of));
        hand.bind(of);
        hand.has_box = false;
        hand
    }

    /// Wires of these types, any of those in hand, which are taken out of it;
    /// none if there are too few.
    fn take(&mut self, random: &mut Random, wires: &[Wire]) -> Option<Vec<Held>> {
        let mut left = self.held.clone();
        shuffle(random, &mut left);
        let mut taken = Vec::new();
        for wire in wires {
            let at = left.iter().position(|held| held.of == wire.as_type())?;
            taken.push(left.swap_remove(at));
        }
        let is_taken = |held: &Held| taken.iter().any(|other| other.name == held.name);
        self.held.retain(|held| !is_taken(held));
        Some(taken)
    }
}

/// The wires of a wire type, left to right.
fn wires(of: &Type) -> Vec<Wire> {
    match of {
        Type::Bit => vec![Wire::Bit],
        Type::Qubit => vec![Wire::Qubit],
        other => other
            .parts()
            .into_iter()
            .flat_map(|part| wires(part))
            .collect(),
    }
}

/// What a circuit or a reusable function takes.
fn taken_by(held: &Held) -> Option<Rc<Type>> {
    match &*held.of {
        Type::Circuit(from, _) => Some(from.clone()),
        Type::Reusable(part) => match &**part {
            Type::Circuit(from, _) | Type::Function(from, _) => Some(from.clone()),
            _ => None,
        },
        _ => None,
    }
}

/// No pair that may be copied has more entries than this.
const MOST_PAIRED: usize = 60;

/// A term that can be used, with its type.
type Made = (Rc<Term>, Rc<Type>);

struct Builder<'a> {
    random: &'a mut Random,
    plan: &'a Plan,
    /// How many entries the largest type of a node has that is not part of
    /// another one.
    largest: usize,
}

impl Builder<'_> {
    /// Takes note of the size of a node's type.
    fn sized(&mut self, of: &Type) {
        self.largest = self.largest.max(of.size());
    }

    /// A term that uses every wire in hand, after so many actions.
    fn block(&mut self, mut hand: Hand, actions: usize) -> Made {
        let is_wires = |held: &Held| matches!(*held.of, Type::Pair(..)) && !copyable(&held.of);
        if let Some(at) = hand.held.iter().position(is_wires) {
            let leaf = hand.leaf(&hand.held[at]);
            let held = hand.held.remove(at);
            return self.bind((leaf, held.of), hand, actions);
        }
        if actions == 0 {
            return self.all_wires(&hand);
        }
        if self.plan.deep && !hand.has_box && hand.boxes < self.plan.boxes {
            return self.new_box(hand, actions);
        }
        for _ in 0..8 {
            let made = match self.random.below(20) {
                0..=2 => self.gate(&mut hand),
                3 | 4 if hand.boxes < self.plan.boxes => return self.new_box(hand, actions),
                5 => return self.new_function(hand, actions),
                6 => self.crossed(&mut hand),
                7 => self.closure(&mut hand),
                8 | 9 => self.paired(&hand),
                10..=12 if self.plan.helpers => self.helper(&mut hand),
                13 if self.plan.helpers => Some((self.some_unit(&hand), unit())),
                _ => self.use_held(&mut hand),
            };
            if let Some(made) = made {
                // Pairs that may be copied take no action away from the wires.
                let is_free = matches!(*made.1, Type::Pair(..)) && copyable(&made.1);
                return self.bind(made, hand, actions - usize::from(!is_free));
            }
        }
        self.all_wires(&hand)
    }

    /// The rest of the block with this bound.
    fn bind(&mut self, (term, of): Made, mut hand: Hand, actions: usize) -> Made {
        if let Type::Pair(first, second) = &*of {
            let whole = if copyable(&of) { 2 } else { 8 };
            if !self.random.one_in(whole) {
                hand.bind(first);
                hand.bind(second);
                let (body, to) = self.block(hand, actions);
                return (terms::let_in(term, body), to);
            }
        }
        hand.bind(&of);
        let (body, to) = self.block(hand, actions);
        self.sized(&function(of.clone(), to.clone()));
        let bound = terms::application(terms::abstraction(of, body), term);
        (bound, to)
    }

    /// All wires in hand as a tuple, in any order.
    fn all_wires(&mut self, hand: &Hand) -> Made {
        let mut held: Vec<Held> = hand.held.clone();
        held.retain(|held| held.of.is_wire_type() && !copyable(&held.of));
        if self.random.one_in(2) {
            shuffle(self.random, &mut held);
        }
        let wires: Vec<Wire> = held.iter().flat_map(|held| wires(&held.of)).collect();
        let of = self.type_of(&wires);
        (self.tuple(hand, &of, &mut held.iter()), of)
    }

    /// A wire type with these wires, and with units where there are such.
    fn type_of(&mut self, wires: &[Wire]) -> Rc<Type> {
        let units = match self.plan.helpers {
            true => self.random.pick(&[0, 0, 0, 1, 2]),
            false => 0,
        };
        wire_type_with_units(self.random, wires, units)
    }

    /// These wires as a tuple of a wire type, left to right, and a unit for each
    /// that the type has.
    fn tuple<'a>(
        &mut self,
        hand: &Hand,
        of: &Type,
        wires: &mut impl Iterator<Item = &'a Held>,
    ) -> Rc<Term> {
        match of {
            Type::Pair(first, second) => {
                let first = self.tuple(hand, first, wires);
                terms::pair(first, self.tuple(hand, second, wires))
            }
            Type::Unit => self.some_unit(hand),
            _ => hand.leaf(wires.next().expect("a wire for each")),
        }
    }

    /// A variable of unit, or its value.
    fn some_unit(&mut self, hand: &Hand) -> Rc<Term> {
        let held = hand.held.iter().filter(|held| *held.of == Type::Unit);
        let held: Vec<&Held> = held.collect();
        match held.is_empty() || self.random.one_in(3) {
            true => terms::unit_value(),
            false => hand.leaf(held[self.random.below(held.len())]),
        }
    }

    /// A Qubit that comes and goes: one of those in hand has a CNOT onto it, it is
    /// measured, an X is done under its Bit, and that goes.
    fn helper(&mut self, hand: &mut Hand) -> Option<Made> {
        let wire = hand.take(self.random, &[Wire::Qubit])?;
        let new = terms::apply(terms::gate(INIT), self.some_unit(hand));
        let both = terms::pair(hand.leaf(&wire[0]), new);
        let parity = terms::apply(terms::gate(CNOT), both);
        let measured = terms::apply(terms::gate(MEAS), terms::variable(0));
        let under = terms::pair(measured, terms::variable(1));
        let corrected = terms::apply(terms::gate(BX), under);
        let gone = terms::apply(terms::gate(DISCARD), terms::variable(1));
        let result = terms::pair(gone, terms::variable(0));
        let term = terms::let_in(parity, terms::let_in(corrected, result));
        Some((term, pair(unit(), Wire::Qubit.as_type())))
    }

    /// A wire type with some of the wires in hand, one that a circuit or a function in
    /// hand takes, or one with the wires for CCX.
    fn some_type(&mut self, hand: &Hand) -> Rc<Type> {
        if self.random.one_in(5) {
            return self.type_of(GATES[CCX].takes);
        }
        let taken: Vec<Rc<Type>> = hand.held.iter().filter_map(taken_by).collect();
        if !taken.is_empty() && self.random.one_in(2) {
            return taken[self.random.below(taken.len())].clone();
        }
        let in_hand = hand.held.iter().filter(|held| held.of.is_wire_type());
        let mut some: Vec<Wire> = in_hand.flat_map(|held| wires(&held.of)).collect();
        shuffle(self.random, &mut some);
        let least = match self.plan.helpers && self.random.one_in(4) {
            true => 0,
            false => 1,
        };
        some.truncate(self.random.between(least, 4));
        if self.random.one_in(8) {
            some.push(mostly_qubit(self.random));
        }
        self.type_of(&some)
    }

    /// A gate, more often than others the one that needs three wires in hand.
    fn gate(&mut self, hand: &mut Hand) -> Option<Made> {
        let number = match self.random.below(6) {
            0 => CCX,
            _ => self.random.below(GATES.len()),
        };
        if GATES[number].is_helper() && !self.plan.helpers {
            return None;
        }
        let Type::Circuit(from, to) = &*GATES[number].circuit_type() else {
            unreachable!("a gate is a circuit");
        };
        let argument = self.argument(hand, from)?;
        Some((terms::apply(terms::gate(number), argument), to.clone()))
    }

    /// A tuple of this wire type from wires in hand.
    fn argument(&mut self, hand: &mut Hand, of: &Rc<Type>) -> Option<Rc<Term>> {
        let taken = hand.take(self.random, &wires(of))?;
        Some(self.tuple(hand, of, &mut taken.iter()))
    }

    /// A new box, bound to a variable or applied at once. Its function gets a
    /// share of the actions.
    fn new_box(&mut self, mut hand: Hand, actions: usize) -> Made {
        let from = self.some_type(&hand);
        let mut inside = hand.inside(&from);
        inside.boxes += 1;
        let share = match self.plan.deep && !hand.has_box {
            true => actions - actions.div_ceil(4),
            false => self.random.below(actions),
        };
        hand.has_box = true;
        let (body, to) = self.block(inside, share);
        self.sized(&reusable(function(from.clone(), to.clone())));
        let part = terms::lift(terms::abstraction(from.clone(), body));
        let boxed = terms::boxed(from.clone(), part);
        let left = actions - 1 - share.min(actions - 1);
        if self.random.one_in(4) {
            if let Some(argument) = self.argument(&mut hand, &from) {
                return self.bind((terms::apply(boxed, argument), to), hand, left);
            }
        }
        match self.random.below(6) {
            0 => {
                let of = reusable(circuit(from, to));
                self.bind((terms::lift(boxed), of), hand, left)
            }
            _ => self.bind((boxed, circuit(from, to)), hand, left),
        }
    }

    /// A new reusable function, bound to a variable.
    fn new_function(&mut self, hand: Hand, actions: usize) -> Made {
        let from = self.some_type(&hand);
        let share = self.random.below(actions);
        let (body, to) = self.block(hand.inside(&from), share);
        let part = terms::lift(terms::abstraction(from.clone(), body));
        let of = reusable(function(from, to));
        self.sized(&of);
        self.bind((part, of), hand, actions - 1 - share.min(actions - 1))
    }

    /// Two wires as a pair, to be taken apart.
    fn crossed(&mut self, hand: &mut Hand) -> Option<Made> {
        let two = [mostly_qubit(self.random), mostly_qubit(self.random)];
        let of = pair(two[0].as_type(), two[1].as_type());
        Some((self.argument(hand, &of)?, of))
    }

    /// A function that holds a wire, applied to others.
    fn closure(&mut self, hand: &mut Hand) -> Option<Made> {
        let from = self.some_type(hand);
        let mut left = hand.clone();
        let argument = self.argument(&mut left, &from)?;
        let wire = mostly_qubit(self.random);
        let kept = left.take(self.random, &[wire])?;
        let mut inside = hand.inside(&from);
        inside.held.extend(kept);
        let (body, to) = self.block(inside, 1);
        *hand = left;
        self.sized(&function(from.clone(), to.clone()));
        let closure = terms::abstraction(from, body);
        Some((terms::application(closure, argument), to))
    }

    /// Two that may be copied as a pair, which may be copied too.
    fn paired(&mut self, hand: &Hand) -> Option<Made> {
        let (one, other) = (self.copied(hand)?, self.copied(hand)?);
        let of = pair(one.of.clone(), other.of.clone());
        let term = terms::pair(hand.leaf(&one), hand.leaf(&other));
        (of.size() <= MOST_PAIRED).then_some((term, of))
    }

    /// One of those in hand that may be copied.
    fn copied(&mut self, hand: &Hand) -> Option<Held> {
        let mut held = hand.held.clone();
        held.retain(|held| copyable(&held.of));
        if held.is_empty() {
            return None;
        }
        // Those bound outside stand first.
        let at = match self.random.below(2) {
            0 => 0,
            _ => self.random.below(held.len()),
        };
        Some(held.swap_remove(at))
    }

    /// A circuit or a reusable in hand is applied, boxed, lifted or doubled,
    /// and a pair of such is taken apart or lifted.
    fn use_held(&mut self, hand: &mut Hand) -> Option<Made> {
        let held = self.copied(hand)?;
        let leaf = hand.leaf(&held);
        match &*held.of {
            Type::Pair(..) if self.random.one_in(6) => {
                Some((terms::lift(leaf), reusable(held.of.clone())))
            }
            Type::Pair(..) => Some((leaf, held.of)),
            Type::Circuit(..) if self.random.one_in(12) => {
                Some((terms::lift(leaf), reusable(held.of.clone())))
            }
            Type::Circuit(from, to) => {
                let argument = self.argument(hand, from)?;
                Some((terms::apply(leaf, argument), to.clone()))
            }
            Type::Reusable(part) => self.use_reusable(hand, leaf, part),
            _ => None,
        }
    }

    fn use_reusable(&mut self, hand: &mut Hand, leaf: Rc<Term>, part: &Rc<Type>) -> Option<Made> {
        match &**part {
            Type::Pair(..) => Some((terms::force(leaf), part.clone())),
            Type::Circuit(from, to) => {
                let argument = self.argument(hand, from)?;
                Some((terms::apply(terms::force(leaf), argument), to.clone()))
            }
            Type::Function(from, to) => match self.random.below(6) {
                0 if hand.boxes < self.plan.boxes => {
                    let of = circuit(from.clone(), to.clone());
                    Some((terms::boxed(from.clone(), leaf), of))
                }
                1 if from == to => {
                    let of = reusable(function(from.clone(), to.clone()));
                    self.sized(&function(of.clone(), of.clone()));
                    Some((twice(leaf, from), of))
                }
                _ => {
                    let argument = self.argument(hand, from)?;
                    Some((terms::application(terms::force(leaf), argument), to.clone()))
                }
            },
            _ => None,
        }
    }
}

/// The reusable function that calls one twice, which a function of functions
/// makes of it.
fn twice(once: Rc<Term>, of: &Rc<Type>) -> Rc<Term> {
    let call = |argument| terms::application(terms::force(terms::variable(1)), argument);
    let body = call(call(terms::variable(0)));
    let double = terms::lift(terms::abstraction(of.clone(), body));
    let over = reusable(function(of.clone(), of.clone()));
    terms::application(terms::abstraction(over, double), once)
}
