//! Programs of given sizes whose files the reader accepts. They need not be
//! well typed.

use crate::random::Random;
use pqm::encode::{encode, Positions};
use pqm::entries::Entries;
use pqm::gates::GATES;
use pqm::kinds;
use pqm::trees::{Program, Term, Type, Wire};
use std::rc::Rc;

/// Which of two parts gets the entries.
#[derive(Clone, Copy, PartialEq, Eq, Debug)]
pub enum Lean {
    First,
    Second,
    Even,
    Any,
}

impl Lean {
    pub const ALL: [Lean; 4] = [Lean::First, Lean::Second, Lean::Even, Lean::Any];
}

/// How the type section is cut into types.
#[derive(Clone, Copy, PartialEq, Eq, Debug)]
pub enum Grouping {
    One,
    Small,
    Any,
}

impl Grouping {
    pub const ALL: [Grouping; 3] = [Grouping::One, Grouping::Small, Grouping::Any];
}

/// The sizes of a program and the kinds of its inner entries. Where none of
/// the kinds fits the number of entries left, another is taken.
#[derive(Clone, PartialEq, Eq, Debug)]
pub struct Shape {
    pub labels: usize,
    pub types: usize,
    pub terms: usize,
    pub type_kinds: Vec<u8>,
    pub term_kinds: Vec<u8>,
    pub lean: Lean,
    pub grouping: Grouping,
}

impl Shape {
    /// All kinds, and the sizes given.
    pub fn new(labels: usize, types: usize, terms: usize) -> Shape {
        Shape {
            labels,
            types,
            terms,
            type_kinds: kinds::TYPES_WITH_PARTS.to_vec(),
            term_kinds: kinds::TERMS_WITH_PARTS.to_vec(),
            lean: Lean::Any,
            grouping: Grouping::Any,
        }
    }

    /// Any kinds, and sizes at most those given.
    pub fn any(random: &mut Random, labels: usize, types: usize, terms: usize) -> Shape {
        Shape {
            labels: random.between(0, labels),
            types: random.between(0, types),
            terms: random.between(1, terms),
            type_kinds: some_of(random, &kinds::TYPES_WITH_PARTS),
            term_kinds: some_of(random, &kinds::TERMS_WITH_PARTS),
            lean: random.pick(&Lean::ALL),
            grouping: random.pick(&Grouping::ALL),
        }
    }
}

/// All of them half of the time, else each half of the time.
fn some_of(random: &mut Random, all: &[u8]) -> Vec<u8> {
    if random.one_in(2) {
        return all.to_vec();
    }
    all.iter().copied().filter(|_| random.one_in(2)).collect()
}

pub struct Generator<'a> {
    random: &'a mut Random,
    shape: &'a Shape,
    /// The types at all positions, and those that are wire types.
    types: Vec<Rc<Type>>,
    wire_types: Vec<Rc<Type>>,
}

impl<'a> Generator<'a> {
    /// A program of exactly the shape's sizes, if its types are shared.
    pub fn program(random: &'a mut Random, shape: &'a Shape) -> Program {
        let labels = (0..shape.labels).map(|_| any_wire(random)).collect();
        let mut generator = Generator {
            random,
            shape,
            types: Vec::new(),
            wire_types: Vec::new(),
        };
        let listed = generator.listed();
        for of in &listed {
            all_positions(of, &mut generator.types);
        }
        generator.wire_types = generator.types.clone();
        generator.wire_types.retain(|of| of.is_wire_type());
        let term = Rc::new(generator.term(shape.terms, 0));
        Program {
            labels,
            listed,
            term,
        }
    }

    /// A program and its entries, its types shared or not.
    pub fn entries(random: &mut Random, shape: &Shape) -> (Program, Entries) {
        let program = Generator::program(random, shape);
        let entries = match random.below(3) {
            0 => encode(&program, Positions::Fresh),
            1 => encode(&program, Positions::First),
            _ => None,
        };
        let mut any = |known: &[usize]| random.pick(known);
        let entries = entries.or_else(|| encode(&program, Positions::Any(&mut any)));
        (program, entries.expect("sizes in range"))
    }

    fn listed(&mut self) -> Vec<Rc<Type>> {
        let mut listed = Vec::new();
        let mut left = self.shape.types;
        while left > 0 {
            let size = match self.shape.grouping {
                Grouping::One => left,
                Grouping::Small => self.random.between(1, left.min(7)),
                Grouping::Any => self.random.between(1, left),
            };
            listed.push(Rc::new(self.any_type(size)));
            left -= size;
        }
        listed
    }

    /// A type of so many entries.
    fn any_type(&mut self, size: usize) -> Type {
        if size == 1 {
            return self.leaf_type();
        }
        let odd = size % 2 == 1;
        let fitting: Vec<u8> = self
            .shape
            .type_kinds
            .iter()
            .copied()
            .filter(|&kind| match kind {
                kinds::REUSABLE => true,
                kinds::CIRCUIT => odd,
                _ => size >= 3,
            })
            .collect();
        let kind = match fitting.as_slice() {
            [] if size == 2 => kinds::REUSABLE,
            [] => kinds::PAIR_TYPE,
            some => self.random.pick(some),
        };
        match kind {
            kinds::REUSABLE => Type::Reusable(Rc::new(self.any_type(size - 1))),
            kinds::CIRCUIT => {
                let (first, second) = self.split_odd(size - 1);
                Type::Circuit(self.wire_type(first), self.wire_type(second))
            }
            _ => {
                let (first, second) = self.split(size - 1);
                let first = Rc::new(self.any_type(first));
                let second = Rc::new(self.any_type(second));
                match kind {
                    kinds::FUNCTION => Type::Function(first, second),
                    _ => Type::Pair(first, second),
                }
            }
        }
    }

    /// A wire type of so many entries, an odd number.
    fn wire_type(&mut self, size: usize) -> Rc<Type> {
        if size == 1 {
            return Rc::new(self.leaf_type());
        }
        let (first, second) = self.split_odd(size - 1);
        Rc::new(Type::Pair(self.wire_type(first), self.wire_type(second)))
    }

    fn leaf_type(&mut self) -> Type {
        match self.random.below(5) {
            0 => Type::Unit,
            1 | 2 => Type::Bit,
            _ => Type::Qubit,
        }
    }

    /// Two numbers, at least 1 each, with this sum.
    fn split(&mut self, sum: usize) -> (usize, usize) {
        let first = match self.shape.lean {
            Lean::First => sum - 1,
            Lean::Second => 1,
            Lean::Even => sum / 2,
            Lean::Any => self.random.between(1, sum - 1),
        };
        (first, sum - first)
    }

    /// Two odd numbers with this even sum.
    fn split_odd(&mut self, sum: usize) -> (usize, usize) {
        let (first, _) = self.split(sum);
        let first = if first % 2 == 1 { first } else { first - 1 };
        (first, sum - first)
    }

    /// A term of so many entries under so many binders.
    fn term(&mut self, size: usize, binders: usize) -> Term {
        if size == 1 {
            return self.leaf(binders);
        }
        let fitting: Vec<u8> = self
            .shape
            .term_kinds
            .iter()
            .copied()
            .filter(|&kind| match kind {
                kinds::ABSTRACTION => !self.types.is_empty(),
                kinds::BOX => !self.wire_types.is_empty(),
                kinds::LIFT | kinds::FORCE => true,
                _ => size >= 3,
            })
            .collect();
        let kind = match fitting.as_slice() {
            [] => self.random.pick(&[kinds::LIFT, kinds::FORCE]),
            some => self.random.pick(some),
        };
        match kind {
            kinds::ABSTRACTION => {
                let over = self.types[self.random.below(self.types.len())].clone();
                Term::Abstraction(over, self.part(size - 1, binders + 1))
            }
            kinds::BOX => {
                let at = self.wire_types[self.random.below(self.wire_types.len())].clone();
                Term::Box(at, self.part(size - 1, binders))
            }
            kinds::LIFT => Term::Lift(self.part(size - 1, binders)),
            kinds::FORCE => Term::Force(self.part(size - 1, binders)),
            _ => {
                let (first, second) = self.split(size - 1);
                let bound = if kind == kinds::LET { 2 } else { 0 };
                let first = self.part(first, binders);
                let second = self.part(second, binders + bound);
                match kind {
                    kinds::APPLICATION => Term::Application(first, second),
                    kinds::PAIR => Term::Pair(first, second),
                    kinds::LET => Term::Let(first, second),
                    _ => Term::Apply(first, second),
                }
            }
        }
    }

    fn part(&mut self, size: usize, binders: usize) -> Rc<Term> {
        Rc::new(self.term(size, binders))
    }

    /// A variable, label or gate, the numbers at the ends of their ranges
    /// more often than others, or the value of unit.
    fn leaf(&mut self, binders: usize) -> Term {
        let variables = if binders > 0 { 3 } else { 0 };
        let labels = if self.shape.labels > 0 { 2 } else { 0 };
        let choice = self.random.below(variables + labels + 2);
        if choice < variables {
            Term::Variable(self.number(binders))
        } else if choice < variables + labels {
            Term::Label(self.number(self.shape.labels))
        } else if choice == variables + labels {
            Term::UnitValue
        } else {
            Term::Gate(self.number(GATES.len()))
        }
    }

    fn number(&mut self, bound: usize) -> u16 {
        let number = match self.random.below(4) {
            0 => 0,
            1 => bound - 1,
            _ => self.random.below(bound),
        };
        u16::try_from(number).expect("a number in range")
    }
}

fn any_wire(random: &mut Random) -> Wire {
    random.pick(&[Wire::Bit, Wire::Qubit])
}

/// The type and all types inside it, in preorder.
fn all_positions(of: &Rc<Type>, to: &mut Vec<Rc<Type>>) {
    to.push(of.clone());
    for part in of.parts() {
        all_positions(part, to);
    }
}
