//! Labels, types and terms as trees.

use crate::kinds;
use std::rc::Rc;

/// The type of one wire, and so of one label.
#[derive(Clone, Copy, PartialEq, Eq, Hash, Debug)]
pub enum Wire {
    Bit,
    Qubit,
}

#[derive(Clone, PartialEq, Eq, Hash, Debug)]
pub enum Type {
    Bit,
    Qubit,
    Pair(Rc<Type>, Rc<Type>),
    Function(Rc<Type>, Rc<Type>),
    Reusable(Rc<Type>),
    Circuit(Rc<Type>, Rc<Type>),
    Unit,
}

/// A variable counts the binders between it and its own. A label or gate has
/// its number. Abstraction and box hold their type.
#[derive(Clone, PartialEq, Eq, Debug)]
pub enum Term {
    Variable(u16),
    Label(u16),
    Gate(u16),
    Abstraction(Rc<Type>, Rc<Term>),
    Application(Rc<Term>, Rc<Term>),
    Pair(Rc<Term>, Rc<Term>),
    Let(Rc<Term>, Rc<Term>),
    Lift(Rc<Term>),
    Force(Rc<Term>),
    Box(Rc<Type>, Rc<Term>),
    Apply(Rc<Term>, Rc<Term>),
    /// The value of unit.
    UnitValue,
}

/// What a program file says. The listed types stand first in the type section,
/// in this order, used or not.
#[derive(Clone, PartialEq, Eq, Debug)]
pub struct Program {
    pub labels: Vec<Wire>,
    pub listed: Vec<Rc<Type>>,
    pub term: Rc<Term>,
}

impl Program {
    /// A program that lists no type besides those that its term has.
    pub fn new(labels: Vec<Wire>, term: Rc<Term>) -> Program {
        Program {
            labels,
            listed: Vec::new(),
            term,
        }
    }
}

impl Wire {
    pub fn kind(self) -> u8 {
        match self {
            Wire::Bit => kinds::BIT,
            Wire::Qubit => kinds::QUBIT,
        }
    }

    pub fn as_type(self) -> Rc<Type> {
        Rc::new(match self {
            Wire::Bit => Type::Bit,
            Wire::Qubit => Type::Qubit,
        })
    }
}

impl Type {
    pub fn kind(&self) -> u8 {
        match self {
            Type::Bit => kinds::BIT,
            Type::Qubit => kinds::QUBIT,
            Type::Pair(..) => kinds::PAIR_TYPE,
            Type::Function(..) => kinds::FUNCTION,
            Type::Reusable(..) => kinds::REUSABLE,
            Type::Circuit(..) => kinds::CIRCUIT,
            Type::Unit => kinds::UNIT,
        }
    }

    /// The parts, left to right.
    pub fn parts(&self) -> Vec<&Rc<Type>> {
        match self {
            Type::Bit | Type::Qubit | Type::Unit => vec![],
            Type::Reusable(part) => vec![part],
            Type::Pair(first, second)
            | Type::Function(first, second)
            | Type::Circuit(first, second) => vec![first, second],
        }
    }

    /// Bit, Qubit, unit and pairs of wire types.
    pub fn is_wire_type(&self) -> bool {
        match self {
            Type::Bit | Type::Qubit | Type::Unit => true,
            Type::Pair(first, second) => first.is_wire_type() && second.is_wire_type(),
            Type::Function(..) | Type::Reusable(..) | Type::Circuit(..) => false,
        }
    }

    /// How many entries the type has.
    pub fn size(&self) -> usize {
        match self {
            Type::Bit | Type::Qubit | Type::Unit => 1,
            Type::Reusable(part) => 1 + part.size(),
            Type::Pair(first, second)
            | Type::Function(first, second)
            | Type::Circuit(first, second) => 1 + first.size() + second.size(),
        }
    }

    /// How many entries its longest branch has.
    pub fn depth(&self) -> usize {
        1 + self
            .parts()
            .iter()
            .map(|part| part.depth())
            .max()
            .unwrap_or(0)
    }

    /// The type in preorder, one kind byte an entry.
    pub fn preorder(&self) -> Vec<u8> {
        let mut bytes = Vec::new();
        self.append_preorder(&mut bytes);
        bytes
    }

    fn append_preorder(&self, bytes: &mut Vec<u8>) {
        bytes.push(self.kind());
        for part in self.parts() {
            part.append_preorder(bytes);
        }
    }
}

impl Term {
    pub fn kind(&self) -> u8 {
        match self {
            Term::Variable(_) => kinds::VARIABLE,
            Term::Label(_) => kinds::LABEL,
            Term::Gate(_) => kinds::GATE,
            Term::Abstraction(..) => kinds::ABSTRACTION,
            Term::Application(..) => kinds::APPLICATION,
            Term::Pair(..) => kinds::PAIR,
            Term::Let(..) => kinds::LET,
            Term::Lift(_) => kinds::LIFT,
            Term::Force(_) => kinds::FORCE,
            Term::Box(..) => kinds::BOX,
            Term::Apply(..) => kinds::APPLY,
            Term::UnitValue => kinds::UNIT_VALUE,
        }
    }

    /// The parts, left to right.
    pub fn parts(&self) -> Vec<&Rc<Term>> {
        match self {
            Term::Variable(_) | Term::Label(_) | Term::Gate(_) | Term::UnitValue => vec![],
            Term::Abstraction(_, part)
            | Term::Lift(part)
            | Term::Force(part)
            | Term::Box(_, part) => vec![part],
            Term::Application(first, second)
            | Term::Pair(first, second)
            | Term::Let(first, second)
            | Term::Apply(first, second) => vec![first, second],
        }
    }

    /// How many entries the term has.
    pub fn size(&self) -> usize {
        1 + self.parts().iter().map(|part| part.size()).sum::<usize>()
    }

    /// How many entries its longest branch has.
    pub fn depth(&self) -> usize {
        1 + self
            .parts()
            .iter()
            .map(|part| part.depth())
            .max()
            .unwrap_or(0)
    }
}
