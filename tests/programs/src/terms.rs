//! Terms from their parts.

use program_files::{Term, Type};
use std::rc::Rc;

fn number(number: usize) -> u16 {
    u16::try_from(number).expect("16 bits")
}

pub fn variable(argument: usize) -> Rc<Term> {
    Rc::new(Term::Variable(number(argument)))
}

pub fn label(label: usize) -> Rc<Term> {
    Rc::new(Term::Label(number(label)))
}

pub fn gate(gate: usize) -> Rc<Term> {
    Rc::new(Term::Gate(number(gate)))
}

pub fn unit_value() -> Rc<Term> {
    Rc::new(Term::UnitValue)
}

pub fn abstraction(over: Rc<Type>, body: Rc<Term>) -> Rc<Term> {
    Rc::new(Term::Abstraction(over, body))
}

pub fn application(function: Rc<Term>, argument: Rc<Term>) -> Rc<Term> {
    Rc::new(Term::Application(function, argument))
}

pub fn pair(first: Rc<Term>, second: Rc<Term>) -> Rc<Term> {
    Rc::new(Term::Pair(first, second))
}

pub fn let_in(first: Rc<Term>, second: Rc<Term>) -> Rc<Term> {
    Rc::new(Term::Let(first, second))
}

pub fn lift(part: Rc<Term>) -> Rc<Term> {
    Rc::new(Term::Lift(part))
}

pub fn force(part: Rc<Term>) -> Rc<Term> {
    Rc::new(Term::Force(part))
}

/// Box at a type.
pub fn boxed(at: Rc<Type>, part: Rc<Term>) -> Rc<Term> {
    Rc::new(Term::Box(at, part))
}

pub fn apply(circuit: Rc<Term>, argument: Rc<Term>) -> Rc<Term> {
    Rc::new(Term::Apply(circuit, argument))
}
