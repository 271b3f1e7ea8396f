//! All nodes of a term in file order, each with its type, if it has one, and
//! with what stands around it.

use crate::gates::GATES;
use crate::trees::{Term, Type, Wire};
use crate::types::MOST_ENTRIES;
use std::rc::Rc;

pub struct Node {
    pub term: Rc<Term>,
    /// None if the node or a part of it is at fault, and for a variable whose
    /// let takes no pair apart.
    pub of: Option<Rc<Type>>,
    /// The parts all have types and the rule fails or the type would be too
    /// large, or a let's first part has a type that is no pair.
    pub fault: bool,
    /// The binders in scope, outermost first.
    pub scope: Rc<Vec<usize>>,
    /// How many lifts and boxes there are around it.
    pub lifts: usize,
    pub boxes: usize,
    /// The number of the node that follows it and its parts.
    pub end: usize,
}

/// A bound variable. The two of a let follow each other, first half first.
pub struct Binder {
    pub node: usize,
    pub of: Option<Rc<Type>>,
    /// How many lifts there are around its node.
    pub lifts: usize,
}

pub struct Survey {
    pub nodes: Vec<Node>,
    pub binders: Vec<Binder>,
}

impl Survey {
    pub fn new(labels: &[Wire], term: &Rc<Term>) -> Survey {
        let mut survey = Survey {
            nodes: Vec::new(),
            binders: Vec::new(),
        };
        let around = Around {
            scope: Rc::new(Vec::new()),
            lifts: 0,
            boxes: 0,
        };
        survey.visit(labels, term, &around);
        survey
    }

    /// The binder of a variable.
    pub fn binder(&self, node: usize) -> Option<usize> {
        match *self.nodes[node].term {
            Term::Variable(argument) => {
                let scope = &self.nodes[node].scope;
                Some(scope[scope.len() - 1 - usize::from(argument)])
            }
            _ => None,
        }
    }

    fn visit(&mut self, labels: &[Wire], term: &Rc<Term>, around: &Around) -> Option<Rc<Type>> {
        let here = self.nodes.len();
        self.nodes.push(Node {
            term: term.clone(),
            of: None,
            fault: false,
            scope: around.scope.clone(),
            lifts: around.lifts,
            boxes: around.boxes,
            end: 0,
        });
        let found = match &**term {
            Term::Variable(_) => {
                let binder = self.binder(here).expect("a variable");
                Found::from(self.binders[binder].of.clone())
            }
            Term::Label(number) => Found::Type(labels[usize::from(*number)].as_type()),
            Term::Gate(number) => Found::Type(GATES[usize::from(*number)].circuit_type()),
            Term::UnitValue => Found::Type(Rc::new(Type::Unit)),
            Term::Abstraction(over, body) => {
                let inside = self.bind(here, around, &[Some(over.clone())]);
                match self.visit(labels, body, &inside) {
                    Some(to) => bounded(Type::Function(over.clone(), to)),
                    None => Found::Nothing,
                }
            }
            Term::Lift(part) => {
                let inside = Around {
                    lifts: around.lifts + 1,
                    ..around.clone()
                };
                match self.visit(labels, part, &inside) {
                    Some(of) => bounded(Type::Reusable(of)),
                    None => Found::Nothing,
                }
            }
            Term::Force(part) => match self.visit(labels, part, around).as_deref() {
                Some(Type::Reusable(of)) => Found::Type(of.clone()),
                Some(_) => Found::Fault,
                None => Found::Nothing,
            },
            Term::Box(at, part) => {
                let inside = Around {
                    boxes: around.boxes + 1,
                    ..around.clone()
                };
                match self.visit(labels, part, &inside) {
                    Some(of) => boxed(at, &of),
                    None => Found::Nothing,
                }
            }
            Term::Let(first, second) => {
                let left = self.visit(labels, first, around);
                let halves = match left.as_deref() {
                    Some(Type::Pair(half, other)) => [Some(half.clone()), Some(other.clone())],
                    _ => [None, None],
                };
                let no_pair = left.is_some() && halves[0].is_none();
                let inside = self.bind(here, around, &halves);
                let right = self.visit(labels, second, &inside);
                match right {
                    _ if no_pair => Found::Fault,
                    Some(right) if left.is_some() => Found::Type(right),
                    _ => Found::Nothing,
                }
            }
            Term::Application(first, second)
            | Term::Pair(first, second)
            | Term::Apply(first, second) => {
                let left = self.visit(labels, first, around);
                let right = self.visit(labels, second, around);
                match (left, right) {
                    (Some(left), Some(right)) => joined(term, left, right),
                    _ => Found::Nothing,
                }
            }
        };
        let end = self.nodes.len();
        let node = &mut self.nodes[here];
        node.end = end;
        match found {
            Found::Type(of) => node.of = Some(of),
            Found::Fault => node.fault = true,
            Found::Nothing => {}
        }
        node.of.clone()
    }

    /// What stands around a part in which these are bound.
    fn bind(&mut self, node: usize, around: &Around, types: &[Option<Rc<Type>>]) -> Around {
        let mut scope = (*around.scope).clone();
        for of in types {
            scope.push(self.binders.len());
            self.binders.push(Binder {
                node,
                of: of.clone(),
                lifts: around.lifts,
            });
        }
        Around {
            scope: Rc::new(scope),
            ..around.clone()
        }
    }
}

#[derive(Clone)]
struct Around {
    scope: Rc<Vec<usize>>,
    lifts: usize,
    boxes: usize,
}

enum Found {
    Type(Rc<Type>),
    Fault,
    Nothing,
}

impl From<Option<Rc<Type>>> for Found {
    fn from(of: Option<Rc<Type>>) -> Found {
        match of {
            Some(of) => Found::Type(of),
            None => Found::Nothing,
        }
    }
}

fn bounded(of: Type) -> Found {
    if of.size() > MOST_ENTRIES {
        Found::Fault
    } else {
        Found::Type(Rc::new(of))
    }
}

/// Box at T takes a reusable function from T to a wire type.
fn boxed(at: &Rc<Type>, of: &Type) -> Found {
    match of {
        Type::Reusable(function) => match &**function {
            Type::Function(from, to) if from == at && to.is_wire_type() => {
                bounded(Type::Circuit(from.clone(), to.clone()))
            }
            _ => Found::Fault,
        },
        _ => Found::Fault,
    }
}

fn joined(term: &Term, left: Rc<Type>, right: Rc<Type>) -> Found {
    let (from, to) = match (term, &*left) {
        (Term::Pair(..), _) => return bounded(Type::Pair(left, right)),
        (Term::Application(..), Type::Function(from, to)) => (from, to),
        (Term::Apply(..), Type::Circuit(from, to)) => (from, to),
        _ => return Found::Fault,
    };
    if *from == right {
        Found::Type(to.clone())
    } else {
        Found::Fault
    }
}
